"""`restore`: makes a folder that was not there of a backup, all of which is compared with what the backup says of it. The folder has a name of
its own, and its nights go on where the backup was made.
"""

from __future__ import annotations

import os
from pathlib import Path
from typing import TYPE_CHECKING

from ..finding import Failure
from ..status import BAD_INPUT, DONE, Status
from ..streams import say
from .backups import FILE, Backup, faults, read_backup
from .beside import Copier, beside, judged, rights_of
from .gate import CHANGES
from .identity import identity_of, names_of
from .versions import CURRENT, VERSIONS, place
from .vouching import with_name

if TYPE_CHECKING:
    from .command import Words


def copy_all(backup: Path, said: Backup, part: Path) -> None:
    """Copies the versions and files that a backup names, and no others."""
    copier = Copier()
    os.mkdir(part / VERSIONS)
    for number in said.versions:
        if not place(backup, number).is_dir():
            raise Failure(BAD_INPUT, f"{place(backup, number)} is not there")
        copier.folder(place(backup, number), place(part, number))
    os.makedirs(part / CHANGES)
    os.chmod(part / CHANGES, rights_of(backup / CHANGES))
    for name in said.files:
        if (backup / name).is_file() and not (part / name).exists():
            os.makedirs((part / name).parent, exist_ok=True)
            copier.file(backup / name, part / name)
    os.symlink(f"{VERSIONS}/{said.current}", part / CURRENT)


def run(words: Words) -> Status:
    backup, said = words.folder, read_backup(words.folder)
    made = judged(Path(words.operands[1]), backup)
    with beside(made, backup) as part:
        copy_all(backup, said, part)
        found = faults(part, said, backup)
        if found:
            raise Failure(BAD_INPUT, *found, f"{backup} is not as its {FILE} says, and no folder is made of it")
        # All its versions are the backup's, under whatever names the folder had; and it is no copy of which somebody has to say whose
        # changes it has.
        known = identity_of(part)
        with_name(part, known._replace(before=names_of(part) or known.before, is_copy=False))
    waits = len([name for name in said.files if name.startswith(f"{CHANGES}/") and name.endswith(".csv")])
    say([f"{made} is made, with version {said.current} of {said.time} and {waits} file{'s' * (waits != 1)} of changes for its next night"])
    return DONE
