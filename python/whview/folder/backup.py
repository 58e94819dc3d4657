"""`backup`: copies a folder to another one that was not there, as it is at one moment, also beside a night: its current version, catalogue,
strategy and sizes, and all changes that wait, those too that a night has in its hands. `--all` copies all versions. `--version N` copies
an older one alone with its catalogue: changes that wait are not for it. What is copied is compared with the versions' manifests.
"""

from __future__ import annotations

import os
from collections import Counter
from collections.abc import Collection
from contextlib import ExitStack, suppress
from itertools import product
from pathlib import Path
from typing import TYPE_CHECKING, NamedTuple

from ..catalogue.from_toml import FILE as CATALOGUE
from ..disk import is_same, remove, write
from ..finding import Failure, warn
from ..status import AT_WORK, BAD_INPUT, BAD_WORDS, DONE, Status
from ..streams import say
from . import puts
from .backups import found_in, version_faults, write_backup
from .batches import TAKEN
from .beside import Copier, beside, is_plain, judged, rights_of
from .claim import Identity, identities, identity, judge_written, names
from .gate import CHANGES, Gate
from .held import Held, Hold, hold
from .inputs import entries
from .manifest import files_of, found_manifest
from .numbers import MOST
from .packing import OWN
from .reading import catalogue_of, whole_number
from .versions import CURRENT, PART, VERSIONS, ending, newest, place, whole

if TYPE_CHECKING:
    from .command import Words

# Where a folder keeps what nights put aside, and where a night has files as they came of which it puts something aside.
ASIDE, WHOLE = "quarantine", "taken"
# What a night has in its hands, and where that comes from; and how often a moment is tried for.
HELD, TRIES = (("given", "data"), (CHANGES, CHANGES), (WHOLE, CHANGES), (TAKEN, CHANGES)), 20


class Moment(NamedTuple):
    """The version that counts, the nights that are under way or were stopped, and the files of which these put something aside: by these it is
    told that a night has gone on with what it has in its hands.
    """

    version: int | None
    nights: list[Path]
    aside: list[Path]


# ---- what waits


def copy_waiting(folder: Path, part: Path, copier: Copier) -> None:
    """Copies what the next night reads beside the version: texts, tables of new views, and changes with the notes of their batches."""
    for path in entries(folder):
        if path.is_file() and path.name not in OWN and path.suffix not in (".dot", ".svg"):
            judge_written(path, str(path), part)
            # A catalogue may be a link to one that is kept elsewhere.
            copier.file(path, part / path.name, flags=0)
    nights = ending(folder, PART)
    for kind in ("data", CHANGES):
        copy_files(folder / kind, part / kind, copier)
    for night, (taken, kind) in product(nights, HELD):
        sifted = {path.name for path in entries(night / WHOLE)} if taken == CHANGES else ()
        copy_files(night / taken, part / kind, copier, folder / kind, sifted)
    os.makedirs(part / CHANGES, exist_ok=True)
    os.chmod(part / CHANGES, rights_of(folder / CHANGES))
    if (folder / ASIDE).is_dir():
        copier.folder(folder / ASIDE, part / ASIDE)


def copy_files(home: Path, to: Path, copier: Copier, other: Path | None = None, without: Collection[str] = ()) -> None:
    """Copies the files of a folder, each under a name that is free, but for those that the other folder has too and some names."""
    there: Counter[Identity] = identities(other) if other and other.is_dir() else Counter()
    for path in entries(home):
        if is_plain(path) and path.is_file() and path.name not in without and not there.get(identity(path.stat())):
            os.makedirs(to, exist_ok=True)
            judge_written(path, str(path), to)
            copier.file(path, to / next(name for name in names(path.name) if not (to / name).exists()))


def cut(folder: Path, part: Path, copier: Copier) -> Hold:
    """Copies what waits, and holds the version that it waits for. Nobody takes changes meanwhile; where a night is decided meanwhile it is done
    again.
    """
    for _ in range(TRIES):
        before = moment(folder)
        number = before.version
        if number is None:
            raise Failure(BAD_INPUT, f"{folder} has no version yet; `whview folder night {folder} --commit` makes the first ones")
        # What a night has in its hands goes to its version meanwhile.
        with suppress(FileNotFoundError):
            copy_waiting(folder, part, copier)
            handle = hold(place(folder, number))
            if handle is not None and moment(folder) == before:
                return Hold(number, handle)
            if handle is not None:
                os.close(handle)
        clear(part, copier)
    raise Failure(AT_WORK, f"{folder} changes all the time; try again later")


def moment(folder: Path) -> Moment:
    """How a folder is now."""
    nights = ending(folder, PART)
    return Moment(newest(folder), nights, [path for night in nights for path in entries(night / WHOLE)])


def clear(part: Path, copier: Copier) -> None:
    """Begins anew."""
    copier.copies.clear()
    for path in part.iterdir():
        remove(path)


# ---- the versions


def copy_version(folder: Path, number: int, part: Path, copier: Copier) -> None:
    """Copies a version that is held, and compares the copy with its manifest, or where it has none with its files."""
    version, made = place(folder, number), place(part, number)
    os.makedirs(made.parent, exist_ok=True)
    copier.folder(version, made)
    found = [f"{version}/{line}" for line in version_faults(made)]
    if found_manifest(version) is None:
        warn([f"{version} has no manifest: its copy is compared with its files as they are now"])
        found = [f"{version / name}: it changed meanwhile" for name, path in files_of(version).items() if not is_same(made / name, path)]
    if found:
        raise Failure(BAD_INPUT, *found, f"{version} is not as it was made, so no backup is made of it; `--version N` takes another one")


def older(folder: Path, part: Path, number: int) -> None:
    """Puts the catalogue beside a version that is copied alone."""
    write(part / CATALOGUE, [catalogue_of(folder, number).content])
    os.mkdir(part / CHANGES)


def point(part: Path, number: int) -> None:
    """Has a copy's `current` name a version."""
    os.symlink(f"{VERSIONS}/{number}", part / CURRENT)


# ---- what is asked for


def run(words: Words) -> Status:
    folder, made = words.folder, judged(Path(words.operands[1]), words.folder)
    asked = words.option("--version")
    if asked is not None and words.everything:
        raise Failure(BAD_WORDS, "--all copies all versions; give it or --version N")
    number = None if asked is None else whole_number(asked, "--version", 0, MOST - 1)
    with beside(made, folder) as part, ExitStack() as held:
        numbers = copied(folder, part, number, words.everything, held)
        point(part, numbers[-1])
        write_backup(part, found_in(part, numbers[-1], numbers))
    what = f"versions {', '.join(map(str, numbers))}" if len(numbers) > 1 else f"version {numbers[0]}"
    say([f"{made} has {what} of {folder}; `whview folder restore {made} NEW` makes a folder of it"])
    return DONE


def copied(folder: Path, part: Path, number: int | None, everything: bool, held: ExitStack) -> list[int]:
    """Copies what is asked for, and answers the numbers of its versions, the current one last."""
    copier = Copier()
    if number is not None:
        held.enter_context(Held(folder, number))
    if number is not None and number != newest(folder):
        numbers = [number]
        older(folder, part, number)
    else:
        with Gate(folder) as gate:
            warn(puts.settle(gate))
            current, handle = cut(folder, part, copier)
        held.callback(os.close, handle)
        numbers = [*held_before(folder, current, held), current] if everything else [current]
    for each in numbers:
        copy_version(folder, each, part, copier)
    return numbers


def held_before(folder: Path, current: int, held: ExitStack) -> list[int]:
    """The versions before the current one, which are held; those that a night removes meanwhile are left out."""
    found: list[int] = []
    for number in (number for number in whole(folder) if number < current):
        handle = hold(place(folder, number))
        if handle is not None:
            held.callback(os.close, handle)
            found.append(number)
    return found
