"""A folder that is a copy of another one, or came from another file system: what of the original's nights it must not take for its own.

A night that was stopped before it was decided has changes in its hands. Where the copy shares changes/ with the original, both would give
them back; and a copy that was made while a night was at work may have the same changes in changes/ and in a version.
"""

from pathlib import Path

from ..disk import is_same
from ..finding import Failure
from ..status import BAD_INPUT
from .identity import Identity
from .inputs import entries
from .manifest import found_manifest
from .piece_sums import is_of
from .versions import PART, VERSIONS, ending, place, whole

WHAT = "is a copy of another folder, or came from another file system"


def judge_copy(folder: Path, identity: Identity, adopts: bool) -> None:
    """Refuses a copy of which it is not clear whose changes it has, unless somebody said that they are its own."""
    if not identity.is_copy:
        return
    parts = ending(folder, PART, identity)
    twice = [line for part in parts for line in given_back(folder, part)]
    if twice:
        raise Failure(BAD_INPUT, *twice)
    found = [of_part(folder, part) for part in parts] + carried_out(folder, identity)
    if found and not adopts:
        both = "of what it has it cannot be told whether the original's next night carries it out as well"
        word = "where this folder takes the place of the original, `--adopt` behind `night .. --commit` takes all that as its own"
        raise Failure(BAD_INPUT, f"{folder} {WHAT}, and {both}:", *found, f"{word}; else remove it here")


def of_part(folder: Path, part: Path) -> str:
    """That a stopped night has changes in its hands."""
    return f"    {part.relative_to(folder)} has the changes of a night that was stopped, which its folder's next night gives back"


def given_back(folder: Path, part: Path) -> list[str]:
    """The files that a stopped night was giving back: in a copy without hard links it cannot be told whether they are one."""
    pairs = ((file, folder / "changes" / file.name) for file in entries(part / "changes"))
    told = "have the same bytes in a folder that is a copy: remove the one, or where both are meant rename the other"
    return [f"{file} and {other} {told}" for file, other in pairs if is_same(other, file) and not other.samefile(file)]


def carried_out(folder: Path, identity: Identity) -> list[str]:
    """Files of changes/ of which a version has carried out one of the same bytes."""
    files, found = [file for file in entries(folder / "changes") if file.is_file()], []
    for number in whole(folder, identity) if files else ():
        found += carried_out_by(folder, number, files)
    return found


def carried_out_by(folder: Path, number: int, files: list[Path]) -> list[str]:
    """Those that one version has carried out."""
    manifest = found_manifest(place(folder, number))
    known = {name: entry for name, entry in manifest.files.items() if name.startswith("changes/")} if manifest else {}
    alike = [(file, name) for file in files for name, entry in known.items() if is_of(file, entry.pieces)]
    return [f"    changes/{file.name} has the bytes of {VERSIONS}/{number}/{name}, which are carried out" for file, name in alike]
