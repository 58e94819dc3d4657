"""What a backup says of itself, in a file of its own: its versions with the sums of their manifests, and each other file with its own sum. A
version of before there were manifests has its files named there too.
"""

import hashlib
import re
from dataclasses import dataclass
from pathlib import Path

from ..disk import write
from ..finding import Failure
from ..status import BAD_INPUT
from .manifest import FILE as MANIFEST
from .manifest import differing, files_of, found_manifest, now, sum_of
from .versions import VERSIONS, place

FILE, FORM = "backup.txt", "backup 1"
LINE = re.compile(r"(?:version (?P<number>0|[1-9][0-9]*) (?P<manifest>[0-9a-f]{64}|none)|file (?P<sum>[0-9a-f]{64}) (?P<name>.+))")


@dataclass(frozen=True, slots=True)
class Backup:
    """The versions of a backup, each with the sum of its manifest, or an empty text; and its other files with theirs."""

    time: str
    current: int
    versions: dict[int, str]
    files: dict[str, str]


# ---- what is written


def found_in(folder: Path, current: int, numbers: list[int]) -> Backup:
    """What is to be said of a folder that is made."""
    manifests = {number: found_manifest(place(folder, number)) for number in numbers}
    files = {name: sum_of(path) for name, path in named_files(folder, [number for number in numbers if manifests[number]]).items()}
    return Backup(now(), current, {number: found.sum if found else "" for number, found in manifests.items()}, files)


def named_files(folder: Path, vouching: list[int]) -> dict[str, Path]:
    """The files of a backup but for those of versions that vouch for themselves, by their names in it. Notes of batches are hidden ones."""
    found = {str(path.relative_to(folder)): path for path in sorted(folder.rglob("*")) if path.is_file() and not path.is_symlink()}
    apart = tuple(f"{VERSIONS}/{number}/" for number in vouching)
    return {name: path for name, path in found.items() if name != FILE and not name.startswith(apart)}


def write_backup(folder: Path, backup: Backup) -> None:
    """Writes the file, whose last line is the sum of those above."""
    lines = [FORM, f"time {backup.time}", f"current {backup.current}"]
    lines += [f"version {number} {manifest or 'none'}" for number, manifest in backup.versions.items()]
    lines += [f"file {each} {name}" for name, each in backup.files.items()]
    text = "".join(f"{line}\n" for line in lines).encode(errors="surrogateescape")
    write(folder / FILE, [text, f"sum {hashlib.sha256(text).hexdigest()}\n".encode()])


# ---- what is read


def read_backup(folder: Path) -> Backup:
    """What a backup says of itself, where that is whole."""
    if not (folder / FILE).is_file():
        raise Failure(BAD_INPUT, f"{folder} is no backup: it has no {FILE}, which `whview folder backup` writes")
    above, mark, below = (folder / FILE).read_bytes().rpartition(b"sum ")
    lines = above.decode(errors="surrogateescape").split("\n")
    entries = [entry for entry in map(LINE.fullmatch, lines[3:-1]) if entry]
    is_whole = bool(mark) and lines[0] == FORM and len(entries) == len(lines[3:-1])
    if not is_whole or below != f"{hashlib.sha256(above).hexdigest()}\n".encode():
        raise Failure(BAD_INPUT, f"{folder / FILE} is damaged")
    versions = {int(each["number"]): "" if each["manifest"] == "none" else each["manifest"] for each in entries if each["number"]}
    files = {each["name"]: each["sum"] for each in entries if each["name"]}
    if any(not is_within(name) for name in files):
        raise Failure(BAD_INPUT, f"{folder / FILE} names a file outside of the backup")
    return Backup(lines[1].removeprefix("time "), int(lines[2].removeprefix("current ")), versions, files)


def is_within(name: str) -> bool:
    return not name.startswith("/") and ".." not in name.split("/")


# ---- what differs


def faults(folder: Path, backup: Backup, told: Path) -> list[str]:
    """What of a copy is not as its backup says, a line each; `told` is what it was copied from."""
    found = [f"{told / name}: {how}" for name, each in backup.files.items() if (how := how_of(folder / name, each))]
    for number, manifest in backup.versions.items():
        found += [f"{told / VERSIONS / str(number)}/{line}" for line in version_faults(place(folder, number), manifest)]
    return found


def how_of(path: Path, wanted: str) -> str:
    if not path.is_file():
        return "it is not there"
    return "" if sum_of(path) == wanted else "it has other bytes than it had"


def version_faults(version: Path, wanted: str = "") -> list[str]:
    """What of a version's copy is not as its manifest says, all files being read."""
    manifest = found_manifest(version)
    if manifest is None or (wanted and manifest.sum != wanted):
        return [f"{MANIFEST}: it is not the one that it was"] if wanted or manifest is not None or not files_of(version) else []
    return [f"{each.file}: {each.how}" for each in differing(version, manifest, reads_all=True)]
