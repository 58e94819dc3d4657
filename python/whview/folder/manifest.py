"""What a version says of itself: its number, the version that it was made from, the folder that it is of, and of each of its files how
large it is, the SHA-256 of it, or of each of its pieces, and how it lay on the disk. It is one file of lines, written last, and ends with
the sum of all that stands above. Manifests of form 1 have no pieces.
"""

import hashlib
import os
import pwd
import re
import time
from collections.abc import Iterable, Mapping
from dataclasses import dataclass, field
from pathlib import Path
from types import MappingProxyType
from typing import NamedTuple, TypeAlias

from ..disk import READ_BITS, remove, sync, write
from . import piece_sums
from .piece_sums import Piece

FILE, FORM = "manifest.txt", "manifest 2"
# The kinds of versions: the tables that a folder began with, a night, an older version once more, and what was there before manifests.
FIRST, NIGHT, ROLLBACK, TAKEN_OVER = "first", "night", "rollback", "taken over"
HEAD = re.compile(rb"manifest [12]\nfolder ([0-9a-f]{32})\nversion (0|[1-9][0-9]{0,18})\n")
# How much of a manifest has its head.
BEGINNING = 128
# What stands in the place of a file's sum where its pieces follow.
PIECES = "pieces"
# How a file looks: its device, inode, size and times; and the pieces that are looked for in it.
Look: TypeAlias = tuple[int, int, int, int, int, tuple[Piece, ...]]
# Whether files that this process has read have these pieces, by how they looked.
READ: dict[Look, bool] = {}


class Entry(NamedTuple):
    """A file of a version: the sums of its pieces, of which there is one at least, and its size; and by what it is seen without reading that
    nobody touched it.
    """

    pieces: tuple[Piece, ...]
    size: int
    written: int
    changed: int
    inode: int

    def is_untouched(self, found: os.stat_result, seen: Mapping[int, int] = MappingProxyType({})) -> bool:
        """Whether a file looks as it did when its version was made. A link more or less changes the look, and nothing else; after a prune it is
        `seen` when the system noted that.
        """
        is_alike = (found.st_size, found.st_mtime_ns, found.st_ino) == (self.size, self.written, self.inode)
        return is_alike and found.st_ctime_ns in (self.changed, seen.get(self.inode))


class Manifest(NamedTuple):
    """A version's word of itself. A parent that had no manifest has an empty sum; of a rollback `of` is the version whose files it has."""

    folder: str
    version: int
    parent: int | None
    parent_sum: str
    kind: str
    of: int | None
    time: str
    user: str
    host: str
    work: int | None
    changes: dict[str, int]
    files: dict[str, Entry]
    sum: str = ""


class Head(NamedTuple):
    """What stands at the beginning of a manifest: the folder that a version is of, and its number."""

    folder: str
    version: int


class NoManifest(Exception):
    """Why a version does not vouch for itself."""


class Difference(NamedTuple):
    """A file of a version that is not what its manifest says, and how it differs."""

    file: str
    how: str


# ---- what is written


def sum_of(path: Path) -> str:
    """The SHA-256 of a file's bytes."""
    with open(path, "rb", buffering=0) as file:
        return piece_sums.read_sum(file, os.fstat(file.fileno()).st_size)


def files_of(version: Path) -> dict[str, Path]:
    """The files of a version but for its manifest, by their names in it."""
    found: dict[str, Path] = {}
    for folder, _, names in os.walk(version):
        within = os.path.relpath(folder, version)
        found |= {name if within == "." else f"{within}/{name}": Path(folder, name) for name in names}
    return {name: found[name] for name in sorted(found) if name != FILE and not Path(name).name.startswith(".")}


def entries_of(version: Path, known: Iterable[Entry] = (), pieces: Mapping[str, tuple[Piece, ...]] = MappingProxyType({})) -> dict[str, Entry]:
    """The entries of a version's files. One that is a link to a file of another version has the sums that are `known` of it, which was found
    to be as its manifest says; of some that were just written the pieces are told by their names; all others are read.
    """
    inodes = {entry.inode: entry for entry in known}
    found: dict[str, Entry] = {}
    for name, path in files_of(version).items():
        look = os.stat(path)
        linked = inodes.get(look.st_ino)
        if linked and look.st_nlink > 1 and (look.st_size, look.st_mtime_ns) == (linked.size, linked.written):
            sums = linked.pieces
        else:
            sums = pieces.get(name, ())
        if sum(piece.size for piece in sums) != look.st_size or not sums:
            sums = piece_sums.of_file(path, piece_sums.sizes_of(look.st_size))
        found[name] = Entry(sums, look.st_size, look.st_mtime_ns, look.st_ctime_ns, look.st_ino)
    return found


def who() -> tuple[str, str]:
    """The user and the host."""
    try:
        user = pwd.getpwuid(os.geteuid()).pw_name
    except KeyError:
        user = str(os.geteuid())
    return "".join(user.split()), "".join(os.uname().nodename.split())


def now() -> str:
    return time.strftime("%Y-%m-%dT%H:%M:%SZ", time.gmtime())


def text_of(manifest: Manifest) -> str:
    """The lines above the sum."""
    parent = "none" if manifest.parent is None else f"{manifest.parent} {manifest.parent_sum or 'none'}"
    lines = [FORM, f"folder {manifest.folder}", f"version {manifest.version}", f"parent {parent}"]
    lines += [f"kind {manifest.kind}" if manifest.of is None else f"kind {manifest.kind} {manifest.of}", f"time {manifest.time}"]
    lines += [f"user {manifest.user}", f"host {manifest.host}"]
    lines += [] if manifest.work is None else [f"work {manifest.work}"]
    lines += [f"change {name} {count}" for name, count in manifest.changes.items()]
    for name, entry in manifest.files.items():
        lines.append(f"file {sum_told(entry)} {entry.size} {entry.written} {entry.changed} {entry.inode} {name}")
        lines += [f"piece {piece.size} {piece.sum}" for piece in entry.pieces if len(entry.pieces) > 1]
    return "\n".join([*lines, ""])


def sum_told(entry: Entry) -> str:
    """The sum of a file of one piece; those of others follow."""
    return entry.pieces[0].sum if len(entry.pieces) == 1 else PIECES


def write_manifest(version: Path, manifest: Manifest) -> Manifest:
    """Writes the manifest of a version whose other files are written through, and writes it through. Answers it with its sum."""
    text = text_of(manifest).encode()
    made = manifest._replace(sum=hashlib.sha256(text).hexdigest())
    part = version / f".{FILE}"
    # One that was left read-only by a stop could not be written again.
    remove(part)
    write(part, [text, f"sum {made.sum}\n".encode()])
    os.chmod(part, part.stat().st_mode & READ_BITS)
    sync(part)
    os.rename(part, version / FILE)
    sync(version)
    return made


# ---- what is read


def content_of(version: Path) -> bytes:
    """The bytes of a version's manifest."""
    file = version / FILE
    try:
        if not file.is_file():
            raise NoManifest(f"it has no {FILE}")
        return file.read_bytes()
    except OSError as error:
        raise NoManifest(f"its {FILE} cannot be read: {error.strerror}") from error


def head_of(version: Path) -> Head | None:
    """The folder and number that stand at the beginning of a version's manifest, which is not judged; None where there is none."""
    try:
        with open(version / FILE, "rb", opener=lambda path, flags: os.open(path, flags | os.O_NONBLOCK)) as file:
            found = HEAD.match(file.read(BEGINNING) or b"")
    except OSError:
        return None
    return Head(found[1].decode(), int(found[2])) if found else None


def read_manifest(version: Path) -> Manifest:
    """The manifest of a version, which is whole."""
    content = content_of(version)
    above, mark, below = content.rpartition(b"sum ")
    if not HEAD.match(content) or not mark or below != f"{hashlib.sha256(above).hexdigest()}\n".encode():
        raise NoManifest(f"its {FILE} is damaged")
    try:
        return manifest_of(above.decode(), below.decode().strip())
    except (ValueError, KeyError, IndexError) as error:
        raise NoManifest(f"its {FILE} is of another form") from error


@dataclass(slots=True)
class Lines:
    """What the lines of a manifest say, one after another: what stands once, by its first word; the changes; the files, and the pieces of each,
    of which the last file gets those that follow it.
    """

    once: dict[str, str] = field(default_factory=dict)
    changes: dict[str, int] = field(default_factory=dict)
    entries: dict[str, Entry] = field(default_factory=dict)
    pieces: dict[str, list[Piece]] = field(default_factory=dict)
    last: str = ""

    def files(self) -> dict[str, Entry]:
        """The files, each with its pieces."""
        return {name: entry._replace(pieces=tuple(self.pieces[name])) for name, entry in self.entries.items()}

    def take(self, line: str) -> None:
        """Takes the next line."""
        key, _, rest = line.partition(" ")
        if key == "file":
            told, size, written, changed, inode, self.last = rest.split(" ", 5)
            self.pieces[self.last] = [] if told == PIECES else [Piece(int(size), told)]
            self.entries[self.last] = Entry((), int(size), int(written), int(changed), int(inode))
        elif key == "piece":
            size, told = rest.split(" ")
            self.pieces[self.last].append(Piece(int(size), told))
        elif key == "change":
            view, count = rest.split(" ")
            self.changes[view] = int(count)
        else:
            self.once[key] = rest


def manifest_of(text: str, sum_of_text: str) -> Manifest:
    """The manifest that lines are, which have this sum."""
    lines = Lines()
    for line in text.splitlines()[1:]:
        lines.take(line)
    once = lines.once
    parent, _, parent_sum = once["parent"].partition(" ")
    kind, of = ended_by_number(once["kind"])
    return Manifest(
        folder=once["folder"],
        version=int(once["version"]),
        parent=None if parent == "none" else int(parent),
        parent_sum="" if parent_sum == "none" else parent_sum,
        kind=kind,
        of=of,
        time=once["time"],
        user=once["user"],
        host=once["host"],
        work=int(once["work"]) if "work" in once else None,
        changes=lines.changes,
        files=lines.files(),
        sum=sum_of_text,
    )


def ended_by_number(text: str) -> tuple[str, int | None]:
    """A kind, and the number behind it where there is one."""
    kind, _, number = text.rpartition(" ")
    return (kind, int(number)) if kind and number.isdecimal() else (text, None)


def found_manifest(version: Path) -> Manifest | None:
    """The manifest of a version, or None where it has none that is whole."""
    try:
        return read_manifest(version)
    except NoManifest:
        return None


# ---- what differs


def differing(version: Path, manifest: Manifest, reads_all: bool = False, seen: Mapping[int, int] = MappingProxyType({})) -> list[Difference]:
    """The files of a version that are not what its manifest says, and those that it does not name. A file that looks as it was kept, or was
    `seen` after a prune, is read only where all are.
    """
    there = files_of(version)
    found: list[Difference] = []
    for name, entry in manifest.files.items():
        how = how_it_differs(there[name], entry, reads_all, seen) if name in there else "it is not there"
        if how:
            found.append(Difference(name, how))
    return found + [Difference(name, "its manifest does not name it") for name in there if name not in manifest.files]


def how_it_differs(path: Path, entry: Entry, reads_all: bool, seen: Mapping[int, int]) -> str:
    """How a file differs from its entry; an empty text where it does not."""
    try:
        look = os.stat(path)
        if entry.is_untouched(look, seen) and not reads_all:
            return ""
        if not path.is_file():
            return "it is no file"
        if look.st_size != entry.size:
            return f"it has {look.st_size:,} bytes, and had {entry.size:,}"
        return "" if is_as(path, look, entry.pieces) else "it has other bytes than it had"
    except OSError as error:
        return f"it cannot be read: {error.strerror}"


def is_as(path: Path, look: os.stat_result, pieces: tuple[Piece, ...]) -> bool:
    """Whether a file has these pieces. It is read once as long as it looks the same, under whatever name."""
    known = look.st_dev, look.st_ino, look.st_size, look.st_mtime_ns, look.st_ctime_ns, pieces
    if known not in READ:
        READ[known] = piece_sums.is_of(path, pieces)
    return READ[known]
