"""By what a folder is known: a name of 128 drawn bits, which each of its versions has in its manifest. It stands in a file beside the
inodes of the folder and of that file, so that a copy of the folder is told from it: a copy gets a name of its own with its first night
that is kept, and knows the versions that it was copied with by the name of before.
"""

import os
import re
from collections.abc import Mapping
from pathlib import Path
from types import MappingProxyType
from typing import NamedTuple

from ..disk import READ_BITS, remove, sync, write
from ..finding import Failure
from ..status import BAD_INPUT
from .manifest import FILE as MANIFEST
from .manifest import Head, head_of

FILE, FORM = ".identity", "identity 1"
TEXT = re.compile(r"identity 1\nfolder ([0-9a-f]{32})\ninodes ([0-9]+) ([0-9]+)\nunvouched (-?[0-9]+)\n((?:before [0-9a-f]{32} -?[0-9]+\n)*)")
NUMBER = re.compile(r"0|[1-9][0-9]{0,18}")
# All versions may be without a manifest, or none.
ALL, NONE = 2**63 - 1, -1


class Identity(NamedTuple):
    """A folder's name, which is empty before its first night that is kept; the names that it had as what it was copied from, each with its
    newest version of then; up to which version there may be no manifest; and whether it is a copy that has not got its own name yet.
    """

    name: str = ""
    before: Mapping[str, int] = MappingProxyType({})
    unvouched: int = ALL
    is_copy: bool = False

    def owns(self, version: Path, number: int) -> bool:
        """Whether a folder is the version of this number, by the beginning of its manifest; one of before there were any has tables."""
        head = head_of(version)
        if head is None:
            return number <= self.unvouched and not os.path.lexists(version / MANIFEST) and (version / "data").is_dir()
        return head.version == number and self.knows(head.folder, number)

    def knows(self, name: str, number: int) -> bool:
        """Whether a version of this number that has this name is the folder's."""
        return bool(name) and (name == self.name or number <= self.before.get(name, NONE))

    @property
    def mark(self) -> str:
        """What a name in versions/ has by which it is the folder's; a copy that has no name yet goes by the one of before."""
        return f".{self.name or list(self.before)[-1]}" if self.names else ""

    @property
    def names(self) -> set[str]:
        """All names by which it is known."""
        return {self.name, *self.before} - {""}


def numbers(folder: Path) -> list[int]:
    """The numbers that folders in versions/ have as their names, rising, whatever they hold."""
    try:
        with os.scandir(folder / "versions") as entries:
            return sorted(int(entry.name) for entry in entries if NUMBER.fullmatch(entry.name) and entry.is_dir())
    except (FileNotFoundError, NotADirectoryError):
        return []


def bound(folder: Path, name: str) -> int:
    """The newest version there is that has a name."""
    heads = ((number, head_of(folder / "versions" / str(number))) for number in reversed(numbers(folder)))
    return next((number for number, head in heads if head == Head(name, number)), NONE)


def names_of(folder: Path) -> dict[str, int]:
    """The names that versions have, each with the newest that has it; that of the newest of all is the last."""
    found: dict[str, int] = {}
    for number in numbers(folder):
        head = head_of(folder / "versions" / str(number))
        if head and head.version == number:
            found.pop(head.folder, None)
            found[head.folder] = number
    return found


def oldest(folder: Path) -> int:
    """The oldest version that has a manifest."""
    return next((number for number in numbers(folder) if head_of(folder / "versions" / str(number))), ALL)


def identity_of(folder: Path) -> Identity:
    """By what a folder is known as it is now."""
    if not (folder / FILE).is_file():
        return without_file(folder)
    text = (folder / FILE).read_text(errors="replace")
    found = TEXT.fullmatch(text)
    if not found:
        raise Failure(BAD_INPUT, f"{folder / FILE} is damaged; move it away, and the folder is taken for a copy of what it was")
    name, unvouched = found[1], int(found[4])
    before = {word[1]: int(word[2]) for word in map(str.split, found[5].splitlines())}
    if (int(found[2]), int(found[3])) == (folder.stat().st_ino, (folder / FILE).stat().st_ino):
        return Identity(name, before, unvouched)
    return Identity("", dict(before) | {name: bound(folder, name)}, unvouched, True)


def without_file(folder: Path) -> Identity:
    """What is known of a folder without the file: nothing was kept there yet, or not by manifests; or it is a copy without hidden files."""
    try:
        link = os.readlink(folder / "current")
    except OSError:
        link = ""
    head = head_of(folder / link) if link else None
    return Identity("", {head.folder: bound(folder, head.folder)}, oldest(folder) - 1, True) if head else Identity()


def sign(folder: Path, identity: Identity) -> Identity:
    """Writes a folder's identity, with a name of its own where it has none, and writes it through."""
    made = identity._replace(name=identity.name or os.urandom(16).hex(), is_copy=False)
    part = folder / f"{FILE}.part"
    remove(part)
    write(part, [])
    inodes = f"{folder.stat().st_ino} {part.stat().st_ino}"
    before = "".join(f"before {name} {number}\n" for name, number in made.before.items())
    write(part, [f"{FORM}\nfolder {made.name}\ninodes {inodes}\nunvouched {made.unvouched}\n{before}".encode()])
    os.chmod(part, part.stat().st_mode & READ_BITS)
    sync(part)
    os.rename(part, folder / FILE)
    sync(folder)
    return made


def withdraw(folder: Path) -> None:
    """Removes the identity of a folder in which nothing was kept by it."""
    remove(folder / FILE)
