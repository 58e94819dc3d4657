"""Folders that are there whole or not at all: each is written to a hidden one beside it, written through, and gets its name at the end."""

from __future__ import annotations

import fcntl
import os
import stat
from collections.abc import Iterator
from contextlib import contextmanager, suppress
from pathlib import Path

from ..disk import BLOCK, link, remove, sync, telling, what, write
from ..finding import Failure, warn
from ..status import AT_WORK, BAD_WORDS
from .lock import taken


def judged(given: Path, apart: Path) -> Path:
    """Where a folder is to be made, which is not there yet, and is not within another one."""
    made = Path(os.path.abspath(given))
    if os.path.lexists(made):
        raise Failure(BAD_WORDS, f"{given} is there already, and stays as it is; name a folder that is not there")
    if not made.parent.is_dir():
        raise Failure(BAD_WORDS, f"there is no folder {made.parent}, in which {made.name} would be made")
    if Path(os.path.realpath(made)).is_relative_to(os.path.realpath(apart)):
        raise Failure(BAD_WORDS, f"{given} would be within {apart}; name a folder outside of it")
    return made


def begun(part: Path) -> int:
    """Makes the hidden folder, which is locked as long as somebody writes it. One that was left is made anew."""
    if part.is_dir() and not part.is_symlink():
        handle = os.open(part, os.O_RDONLY | os.O_DIRECTORY)
        if not taken(handle, fcntl.LOCK_EX):
            os.close(handle)
            raise Failure(AT_WORK, f"somebody else is making {part}; try again when that has ended")
        remove(part)
        os.close(handle)
    # Nobody else reads what is not compared with its sums yet.
    os.mkdir(part, 0o700)
    try:
        handle = os.open(part, os.O_RDONLY | os.O_DIRECTORY)
        fcntl.flock(handle, fcntl.LOCK_EX | fcntl.LOCK_NB)
    except OSError:
        os.rmdir(part)
        raise
    return handle


@contextmanager
def beside(made: Path, like: Path) -> Iterator[Path]:
    """The hidden folder, which gets its name where nothing fails, and else is removed. Others have the rights that they have in a folder that
    it is like, so that nobody reads more in a copy than in what it is of.
    """
    part = made.with_name(f".{made.name}.part")
    handle = begun(part)
    try:
        yield part
        for path in part.rglob("*"):
            if not path.is_symlink():
                sync(path)
        os.chmod(part, rights_of(like))
        sync(part)
        judged(made, part)
        os.rename(part, made)
    except BaseException:
        with suppress(OSError):
            remove(part)
        raise
    finally:
        os.close(handle)
    sync(made.parent)


def rights_of(folder: Path) -> int:
    """The rights of a folder, of which the owner has all."""
    return stat.S_IMODE(folder.stat().st_mode) | stat.S_IRWXU


def is_plain(path: Path) -> bool:
    """Whether something is a file or a folder itself; what else lies where others may write, such as a link, is told and left out."""
    kind = path.lstat().st_mode
    if stat.S_ISREG(kind) or stat.S_ISDIR(kind):
        return True
    warn([f"{path} is a {what(path)}, and is left out"])
    return False


class Copier:
    """Copies files and folders with their times and rights. What was one file under several names stays so."""

    def __init__(self) -> None:
        self.copies: dict[tuple[int, int], Path] = {}

    def file(self, path: Path, to: Path, flags: int = os.O_NOFOLLOW) -> None:
        """A file; nobody is waited for where that has become something else."""
        with telling(path):
            handle = os.open(path, os.O_RDONLY | os.O_NONBLOCK | flags)
        with open(handle, "rb") as file:
            found = os.fstat(handle)
            known = self.copies.get((found.st_dev, found.st_ino))
            if known and link(known, to):
                return
            write(to, iter(lambda: file.read(BLOCK), b""))
        os.chmod(to, found.st_mode & 0o777)
        os.utime(to, ns=(found.st_atime_ns, found.st_mtime_ns))
        self.copies[found.st_dev, found.st_ino] = to

    def folder(self, path: Path, to: Path) -> None:
        """A folder with the files in it, but for hidden ones."""
        os.mkdir(to)
        for each in filter(is_plain, (each for each in sorted(path.iterdir()) if not each.name.startswith("."))):
            if each.is_dir():
                self.folder(each, to / each.name)
            else:
                self.file(each, to / each.name)
        found = path.stat()
        os.chmod(to, rights_of(path))
        os.utime(to, ns=(found.st_atime_ns, found.st_mtime_ns))
