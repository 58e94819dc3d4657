"""One night at a time: the lock of a folder, and who holds it. The file that is locked is there as long as a night is at work; one whose
night was killed goes with the next.
"""

from __future__ import annotations

import errno
import fcntl
import os
import stat
import sys
import time
from contextlib import suppress
from pathlib import Path

from ..disk import telling, what
from ..finding import Failure
from ..status import AT_WORK, BAD_INPUT

FILE = ".lock"
# A command that looks whether a night is at work holds the lock for a moment.
TRIES, PAUSE = 20, 0.01


def taken(handle: int, kind: int) -> bool:
    """Whether the lock could be taken."""
    try:
        fcntl.flock(handle, kind | fcntl.LOCK_NB)
    except BlockingIOError:
        return False
    return True


def told(folder: Path, handle: int) -> str:
    """Who is at work in a folder, by what stands in the file that is locked."""
    holder = os.pread(handle, 4096, 0).decode(errors="replace").partition("\n")[0]
    return f"a night is at work in {folder}{f': {holder}' if holder else ''}"


def opened(file: Path, flags: int) -> int:
    """The file that is locked, which is made by the tool: neither what a link leads to nor what waits for a writer is locked or written."""
    handle: int | None = None
    try:
        handle = os.open(file, flags | os.O_NOFOLLOW | os.O_NONBLOCK, 0o644)
    except OSError as error:
        if error.errno not in (errno.ELOOP, errno.EISDIR, errno.ENXIO):
            raise
    if handle is not None and stat.S_ISREG(os.fstat(handle).st_mode):
        return handle
    if handle is not None:
        os.close(handle)
    raise Failure(BAD_INPUT, f"{file} is a {what(file)}, and not the file by which a night holds its folder; move it away")


def at_work(folder: Path) -> str | None:
    """Who is at work in a folder, or None where nobody is."""
    try:
        handle = opened(folder / FILE, os.O_RDONLY)
    except FileNotFoundError:
        return None
    try:
        return None if taken(handle, fcntl.LOCK_SH) else told(folder, handle)
    finally:
        os.close(handle)


def mine() -> str:
    """What the file that is locked begins with, where this process holds the lock."""
    return f"process {os.getpid()} on host {os.uname().nodename} since "


def judge(folder: Path) -> None:
    """Judges that the file that is locked is the one that this night signed: who removes it lets another night in."""
    file = folder / FILE
    if not file.is_file() or not file.read_bytes().startswith(mine().encode(errors="replace")):
        told = f"{file} was removed while this night was at work, which lets another one in; nothing is changed"
        raise Failure(AT_WORK, f"{told}; let the file be, the lock ends with its night")


class Lock:
    """A folder is this night's alone. The system frees the lock when the process ends, however it ends."""

    handle: int

    def __init__(self, folder: Path) -> None:
        self.file, self.folder = folder / FILE, folder

    def __enter__(self) -> Lock:
        with telling(self.file):
            is_taken = self.is_taken()
        if not is_taken:
            who = told(self.folder, self.handle)
            os.close(self.handle)
            raise Failure(AT_WORK, f"{who}; try again when it has ended")
        try:
            with telling(self.file):
                self.sign()
        except OSError:
            self.__exit__()
            raise
        return self

    def sign(self) -> None:
        """Writes who is at work."""
        since = time.strftime("%Y-%m-%d %H:%M:%S")
        about = f"{mine()}{since}\n{' '.join(sys.argv)}\n"
        os.ftruncate(self.handle, 0)
        os.pwrite(self.handle, about.encode(errors="replace"), 0)

    def is_taken(self) -> bool:
        """Tries for a moment. A file that its holder removed meanwhile locks nobody out, and is opened anew."""
        for number in range(TRIES):
            if number:
                os.close(self.handle)
                time.sleep(PAUSE)
            self.handle = opened(self.file, os.O_RDWR | os.O_CREAT)
            if taken(self.handle, fcntl.LOCK_EX) and self.is_there():
                return True
        return False

    def is_there(self) -> bool:
        """Whether the file that is locked is the one that others find."""
        try:
            return os.path.samestat(os.stat(self.file), os.fstat(self.handle))
        except FileNotFoundError:
            return False

    def __exit__(self, *_: object) -> None:
        """Removes the file before it lets go: who opened it before finds that it is no longer there. Another night's file stays."""
        with suppress(OSError):
            if self.is_there():
                os.unlink(self.file)
        os.close(self.handle)
