"""Changes that are put in: all files of a put come into changes/, or none does.

A put is written to a folder of its own below changes/.put/, whose name ends with .part. One rename decides, and then each file is linked
to a name that is free. A put that was stopped after its rename is finished by the next put or night, before anybody takes changes. Who may
write changes/ could lead others elsewhere by links: so all that is done here goes by handles of folders, and never through a link.
"""

from __future__ import annotations

import errno
import fcntl
import os
import stat
import time
from collections.abc import Iterable, Iterator
from contextlib import contextmanager, suppress
from pathlib import Path

from ..disk import NO_LINKS, telling
from ..finding import Failure
from ..status import BAD_INPUT
from .batches import ENDING
from .claim import identities, identity, names
from .gate import Gate
from .inputs import CHANGES
from .lock import taken
from .versions import PART

ROOM = ".put"
NO_LINK, NEW = os.O_RDONLY | os.O_DIRECTORY | os.O_NOFOLLOW, os.O_WRONLY | os.O_CREAT | os.O_EXCL
FINISHED = "a put that was stopped is finished; its changes lie in changes/"


def made(name: str, home: int, like: int) -> int:
    """A handle of a folder in another one, which is made where it is not there: others may use it as they may the folder that it is like."""
    with suppress(FileExistsError):
        os.mkdir(name, dir_fd=home)
        handle = os.open(name, NO_LINK, dir_fd=home)
        os.fchmod(handle, stat.S_IMODE(os.fstat(like).st_mode))
        return handle
    return os.open(name, NO_LINK, dir_fd=home)


def remove(name: str, home: int) -> None:
    """Removes a folder with all that is in it."""
    # What most nights do not need is imported where it is needed.
    import shutil

    shutil.rmtree(name, dir_fd=home)


class Put:
    """The folder of a put that is being written. It is locked, so that nobody takes it for one that was left."""

    def __init__(self, gate: Gate) -> None:
        self.name, place = f"{time.time_ns()}-{os.getpid()}", gate.path / ROOM
        # Handles of the files that were written, by their names.
        self.written: dict[str, int] = {}
        try:
            self.room = made(ROOM, gate.handle, gate.handle)
        except OSError as error:
            if error.errno not in (errno.ENOTDIR, errno.ELOOP):
                raise
            raise Failure(BAD_INPUT, f"{place} is no folder; move it away") from error
        self.path = place / f"{self.name}{PART}"
        self.handle = made(self.path.name, self.room, gate.handle)
        fcntl.flock(self.handle, fcntl.LOCK_EX | fcntl.LOCK_NB)

    def write(self, name: str, pieces: Iterable[bytes]) -> None:
        """Writes a file that is not there yet, through to the disk."""
        with telling(self.path / name), open(os.open(name, NEW, 0o666, dir_fd=self.handle), "wb") as file:
            file.writelines(pieces)
            file.flush()
            os.fsync(file.fileno())
            # As long as it is open no other file is known by the same number.
            self.written[name] = os.dup(file.fileno())

    def decide(self) -> None:
        """Has the put count, by a rename: what fails after it undoes nothing."""
        with telling(self.path):
            os.fsync(self.handle)
            os.fsync(self.room)
            os.rename(self.path.name, self.name, src_dir_fd=self.room, dst_dir_fd=self.room)

    def lost(self, gate: Gate) -> list[str]:
        """Which files that were written do not lie in changes/: whoever made the folder of puts may take away or replace what is in it."""
        there = identities(gate.path)
        return [name for name, handle in self.written.items() if not there[identity(os.fstat(handle))]]

    def leave(self) -> None:
        """Removes what was written, unless it counts; where that cannot be, the next put does."""
        with suppress(OSError):
            if self.path.is_dir():
                remove(self.path.name, self.room)
        for handle in (*self.written.values(), self.handle, self.room):
            os.close(handle)


def is_brought(name: str, part: int, to: str, home: int) -> bool:
    """Whether a file could be brought to a place that is free, by a link, or a rename where a file system has no links."""
    try:
        os.link(name, to, src_dir_fd=part, dst_dir_fd=home, follow_symlinks=False)
        return True
    except FileExistsError:
        return False
    except OSError as error:
        if error.errno not in NO_LINKS:
            raise
    try:
        os.stat(to, dir_fd=home, follow_symlinks=False)
        return False
    except FileNotFoundError:
        os.rename(name, to, src_dir_fd=part, dst_dir_fd=home)
        return True


def finish(name: str, room: int, part: int, gate: Gate) -> dict[str, str]:
    """Brings the files of a put that counts into changes/, each under the first name of its view that is free, and the note of its batch.
    What is there already stays so. Answers the names of the files by those that they have in the put.
    """
    os.fsync(room)
    there = identities(gate.path)
    brought: dict[str, str] = {}
    for file in sorted(os.listdir(part)):
        found, view = os.stat(file, dir_fd=part, follow_symlinks=False), CHANGES.fullmatch(file)
        if not stat.S_ISREG(found.st_mode) or there[identity(found)]:
            continue
        if view:
            brought[file] = next(to for to in names(f"{view[1]}.csv") if is_brought(file, part, to, gate.handle))
        elif file.endswith(ENDING):
            is_brought(file, part, file, gate.handle)
    os.fsync(gate.handle)
    remove(name, room)
    return brought


@contextmanager
def opened(name: str, home: int) -> Iterator[int | None]:
    """The handle of a folder in another one, or None where there is none."""
    try:
        handle = os.open(name, NO_LINK, dir_fd=home)
    except OSError:
        yield None
        return
    try:
        yield handle
    finally:
        os.close(handle)


def settle(gate: Gate) -> list[str]:
    """Finishes the puts that count and were stopped, and removes those that were left before. Answers what is to be said of it."""
    with opened(ROOM, gate.handle) as room:
        if room is None:
            return []
        return [line for name in sorted(os.listdir(room)) for line in settle_one(name, room, gate)]


def settle_one(name: str, room: int, gate: Gate) -> list[str]:
    """The same of one put."""
    with opened(name, room) as part:
        if part is None:
            return []
        if name.endswith(PART):
            return unleft(name, room, part, gate)
        finish(name, room, part, gate)
        return [FINISHED]


def unleft(name: str, room: int, part: int, gate: Gate) -> list[str]:
    """Removes a put that nobody writes any more."""
    try:
        if taken(part, fcntl.LOCK_EX):
            remove(name, room)
    except OSError as error:
        return [f"{gate.path / ROOM / name} is not wanted any more, and cannot be removed: {error.strerror}"]
    return []


def settled(folder: Path) -> list[str]:
    """The same for a night that begins, where there is something to settle."""
    if not (folder / "changes" / ROOM).is_dir():
        return []
    with Gate(folder) as gate:
        return settle(gate)
