"""What a night takes for its own: files of changes/, with the notes of their batches, and tables of data/ that no version has. A file that
goes back never lies over another one.
"""

from __future__ import annotations

import errno
import fcntl
import os
import re
import stat
from collections import Counter
from collections.abc import Iterable, Iterator
from contextlib import suppress
from pathlib import Path
from typing import TYPE_CHECKING, NamedTuple, TypeAlias

from ..disk import remove, sync, writable, write
from ..finding import Failure
from ..status import AT_WORK, BAD_INPUT, NOT_WRITTEN

if TYPE_CHECKING:
    from .inputs import Source, Taking

# The folders of a version that is being made, and where their files come from.
HOMES = {"changes": "changes", "given": "data", "batches": "changes"}
# A file of which a part is put aside, as it came; what is carried out of it lies in changes/ then, and goes nowhere.
TAKEN = "taken"
BACK = {TAKEN: "changes"} | HOMES
# By what a file is known, under whatever name it stands: its device and its inode.
Identity: TypeAlias = tuple[int, int]


class Look(NamedTuple):
    """By what a file that was written meanwhile is told."""

    inode: int
    size: int
    written: int


class Claimed(NamedTuple):
    """A file that was taken: what it was, and how it looked then."""

    source: Source
    look: Look


def is_being_written(file: Path) -> bool:
    """Whether a process has a file open for writing, as far as the file system can tell."""
    # Without waiting: what was a file a moment ago may be a FIFO.
    handle = os.open(file, os.O_RDONLY | os.O_NONBLOCK)
    try:
        fcntl.fcntl(handle, fcntl.F_SETLEASE, fcntl.F_RDLCK)
        fcntl.fcntl(handle, fcntl.F_SETLEASE, fcntl.F_UNLCK)
    except BlockingIOError:
        return True
    except OSError:
        pass
    finally:
        os.close(handle)
    return False


def tells_of_writers(folder: Path) -> bool:
    """Whether a file system tells of a file that nobody has open that nobody writes it; some say of each file that it is in use."""
    probe = folder / ".probe"
    # Who may write this folder too could have put a link there that leads elsewhere.
    probe.unlink(missing_ok=True)
    os.close(os.open(probe, os.O_RDONLY | os.O_CREAT | os.O_EXCL | os.O_NOFOLLOW, 0o600))
    found = is_being_written(probe)
    probe.unlink()
    return not found


def look(file: Path) -> Look:
    """How a file looks now."""
    found = file.stat()
    return Look(found.st_ino, found.st_size, found.st_mtime_ns)


def judge_written(path: Path, told: str, room: Path) -> None:
    """Refuses a file that somebody writes, as far as its file system can tell: that is tried in a folder of ours on the same one."""
    if path.stat().st_dev == room.stat().st_dev and tells_of_writers(room) and is_being_written(path):
        raise Failure(AT_WORK, f"{told} is still being written; try again when it is whole")


def is_movable(file: Path) -> bool:
    """Whether this user may move a file out of its folder; out of one with the sticky bit only the owner of either may."""
    folder, user = file.parent.stat(), os.geteuid()
    is_free = user == 0 or not folder.st_mode & stat.S_ISVTX or user in (folder.st_uid, file.lstat().st_uid)
    return is_free and os.access(file.parent, os.W_OK | os.X_OK)


def judge_movable(files: Iterable[Path]) -> None:
    """Refuses a night some of whose files could not be moved away, before any is moved."""
    for file in files:
        if not is_movable(file):
            told = f"{file} cannot be moved out of its folder by this user, and a night moves it to its version"
            raise Failure(NOT_WRITTEN, f"{told}; nothing is moved: let this user write {file.parent}")


class Claim:
    """The files that a night took, in the folder where its version is made."""

    def __init__(self, folder: Path, part: Path) -> None:
        self.folder, self.part = folder, part
        self.looks: dict[Path, Claimed] = {}
        self.modes: dict[Path, int] = {}

    def take(self, takings: Iterable[Taking]) -> None:
        """Moves the files, each by a rename, and judges that none is being written."""
        for kind in HOMES:
            os.makedirs(self.part / kind)
        for kind, source in takings:
            self.move(source, self.part / kind / source.path.name)
        for file, claimed in self.looks.items() if tells_of_writers(self.part) else ():
            if is_being_written(file):
                raise self.written(claimed.source)

    def move(self, source: Source, to: Path) -> None:
        """Moves one file; another that was removed meanwhile is none of this night's."""
        try:
            os.rename(source.path, to)
        except FileNotFoundError:
            return
        except OSError as error:
            if error.errno != errno.EXDEV:
                raise
            where = source.told.partition("/")[0]
            told = f"{self.folder / where} is on another file system than {self.part.parent}, to which a night moves its files"
            raise Failure(BAD_INPUT, f"{told}; have both on one") from error
        if to.is_symlink():
            raise Failure(BAD_INPUT, f"{source.told} is a link, and a night takes the file itself; put the file in")
        self.looks[to], self.modes[to] = Claimed(source, look(to)), to.stat().st_mode & 0o777

    def replace(self, file: Path, kept: bytes) -> None:
        """Has a file that was taken lie by the side as it came, and what is carried out of it in its place."""
        taken = self.part / TAKEN / file.name
        os.makedirs(taken.parent, exist_ok=True)
        os.rename(file, taken)
        self.looks[taken], self.modes[taken] = self.looks.pop(file), self.modes.pop(file)
        write(file, [kept])

    def own(self) -> None:
        """Puts a copy in the place of each file that somebody else could go on writing: as its owner, or by another name of it."""
        for file, (source, first) in self.looks.items():
            found = file.stat()
            if found.st_nlink == 1 and found.st_uid == os.geteuid():
                continue
            copied = file.with_name(f".{file.name}")
            copy_with_mode(file, copied)
            if look(file) != first:
                raise self.written(source)
            sync(copied)
            os.rename(copied, file)
            self.looks[file] = Claimed(source, look(file))

    def judge(self) -> None:
        """Judges that no file was written since it was taken."""
        for file, (source, first) in self.looks.items():
            if look(file) != first:
                raise self.written(source)

    def written(self, source: Source) -> Failure:
        """How a night ends of which somebody still writes a file."""
        return Failure(AT_WORK, f"{source.told} is still being written; put a file in by a rename")

    def undo(self) -> None:
        """Gives the files back as they were."""
        for file, mode in self.modes.items():
            with suppress(OSError):
                os.chmod(file, mode)
        put_back(self.folder, self.part)


def copy_with_mode(file: Path, to: Path) -> None:
    """Copies the bytes of a file and who may do what with it."""
    # What most nights do not need is imported where it is needed.
    import shutil

    shutil.copy(file, to)


def put_back(folder: Path, part: Path) -> None:
    """Undoes a night: what it made is removed, which makes room, and then the files that it took go back."""
    for made in part.iterdir() if part.is_dir() else ():
        if made.name not in BACK:
            remove(made)
    for taken in (part / TAKEN).glob("[!.]*"):
        (part / "changes" / taken.name).unlink(missing_ok=True)
    for kind, home in BACK.items():
        if (part / kind).is_dir():
            files_back(part / kind, folder / home)
    remove(part)
    with suppress(OSError):
        os.rmdir(part.parent)


def files_back(taken: Path, home: Path) -> None:
    """Gives all files of a folder back. Each stands in both places before it leaves the one."""
    for copied in taken.glob(".*"):
        copied.unlink()
    files = sorted(taken.iterdir())
    if files:
        os.makedirs(home, exist_ok=True)
    there: Counter[Identity] = identities(home) if files else Counter()
    for file in files:
        known = identity(file.lstat())
        if there[known]:
            there[known] -= 1
            writable(file)
        else:
            give_back(file, home)
    if files:
        sync(home)
    for file in files:
        file.unlink(missing_ok=True)
    os.rmdir(taken)


def give_back(file: Path, home: Path, named: str | None = None) -> None:
    """Links a file under its name or the one that is given, or where that is taken under the next free one."""
    writable(file)
    for name in names(named or file.name):
        try:
            os.link(file, home / name)
            return
        except FileExistsError:
            continue
        except OSError:
            # A disk that is full, or a file system without hard links.
            pass
        if not os.path.lexists(home / name):
            os.rename(file, home / name)
            return


def identity(found: os.stat_result) -> Identity:
    """By what a file is known, under whatever name it stands."""
    return found.st_dev, found.st_ino


def identities(folder: Path) -> Counter[Identity]:
    """How many names each file has in a folder, but for hidden ones, which no night reads: what is given back may be there already."""
    with os.scandir(folder) as entries:
        return Counter(identity(entry.stat(follow_symlinks=False)) for entry in entries if not entry.name.startswith("."))


def names(name: str) -> Iterator[str]:
    """A name, and those that stand for it where it is taken: NAME.1.csv, NAME.2.csv and so on."""
    yield name
    stem, number = re.sub(r"(\.[0-9]+)?\.csv$", "", name), 0
    while True:
        number += 1
        yield f"{stem}.{number}.csv"
