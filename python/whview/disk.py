"""Files that are to stay: written through to the disk, made read-only, linked, removed."""

import errno
import os
import stat
from collections.abc import Iterable, Iterator
from contextlib import contextmanager, suppress
from importlib import import_module
from pathlib import Path
from typing import TypeAlias

# What a file system says that has no hard links, or not this one.
NO_LINKS = (errno.EPERM, errno.EOPNOTSUPP, errno.ENOSYS, errno.EMLINK, errno.EXDEV)
READ_BITS, OWNER_WRITES = 0o444, 0o200
# What else than a file may lie where files are read. None of these is ever opened: that may wait for ever, or do something.
OTHERS = {stat.S_IFDIR: "folder", stat.S_IFIFO: "FIFO", stat.S_IFSOCK: "socket", stat.S_IFCHR: "device", stat.S_IFBLK: "device"}
# A path as its text has it, or as a `Path`.
AnyPath: TypeAlias = str | os.PathLike[str]
# How many bytes are compared at a time.
BLOCK = 2**18


def what(path: Path) -> str:
    """What lies at a path, in a word."""
    try:
        kind = stat.S_IFMT(path.lstat().st_mode)
    except FileNotFoundError:
        return "file"
    return "link" if kind == stat.S_IFLNK else OTHERS.get(kind, "file")


@contextmanager
def telling(path: AnyPath) -> Iterator[None]:
    """Has an error of the system tell the file that it is of."""
    try:
        yield
    except OSError as error:
        raise OSError(error.errno, error.strerror, str(path)) from error


def sync(path: AnyPath) -> None:
    """Has a file, or the names in a folder, written to the disk."""
    with telling(path):
        handle = os.open(path, os.O_RDONLY)
        try:
            os.fsync(handle)
        finally:
            os.close(handle)


def itself(path: AnyPath, flags: int) -> int:
    """Opens a file, and nothing elsewhere to which a link leads that somebody put in its place."""
    return os.open(path, flags | os.O_NOFOLLOW, 0o666)


def write(file: AnyPath, pieces: Iterable[bytes]) -> None:
    with telling(file), open(file, "wb", opener=itself) as opened:
        opened.writelines(pieces)


def keep(folder: Path) -> None:
    """Makes all files in a folder read-only, and has it written to the disk with all that is in it. Nothing there is a link."""
    for path in sorted(folder.rglob("*")):
        with telling(path):
            handle = itself(path, os.O_RDONLY | os.O_NONBLOCK)
            try:
                mode = os.fstat(handle).st_mode
                if not stat.S_ISDIR(mode):
                    os.fchmod(handle, mode & READ_BITS)
                os.fsync(handle)
            finally:
                os.close(handle)
    sync(folder)


def writable(file: Path) -> None:
    """Lets the owner write a file, where this may be changed; what a link leads to is nobody's here."""
    mode = file.lstat().st_mode & 0o777
    if not file.is_symlink() and not mode & OWNER_WRITES:
        with suppress(PermissionError):
            os.chmod(file, mode | OWNER_WRITES)


def link(like: AnyPath, file: AnyPath) -> bool:
    """Makes a hard link, and answers whether this file system could."""
    try:
        os.link(like, file)
    except OSError as error:
        if error.errno not in NO_LINKS:
            raise
        return False
    return True


def blocks(pieces: Iterable[bytes]) -> Iterator[bytes]:
    """These pieces in blocks, so that little is held of them."""
    for piece in pieces:
        yield from (bytes(piece[start : start + BLOCK]) for start in range(0, len(piece), BLOCK))


def blocks_of(file: AnyPath) -> Iterator[bytes]:
    """The bytes of a file in blocks."""
    with open(file, "rb") as opened:
        yield from iter(lambda: opened.read(BLOCK), b"")


def has(file: Path, size: int, parts: Iterable[bytes]) -> bool:
    """Whether a file is there and has these bytes, which come in blocks and are of this size together."""
    if not file.is_file() or file.stat().st_size != size:
        return False
    with open(file, "rb") as opened:
        return all(opened.read(len(block)) == block for block in parts)


def is_same(file: Path, other: Path) -> bool:
    """Whether a file is there and has the same bytes as another one."""
    return has(file, other.stat().st_size, blocks_of(other))


def has_pieces(file: Path, pieces: Iterable[bytes]) -> bool:
    """Whether a file is there and has the bytes of these pieces."""
    return has(file, sum(map(len, pieces)), blocks(pieces))


def copy(file: AnyPath, to: AnyPath) -> None:
    """Copies the bytes of a file."""
    write(to, blocks_of(file))


def put(file: Path, content: bytes, like: Path) -> None:
    """Writes a file: as a hard link to the one that it is like, where that has the same bytes and can be linked."""
    if not has_pieces(like, [content]) or not link(like, file):
        write(file, [content])


def remove(path: Path) -> None:
    """Removes a file, a link or a folder, where it is there."""
    if path.is_dir() and not path.is_symlink():
        import_module("shutil").rmtree(path)
    else:
        path.unlink(missing_ok=True)
