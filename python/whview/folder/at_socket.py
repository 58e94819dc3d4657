"""The socket of a folder that is served, at which nights of the folder ask the process that serves it.

Nobody else comes in: the socket's rights are 0600, and each side looks whether the other one is of the same user. A message is a line of JSON,
behind which so many bytes stand as it says. Who takes long to answer sends an empty line each second meanwhile.
"""

from __future__ import annotations

import json
import os
import socket
import struct
from collections.abc import Iterator, Mapping
from contextlib import contextmanager, suppress
from pathlib import Path
from typing import NamedTuple, TypeAlias

from ..disk import remove
from .versions import SOCKET

PART, RIGHTS = f"{SOCKET}.part", 0o600
# For how many seconds a sign of the other side is waited for, and how many who come are kept waiting.
PATIENCE, BACKLOG = 10.0, 8
# How many bytes the line of a message has at most, and those behind it.
MOST_LINE, MOST_BYTES = 2**16, 2**31
# The process, the user and the group of the other side, as the system tells them.
PEER = struct.Struct("3i")
Told: TypeAlias = Mapping[str, object]


def told_of(program: Path) -> list[int]:
    """By what the file of a program is known to both sides; nothing where there is none."""
    try:
        found = os.stat(program)
    except OSError:
        return []
    return [found.st_dev, found.st_ino, found.st_size, found.st_mtime_ns]


class Parted(Exception):
    """The other side is gone, or says what nobody understands."""


class Message(NamedTuple):
    """What a line says, and the bytes behind it."""

    told: Told
    content: bytes


class Wire:
    """A connection between a night and the process that serves its folder."""

    def __init__(self, connection: socket.socket) -> None:
        self.connection = connection
        connection.settimeout(PATIENCE)
        self.incoming = connection.makefile("rb")

    def is_own(self) -> bool:
        """Whether the other side is of the user of this process."""
        _, user, _ = PEER.unpack(self.connection.getsockopt(socket.SOL_SOCKET, socket.SO_PEERCRED, PEER.size))
        return bool(user == os.geteuid())

    def send(self, told: Told, content: bytes = b"") -> None:
        """Sends a message."""
        try:
            self.connection.sendall(json.dumps({**told, "bytes": len(content)}).encode() + b"\n" + content)
        except OSError as error:
            raise Parted(str(error)) from error

    def beat(self) -> None:
        """Sends a sign that an answer is on its way. Whether somebody waits for it is seen when it is sent."""
        with suppress(OSError):
            self.connection.sendall(b"\n")

    def receive(self, seconds: float | None = PATIENCE) -> Message:
        """The next message, each sign of which has to come within so many seconds."""
        try:
            self.connection.settimeout(seconds)
            return self.message()
        except (OSError, ValueError, KeyError) as error:
            raise Parted(str(error)) from error

    def message(self) -> Message:
        """The next message, where one comes."""
        line = b"\n"
        while line == b"\n":
            line = self.incoming.readline(MOST_LINE)
        told = json.loads(line)
        size = told["bytes"] if isinstance(told, dict) else None
        if not isinstance(size, int) or not 0 <= size <= MOST_BYTES:
            raise ValueError("this is no message")
        content = self.incoming.read(size)
        if len(content) < size:
            raise ValueError("this message is cut off")
        return Message(told, content)

    def close(self) -> None:
        """Ends the connection."""
        with suppress(OSError):
            self.incoming.close()
        self.connection.close()


@contextmanager
def within(folder: Path) -> Iterator[str]:
    """The path of a folder that is short wherever it lies, since that of a socket has 107 bytes at most."""
    handle = os.open(folder, os.O_RDONLY | os.O_DIRECTORY | os.O_CLOEXEC)
    try:
        yield f"/proc/self/fd/{handle}"
    finally:
        os.close(handle)


def connected(folder: Path) -> Wire | None:
    """A connection to the process of this user that serves a folder, or None without one."""
    connection = socket.socket(socket.AF_UNIX, socket.SOCK_STREAM)
    connection.settimeout(PATIENCE)
    try:
        with within(folder) as path:
            connection.connect(f"{path}/{SOCKET}")
    except OSError:
        connection.close()
        return None
    wire = Wire(connection)
    if wire.is_own():
        return wire
    wire.close()
    return None


class Listening:
    """A folder's socket, at which this process answers. It takes the place of one at which nobody answers any more."""

    def __init__(self, folder: Path) -> None:
        self.folder, self.socket = folder, socket.socket(socket.AF_UNIX, socket.SOCK_STREAM)
        try:
            with within(folder) as path:
                remove(Path(f"{path}/{PART}"))
                self.socket.bind(f"{path}/{PART}")
                os.chmod(f"{path}/{PART}", RIGHTS)
                self.socket.listen(BACKLOG)
                self.inode = os.lstat(f"{path}/{PART}").st_ino
                os.rename(f"{path}/{PART}", f"{path}/{SOCKET}")
        except OSError:
            self.socket.close()
            raise

    def come(self) -> Wire:
        """Who comes next."""
        connection, _ = self.socket.accept()
        return Wire(connection)

    def close(self) -> None:
        """Ends it, and takes it out of the folder, where nobody else has put another one."""
        with suppress(OSError):
            self.socket.shutdown(socket.SHUT_RDWR)
        self.socket.close()
        with suppress(OSError):
            if os.lstat(self.folder / SOCKET).st_ino == self.inode:
                os.unlink(self.folder / SOCKET)


def listening(folder: Path) -> Listening | None:
    """The socket of a folder, if nobody else answers at it."""
    other = connected(folder)
    if other:
        other.close()
        return None
    return Listening(folder)
