"""A program that stays, `whview live`, at the other end of two pipes: a command is written, and its whole answer is waited for, for so long.

It is asked by one thread at a time. What ends, comes too late or says something else than it should is asked nothing more.
"""

from __future__ import annotations

import os
import select
import subprocess
import time
from collections.abc import Callable, Sequence
from contextlib import suppress
from pathlib import Path
from typing import BinaryIO

from .scans import piped

# With which word the last line of an answer begins, and how much is read at a time.
ENDS = frozenset(b"end more ready version versions session closed refused expired broken fault memory unknown".split())
BLOCK, WAITING = 2**16, select.POLLIN | select.POLLHUP | select.POLLERR
# After how many seconds something is done for those who wait too.
TURN = 1.0


class Lost(Exception):
    """The program does not go on as it should, and why."""


def is_whole(answer: bytes | bytearray) -> bool:
    """Whether an answer has its last line. No other line begins with a word of these: a row begins with its count."""
    if not answer.endswith(b"\n"):
        return False
    return bytes(answer[answer.rfind(b"\n", 0, -1) + 1 : -1]).partition(b" ")[0] in ENDS


def nothing() -> None:
    """What is done each second where nothing is to be."""


class Talk:
    """A running program, which opens from a bundle in a file. That may name files by these handles, which the program has too."""

    def __init__(self, program: Path, opening: BinaryIO, options: list[str], handles: Sequence[int] = ()) -> None:
        handle = opening.fileno()
        words = [str(program), "live", "--input", f"/dev/fd/{handle}", *options]
        pipe, null = subprocess.PIPE, subprocess.DEVNULL
        try:
            self.process = subprocess.Popen(words, bufsize=0, stdin=pipe, stdout=pipe, stderr=null, pass_fds=(handle, *handles))
        except OSError as error:
            raise Lost(f"{program} cannot be run: {error.strerror}") from error
        self.given, self.printed = piped(self.process.stdin), piped(self.process.stdout)
        os.set_blocking(self.given.fileno(), False)
        self.input, self.output = select.poll(), select.poll()
        self.input.register(self.given.fileno(), select.POLLOUT)
        self.output.register(self.printed.fileno(), WAITING)

    def ask(self, command: bytes, seconds: float, meanwhile: Callable[[], None] = nothing) -> bytes:
        """The whole answer to a command. What is to be done meanwhile is done each second."""
        due = time.monotonic() + seconds
        self.write(command, due, meanwhile)
        answer = bytearray()
        while not is_whole(answer):
            self.wait(self.output, due, meanwhile)
            piece = os.read(self.printed.fileno(), BLOCK)
            if not piece:
                raise Lost("the program has ended")
            answer += piece
        return bytes(answer)

    def write(self, command: bytes, due: float, meanwhile: Callable[[], None]) -> None:
        """Writes a command, all of which has to be taken in time."""
        left = memoryview(command)
        while left:
            try:
                left = left[os.write(self.given.fileno(), left) :]
            except BlockingIOError:
                self.wait(self.input, due, meanwhile)
            except BrokenPipeError:
                # What it said before it ended is read.
                return

    def wait(self, pipe: select.poll, due: float, meanwhile: Callable[[], None]) -> None:
        """Waits for a pipe, as long as there is time."""
        while not pipe.poll(max(min(due - time.monotonic(), TURN), 0) * 1000):
            if time.monotonic() > due:
                raise Lost("the program gave no answer in time")
            meanwhile()

    @property
    def has_ended(self) -> bool:
        """Whether the program has come to its end."""
        return self.process.poll() is not None

    def end(self) -> None:
        """Ends the program."""
        self.process.kill()
        self.process.wait()
        for pipe in (self.given, self.printed):
            with suppress(OSError):
                pipe.close()
