"""Runs `whview live` over pipes: what is written comes in pieces, each read before the next one is written, and what is printed is
waited for."""

import array
import fcntl
import os
import select
import subprocess
import termios
import time

SECONDS, ATOMIC, BLOCK = 60, 4096, 1 << 16


class Late(Exception):
    """What did not come, or came too soon, in words."""


class Talker:
    """A running program, what it has printed, how long it is waited for, and how long for what may not come."""

    def __init__(self, words, patience=SECONDS, pause=0.0):
        pipes = {"stdin": subprocess.PIPE, "stdout": subprocess.PIPE, "stderr": subprocess.PIPE}
        self.process = subprocess.Popen(words, bufsize=0, **pipes)
        self.said, self.patience, self.pause, self.is_over = b"", patience, pause, False

    def __enter__(self):
        return self

    def __exit__(self, *_):
        self.process.kill()
        self.process.wait()
        for pipe in (self.process.stdin, self.process.stdout, self.process.stderr):
            pipe.close()

    # ---- what is written and read

    def give(self, given):
        """Writes these bytes, and reads what is printed meanwhile."""
        until = time.monotonic() + self.patience
        while given and not self.is_over:
            readable, writable, _ = select.select([self.process.stdout], [self.process.stdin], [], max(0.0, until - time.monotonic()))
            if not readable and not writable:
                raise Late("the input is not read")
            if readable:
                self.read()
            if writable:
                given = given[self.write(given[:ATOMIC]) :]

    def write(self, piece):
        """How many of these bytes are written; all of them where nobody reads any more."""
        try:
            return os.write(self.process.stdin.fileno(), piece)
        except BrokenPipeError:
            return len(piece)

    def read(self):
        piece = os.read(self.process.stdout.fileno(), BLOCK)
        self.said += piece
        self.is_over = not piece

    def are_read(self):
        """Waits until the program has taken all bytes that were written, or has ended."""
        until, unread = time.monotonic() + self.patience, array.array("i", [0])
        while fcntl.ioctl(self.process.stdin, termios.FIONREAD, unread) == 0 and unread[0] and self.process.poll() is None:
            if time.monotonic() > until:
                raise Late("the input is not read")
            self.drain(0.0002)

    def drain(self, seconds=0.0):
        """Reads what is there, or comes so soon."""
        if select.select([self.process.stdout], [], [], seconds)[0] and not self.is_over:
            self.read()

    def has_no_more_than(self, count):
        """Whether so many bytes have been printed, and no more come."""
        self.drain(self.pause)
        return len(self.said) <= count

    def wait_for(self, wanted):
        """Waits until all that is wanted has been printed, or something else."""
        until = time.monotonic() + self.patience
        while wanted.startswith(self.said) and self.said != wanted and not self.is_over:
            if not select.select([self.process.stdout], [], [], max(0.0, until - time.monotonic()))[0]:
                raise Late(f"{len(wanted) - len(self.said)} bytes of the answer do not come before more is written")
            self.read()

    # ---- the end

    def close(self):
        """Ends the input."""
        self.process.stdin.close()

    def ended(self):
        """Waits for the end: all that was printed, the status, and what stands on standard error."""
        until = time.monotonic() + self.patience
        while not self.is_over:
            if not select.select([self.process.stdout], [], [], max(0.0, until - time.monotonic()))[0]:
                raise Late("the program does not end")
            self.read()
        errors = self.process.stderr.read()
        return self.said, self.process.wait(self.patience), errors
