"""Searches of `serve`, each in a process of its own, so that pages never wait for them: a few at once, others wait for a moment, and each ends
with its client or its time.
"""

from __future__ import annotations

import os
import select
import socket
import subprocess
import sys
import time
from collections.abc import Callable
from dataclasses import replace
from pathlib import Path
from threading import BoundedSemaphore, Lock
from typing import IO, NamedTuple

from .blocks import Damaged
from .jobs import Job, Told
from .pages import DEADLINE, Unfit
from .room import Room

# How many searches there are at once and how many wait, for how many seconds at most; and how long a process may be late.
AT_ONCE, WAITING, PATIENCE, GRACE = max(1, min(4, (os.cpu_count() or 2) // 2)), 64, 5, 5
TOOLS = Path(__file__).resolve().parents[2]
PROGRAM = f"import sys; sys.path.insert(0, {str(TOOLS)!r}); from whview.folder.scan_worker import main; main()"
LEFT = select.POLLRDHUP | select.POLLHUP | select.POLLERR
LENGTH = 16


class Busy(Exception):
    """There are as many searches as there may be."""


class Gone(Exception):
    """Nobody waits for the answer any more."""


class Searched(NamedTuple):
    """What is told of a page, and its body."""

    told: Told
    body: bytes


def is_gone(connection: socket.socket | None) -> bool:
    """Whether a client has left."""
    if connection is None:
        return False
    poller = select.poll()
    poller.register(connection, LEFT)
    return bool(poller.poll(0))


def piped(pipe: IO[bytes] | None) -> IO[bytes]:
    """A pipe to a process that was asked for."""
    if pipe is None:
        raise ValueError("this process was begun without a pipe")
    return pipe


class Worker:
    """A process that searches."""

    def __init__(self) -> None:
        words = [sys.executable, "-I", "-S", "-c", PROGRAM]
        self.process = subprocess.Popen(words, stdin=subprocess.PIPE, stdout=subprocess.PIPE, bufsize=0)
        self.given, self.printed = piped(self.process.stdin), piped(self.process.stdout)
        self.output = self.printed.fileno()

    def ask(self, job: Job, connection: socket.socket | None, room: Room) -> Searched:
        """What it tells of a job, and the body that it made, for which room is kept."""
        due = time.monotonic() + DEADLINE + GRACE
        try:
            self.given.write(replace(job, seconds=DEADLINE).written())
        except BrokenPipeError:
            raise Unfit("this search ended before its time; try again") from None
        head = self.received(2 * LENGTH, connection, due)
        told, size = self.received(int(head[:LENGTH]), connection, due), int(head[LENGTH:])
        with room.share(size) as share:
            body = self.received(size, connection, due)
            share.kept = size
        return Searched(Told.read(told), body)

    def received(self, size: int, connection: socket.socket | None, due: float) -> bytes:
        """So many bytes of its output."""
        found = bytearray()
        while len(found) < size:
            self.wait(connection, due)
            piece = os.read(self.output, min(size - len(found), 2**16))
            if not piece:
                raise Unfit("this search ended before its time; try again")
            found += piece
        return bytes(found)

    def wait(self, connection: socket.socket | None, due: float) -> None:
        """Waits for output, as long as there is time and somebody who waits for it."""
        poller = select.poll()
        poller.register(self.output, select.POLLIN)
        if connection is not None:
            poller.register(connection, LEFT)
        found = dict(poller.poll(max(due - time.monotonic(), 0) * 1000))
        if not found:
            raise Unfit(f"this search was stopped after {DEADLINE + GRACE} seconds")
        if self.output not in found:
            raise Gone

    def end(self) -> None:
        """Ends the process."""
        self.process.kill()
        self.process.wait()
        self.given.close()
        self.printed.close()


class Scans:
    """The searches of a server, and the processes that wait for the next one."""

    def __init__(self, room: Room) -> None:
        self.room, self.places, self.lock, self.waiting, self.is_closed = room, BoundedSemaphore(AT_ONCE), Lock(), 0, False
        self.free: list[Worker] = []

    def page(self, job: Job, connection: socket.socket | None) -> Searched:
        """The page of a job."""
        self.queue(connection)
        try:
            found = self.asked(job, connection)
        finally:
            self.places.release()
        if found.told.damaged is not None:
            raise Damaged(found.told.damaged)
        if found.told.unfit is not None:
            raise Unfit(found.told.unfit)
        return found

    def queue(self, connection: socket.socket | None) -> None:
        """Waits for a place, where not too many do."""
        with self.lock:
            if self.waiting >= WAITING:
                raise Busy
            self.waiting += 1
        try:
            self.wait(lambda: is_gone(connection))
        finally:
            with self.lock:
                self.waiting -= 1

    def wait(self, is_left: Callable[[], bool]) -> None:
        """Waits for a place, for a moment, as long as somebody does."""
        due = time.monotonic() + PATIENCE
        while not self.places.acquire(timeout=0.1):
            if is_left():
                raise Gone
            if time.monotonic() > due:
                raise Busy

    def asked(self, job: Job, connection: socket.socket | None) -> Searched:
        """Has a process search. One that did not come to its end is none for the next search."""
        if is_gone(connection):
            raise Gone
        worker = self.waiting_one() or Worker()
        try:
            found = worker.ask(job, connection, self.room)
        except BaseException:
            worker.end()
            raise
        self.give_back(worker)
        return found

    def waiting_one(self) -> Worker | None:
        """A process that waits for a search, if there is one that nobody ended."""
        with self.lock:
            worker = self.free.pop() if self.free else None
        if worker is None or worker.process.poll() is None:
            return worker
        worker.end()
        return None

    def give_back(self, worker: Worker) -> None:
        """Keeps a process for the next search."""
        with self.lock:
            if not self.is_closed:
                self.free.append(worker)
                return
        worker.end()

    def close(self) -> None:
        """Ends the processes."""
        with self.lock:
            self.is_closed, workers, self.free = True, self.free, []
        for worker in workers:
            worker.end()
