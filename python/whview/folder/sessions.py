"""Sessions of those who read over the net: each pins a version until it leaves, or until its promised time is over."""

from __future__ import annotations

import os
import secrets
import time
from collections import Counter, OrderedDict
from collections.abc import Callable
from ipaddress import ip_network
from pathlib import Path
from threading import Lock
from typing import NamedTuple

from .held import Held

# How many sessions there are at once, how many of one address, and how many that are over are remembered, so that they can be told so.
MOST, SHARE, REMEMBERED = 1000, 250, 10_000


class Pin:
    """A version that is held once for all sessions that pin it."""

    def __init__(self, held: Held) -> None:
        self.held, self.sessions = held, 0

    @property
    def number(self) -> int:
        return self.held.number


class Session(NamedTuple):
    """A session: its name, the version that it pins, until when, by a clock that nobody turns, and whose share it is of."""

    name: str
    pin: Pin
    until: float
    owner: str


class Ended(NamedTuple):
    """Which version a session pinned that is over, and whether it left before its time."""

    version: int
    has_left: bool


class Over(Exception):
    """A session's promised time is over, or it left; `version` is the one that it pinned."""

    def __init__(self, version: int, has_left: bool) -> None:
        super().__init__(version, has_left)
        self.version, self.has_left = version, has_left


class Full(Exception):
    """There are as many sessions as there may be."""


def owner_of(address: str) -> str:
    """Whose share an address is of: its own, or that of its network of 64 bits, in which anybody has any address."""
    if ":" not in address or "." in address:
        return address
    return str(ip_network((address.partition("%")[0], 64), strict=False))


class Sessions:
    """The sessions of a folder, each promised so many seconds."""

    def __init__(self, folder: Path, promise: float, clock: Callable[[], float] = time.monotonic) -> None:
        self.folder, self.promise, self.clock, self.lock = folder, promise, clock, Lock()
        self.open: OrderedDict[str, Session] = OrderedDict()
        self.over: OrderedDict[str, Ended] = OrderedDict()
        # The versions that are pinned, by the inodes of their folders; and how many sessions there are of each address.
        self.pins: dict[int, Pin] = {}
        self.shares: Counter[str] = Counter()

    def begin(self, address: str = "") -> Session:
        """A session that pins the current version, for somebody at an address."""
        owner = owner_of(address)
        with self.lock:
            self.expire()
            if len(self.open) >= MOST or self.shares[owner] >= SHARE:
                raise Full
            session = Session(secrets.token_urlsafe(18), self.pin(), self.clock() + self.promise, owner)
            self.open[session.name] = session
            self.shares[owner] += 1
            return session

    def find(self, name: str) -> Session | None:
        """The session of a name, or None where there never was one, or that was long ago."""
        with self.lock:
            self.expire()
            if name in self.over:
                raise Over(*self.over[name])
            return self.open.get(name)

    def leave(self, name: str) -> bool:
        """Ends a session, and answers whether there was one."""
        with self.lock:
            self.expire()
            if name in self.over:
                raise Over(*self.over[name])
            is_there = name in self.open
            if is_there:
                self.end(name, True)
            return is_there

    def left(self, session: Session) -> float:
        """How many seconds a session has."""
        return max(session.until - self.clock(), 0)

    def tidy(self) -> None:
        """Lets the versions go of the sessions whose time is over."""
        with self.lock:
            self.expire()

    # ---- under the lock

    def expire(self) -> None:
        """The sessions stand in the order in which they end."""
        now = self.clock()
        while self.open and next(iter(self.open.values())).until <= now:
            self.end(next(iter(self.open)), False)

    def pin(self) -> Pin:
        """The current version, held for one session more. It is known by its folder, since numbers may come again."""
        held = Held(self.folder)
        found = self.pins.setdefault(os.fstat(held.handle).st_ino, Pin(held))
        if found.held is not held:
            held.release()
        found.sessions += 1
        return found

    def let_go(self, pin: Pin) -> None:
        """Lets a version go as its last session ends."""
        pin.sessions -= 1
        if pin.sessions == 0:
            self.pins = {folder: each for folder, each in self.pins.items() if each is not pin}
            pin.held.release()

    def end(self, name: str, has_left: bool) -> None:
        """Ends a session, and remembers that for a while."""
        session = self.open.pop(name)
        self.let_go(session.pin)
        self.shares[session.owner] -= 1
        self.shares += Counter()
        self.over[name] = Ended(session.pin.number, has_left)
        if len(self.over) > REMEMBERED:
            self.over.popitem(last=False)
