"""Room for answers: how many bytes all of them together may have that are made or sent."""

from __future__ import annotations

import time
from collections.abc import Callable, Iterator
from contextlib import contextmanager
from threading import Condition

# How many bytes there are, how many of them are for shares of few bytes, and how many those are at most; for how many seconds room is waited
# for, and for how many at a time.
ALL, FOR_FEW, FEW, PATIENCE, PAUSE = 2**26, 2**24, 2**18 + 2**12, 5, 0.2


class Crowded(Exception):
    """There was no room for a while."""


class Share:
    """Room that is taken, and how much of it is kept when it is given back."""

    def __init__(self) -> None:
        self.kept = 0


class Room:
    """So many bytes, of which shares are taken and given back. Where there is none, `press` has somebody give some back."""

    def __init__(self, size: int = ALL, press: Callable[[], None] = lambda: None) -> None:
        self.left, self.press, self.condition = size, press, Condition()

    def took(self, size: int) -> bool:
        """Takes so much, where it is there soon. Shares of many bytes leave some room for the others."""
        needed = size if size <= FEW else size + FOR_FEW
        with self.condition:
            is_there = self.condition.wait_for(lambda: self.left >= needed, PAUSE)
            self.left -= size if is_there else 0
            return is_there

    def take(self, size: int) -> None:
        """Takes so much, and waits for it."""
        until = time.monotonic() + PATIENCE
        while not self.took(size):
            if time.monotonic() > until:
                raise Crowded
            self.press()

    def give(self, size: int) -> None:
        """Gives so much back."""
        with self.condition:
            self.left += size
            self.condition.notify_all()

    @contextmanager
    def share(self, size: int) -> Iterator[Share]:
        """So much room; what is not kept is given back at the end."""
        self.take(size)
        share = Share()
        try:
            yield share
        finally:
            self.give(size - share.kept)
