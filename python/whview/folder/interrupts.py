"""Signals that end a night: as exceptions, where it can still be undone, and passed over where it cannot."""

from __future__ import annotations

import signal
from collections.abc import Callable, Iterator
from contextlib import contextmanager
from types import FrameType
from typing import TypeAlias

from ..finding import Failure
from ..status import SIGNALLED

ENDING = (signal.SIGINT, signal.SIGTERM, signal.SIGHUP)
# What is done where a signal comes; None is what was not set by Python.
Handler: TypeAlias = Callable[[int, FrameType | None], object] | int | signal.Handlers | None


class Interrupts:
    """While it is armed, the first signal that asks for the end is a failure; all others are passed over."""

    def __init__(self) -> None:
        self.armed = False
        self.late: int | None = None
        self.before: dict[signal.Signals, Handler] = {}

    def __enter__(self) -> Interrupts:
        self.armed = True
        for number in ENDING:
            if signal.getsignal(number) is not signal.SIG_IGN:
                self.before[number] = signal.signal(number, self.come)
        # A lease that is broken while it is tried would end the process.
        self.before[signal.SIGIO] = signal.signal(signal.SIGIO, lambda *_: None)
        return self

    def come(self, number: int, _: FrameType | None = None) -> None:
        """Ends the night by a signal, where it can still be undone, and else notes it."""
        if self.armed:
            self.armed = False
            raise Failure(SIGNALLED + number, f"the night was stopped by {signal.Signals(number).name}; nothing is changed")
        self.late = number

    def disarm(self) -> None:
        """Has all that comes from here on be passed over."""
        self.armed = False

    @contextmanager
    def put_off(self) -> Iterator[None]:
        """What comes meanwhile comes after it."""
        self.armed = False
        yield
        self.armed = True
        if self.late:
            self.come(self.late)

    def __exit__(self, *_: object) -> None:
        self.disarm()
        for number, handler in self.before.items():
            signal.signal(number, handler)
