"""One night each, at one place of which something is done to it, and what has to hold then."""

from contextlib import contextmanager
from dataclasses import replace
from functools import partial
from typing import NamedTuple

from trials.folder.stopping.judge import Judge, Wrong, contents, demand, judged
from trials.folder.stopping.starts import COMMIT, mended
from trials.folder.stopping.stopped_shop import Hand
from trials.folder.stopping.traced import TIME, disturbed, held_up, places

NIGHTS, EACH = 4, 3
STOPPED, AT_WORK = 3, 6
ERRORS = ("ENOSPC", "EIO")
CAN_FAIL = "openat write rename link linkat unlink unlinkat mkdir mkdirat rmdir symlink symlinkat fsync fchmod chmod sendfile flock".split()
SIGNALS = ("INT", "TERM")


class Trial(NamedTuple):
    """What is done at which place of which night: killed, killed after changes arrived, an error's or a signal's name, ..."""

    start: object
    what: str
    place: object

    def __str__(self):
        return f"{self.start.name}, {self.what} at {self.place}"


class Room:
    """A copy of a start in which a night is tried."""

    def __init__(self, tool, start, folder):
        self.tool, self.start, self.folder = tool, start, start.copied(folder)
        self.hand = Hand(folder, start.given, 500 + len(start.given))
        self.judge = Judge(start, folder)

    @contextmanager
    def writer(self):
        """Somebody who still writes a file of changes, where the start has one."""
        file = (self.folder / self.start.written).open("ab") if self.start.written else None
        try:
            yield
        finally:
            if file:
                file.close()

    def arrivals(self):
        """Changes that come meanwhile, under a name that may be claimed and under another."""
        self.hand.put("orders")
        self.hand.put("products")

    def reading(self):
        """A command that reads beside a night: it ends without a traceback and changes nothing."""
        self.judge.readable()
        before = contents(self.folder)
        told = self.tool.run("lint", self.folder)
        demand("Traceback" not in told.told, f"lint beside a night: {told.told}")
        demand(told.status in (0, 1, STOPPED), f"lint beside a night ends with {told.status}: {told.told}")
        demand(contents(self.folder) == before, "lint changed the folder")

    def second_night(self):
        """A second night: where it does not come first, it ends for the other one, says so and changes nothing."""
        before = contents(self.folder)
        told = self.tool.run(self.start.command, self.folder, *self.start.options)
        self.judge.said(told, (*self.start.statuses, AT_WORK))
        if told.status not in self.start.statuses:
            demand("a night is at work" in told.told, f"a night that ends for another does not say so: {told.told}")
            demand(contents(self.folder) == before, "a night that ends for another changed the folder")

    def reading_what_is_stopped(self):
        """A command that reads says that a night was stopped, and changes nothing."""
        before = contents(self.folder)
        told = self.tool.run("lint", self.folder)
        demand("Traceback" not in told.told, f"lint after a kill: {told.told}")
        demand(contents(self.folder) == before, "lint changed the folder")
        if self.judge.is_stopped():
            demand(told.status == STOPPED and "stopped" in told.told, f"lint after a kill says {told.told!r} with {told.status}")

    def recover(self):
        """Nights until one goes through, each thing that sends them back put right and a further change put in."""
        self.hand.put("orders")
        for _ in range(NIGHTS):
            told = self.tool.run("night", self.folder, *COMMIT, *keeping(self.start))
            demand("Traceback" not in told.told, f"a traceback: {told.told}")
            if told.status == 0:
                return self.judge.done(self.hand.given)
            if told.status == STOPPED and STOPPED in self.start.statuses and 0 in self.start.statuses:
                return self.untouched()
            mended(self.folder, self.hand.given, told.told)
        raise Wrong(f"no night goes through: {told.status}, {told.told}")

    def untouched(self):
        """Nothing of what there was is changed."""
        was, there = contents(self.start.folder), contents(self.folder)
        changed = [name for name in was if there.get(name) != was[name] and name not in (".lock", ".identity")]
        demand(not changed, f"a refused folder is touched: {changed}")

    def was_ended(self, told, may_stay=False):
        """A night that an error or a signal met: told in words, and undone at once or decided; what fails as it is undone may stay."""
        demand("Traceback" not in told.told, f"a traceback: {told.told}")
        demand(told.status == 0 or told.told.strip(), f"nothing is said of status {told.status}")
        self.judge.readable()
        if told.status == 0 and self.start.options:
            self.judge.done(self.hand.given)
        elif self.start.fresh and self.judge.is_as_before() and not (may_stay and self.judge.is_stopped()):
            self.judge.undone(self.hand.given)


def keeping(start):
    return ("--keep", str(start.keep)) if start.keep else ()


def nothing(room, _):
    told = room.tool.run(room.start.command, room.folder, *room.start.options)
    room.judge.said(told, room.start.statuses)
    room.was_ended(told)


def killed(room, place):
    disturbed(room.tool, room.folder, room.start.words, place, "signal=KILL")
    room.judge.readable()
    if place.nth % EACH == 0:
        room.reading_what_is_stopped()


def killed_after_arrivals(room, place):
    held_up(room.tool, room.folder, room.start.words, place, room.arrivals, True)
    room.judge.readable()


def meanwhile(does, nights=1):
    """A night that is held up while something else is done, and goes on; so many nights there are in all."""

    def happens(room, place):
        told = held_up(room.tool, room.folder, room.start.words, place, partial(does, room), False)
        room.judge.said(told, room.start.statuses)
        room.judge.readable(nights)

    return happens


def sent(signal):
    return lambda room, place: room.was_ended(disturbed(room.tool, room.folder, room.start.words, place, f"signal={signal}"))


def failing(error):
    """Where a night is sent back, what fails may be what gives its changes back."""

    def happens(room, place):
        told = disturbed(room.tool, room.folder, room.start.words, place, f"error={error}")
        room.was_ended(told, room.start.statuses != (0,))

    return happens


HAPPENS = {
    "nothing": nothing, "killed": killed, "killed after arrivals": killed_after_arrivals, "arrivals": meanwhile(Room.arrivals),
    "a reader beside": meanwhile(Room.reading), "a second night": meanwhile(Room.second_night, 2), **{signal: sent(signal) for signal in SIGNALS},
    **{error: failing(error) for error in ERRORS},
}


def hindrances(start, place):
    """What can happen to a night at a place but that it is killed or that the call fails."""
    signals = SIGNALS if place.call != TIME else ()
    return [Trial(start, what, place) for what in ("killed after arrivals", "arrivals", "a reader beside", "a second night", *signals)]


def tried(tool, trial, folder):
    """What does not hold in a trial, or None."""

    def work():
        room = Room(tool, trial.start, folder)
        with room.writer():
            HAPPENS[trial.what](room, trial.place)
        room.recover()

    return judged(str(trial), folder, work)[1]


def listed(tool, start, folder):
    """The places of a start's night, and what does not hold when nothing happens to it, or None."""
    found = []

    def work():
        room = Room(tool, start, folder)
        with room.writer():
            calls, told = places(tool, folder, start.words, folder.with_suffix(".trace"))
        found.extend(calls)
        room.judge.said(told, start.statuses)
        room.was_ended(told)
        room.recover()

    return found, judged(start.name, folder, work)[1]


def stopped(tool, item, folder):
    """The start of a night that finds one stopped, and newer changes under the names of those that were taken."""
    start, place = item
    room = Room(tool, start, folder)
    disturbed(tool, folder, start.words, place, "signal=KILL")
    room.hand.put("orders")
    return replace(start, name=f"{start.name} stopped at {place}", folder=folder, given=room.hand.given, fresh=False)
