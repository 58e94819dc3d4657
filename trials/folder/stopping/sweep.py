"""Which nights are tried: all that can happen at all places of all kinds of nights, or as many as are drawn of them."""

import os
import sys
from collections import Counter
from functools import partial
from itertools import count
from typing import NamedTuple

from trials.folder.stopping import copies, full_disk, histories, races, single, traced, written_through
from trials.folder.stopping.at_a_place import CAN_FAIL, ERRORS, Trial, hindrances, listed, stopped, tried
from trials.folder.stopping.starts import Starts

ALL = sys.maxsize
OLD = "commit stopped"
RACES, LANES = 20, 3
STOPPED_IN = ("first night", "committed twice", "later night", "keeping 2", "rollback", "before manifests")
COMMITTED = (*STOPPED_IN, "planned night", "several files", "file of two names", "a view is new", "rollback twice")
COMMITTED += ("records put aside",)
STEPS = ("rename", "link", "unlink", "unlinkat", "symlink", "mkdir", "rmdir")


class Figures(NamedTuple):
    """What was tried, how often, and what did not hold."""

    what: str
    times: int
    wrong: list

    def __str__(self):
        return f"{self.what}: {self.times:,}, {len(self.wrong)} wrong"


class Counts(NamedTuple):
    """How much is tried: the old commits and the stops of nights that nights begin with, and how many nights in which way."""

    old: int
    stops: int
    kills: int
    kills_of_recoveries: int
    failures: int
    hindrances: int
    races: int
    signals: tuple
    disks: range
    seconds: float

    @classmethod
    def of(cls, kills, seconds):
        """For so many kills, or for all, and histories for so many seconds."""
        if kills == ALL:
            return cls(ALL, 100, ALL, 1000, ALL, 1000, 200, ("INT", "TERM", "HUP"), range(40), seconds)
        return cls(3, 3, kills - kills // 5, kills // 5, kills // 5, kills // 5, kills // 5, ("INT",), range(0, 40, 10), seconds)


class Sweep:
    """Tries nights of a tool below a folder, with several processes."""

    def __init__(self, tool, room, pool, source, counts):
        self.tool, self.room, self.pool, self.source, self.counts = tool, room, pool, source, counts
        self.folders = (room / f"trial{number}" for number in count())
        self.places, self.recoveries = {}, {}

    def all(self):
        """Everything that is tried, one after another; where no nights are to be killed, histories alone."""
        yield self.list_places()
        if self.counts.kills:
            yield from self.nights()
        yield self.try_histories()

    def nights(self):
        yield self.try_spoilt()
        yield self.list_recoveries()
        yield self.try_kills("nights that are killed", self.places, self.counts.kills)
        yield self.try_kills("nights that find one stopped and are killed", self.recoveries, self.counts.kills_of_recoveries)
        yield self.try_failures()
        yield self.try_hindrances()
        yield self.try_races()
        yield self.try_readers()
        yield self.try_signals()
        yield self.try_single()
        yield self.try_written_through()
        yield self.try_full_disks()

    def drawn(self, found, number):
        """As many of what was found as are wanted, or all."""
        return found if number >= len(found) else self.source.sample(found, number)

    def mapped(self, work, items):
        """What the work answers of each item, each of which is done in a folder of its own."""
        return self.pool.starmap(partial(work, self.tool), [(item, next(self.folders)) for item in items], 1)

    def list_places(self):
        """Makes the kinds of nights and lists the places of each; of the old commits that were stopped, some."""
        starts = Starts(self.tool, self.room).all()
        old = [start for start in starts if start.name.startswith(OLD)]
        chosen = [start for start in starts if start not in old] + self.drawn(old, self.counts.old)
        return self.list_of(chosen, self.places, "nights to which nothing happens")

    def list_of(self, starts, places, what):
        """Lists the places of nights, to which nothing happens."""
        listings = self.mapped(listed, starts)
        places |= {start.name: (start, found) for start, (found, _) in zip(starts, listings)}
        return Figures(what, len(starts), [wrong for _, wrong in listings if wrong])

    def list_recoveries(self):
        """Stops nights at the steps by which a folder changes its look, and lists the places of the nights that find that."""
        steps = [(start, place) for name in STOPPED_IN for start, found in [self.places[name]] for place in found if place.call in STEPS]
        starts = self.mapped(stopped, self.drawn(steps, self.counts.stops))
        return self.list_of(starts, self.recoveries, "nights that find one stopped")

    def try_kills(self, what, nights, number):
        places = [(start, place) for start, found in nights.values() for place in traced.states(found)]
        return self.try_all(what, [Trial(start, "killed", place) for start, place in self.drawn(places, number)])

    def try_failures(self):
        """Calls that fail, one a night."""
        places = [(start, place) for start, found in self.places.values() if start.fresh for place in found if place.call in CAN_FAIL]
        trials = [Trial(start, self.source.choice(ERRORS), place) for start, place in self.drawn(places, self.counts.failures)]
        return self.try_all("nights of which a call fails", trials)

    def try_hindrances(self):
        """Nights that meet one of the other things that can happen at a place."""
        nights = [*self.places.values(), *self.recoveries.values()]
        trials = [trial for start, found in nights for place in found for trial in hindrances(start, place)]
        what = "nights that are ended, or meet a reader, a second night or more changes"
        return self.try_all(what, self.drawn(trials, self.counts.hindrances))

    def try_all(self, what, trials):
        return Figures(what, len(trials), [wrong for wrong in self.mapped(tried, trials) if wrong])

    def try_races(self):
        """Two nights at once, with seeds of their own, in turns over kinds that a night goes through."""
        starts = [start for start, _ in [*self.places.values(), *self.recoveries.values()] if start.statuses == (0,)]
        items = [(self.source.choice(starts), self.source.random()) for _ in range(self.counts.races)]
        found = self.mapped(races.raced, items)
        met = sum(each is True for each, _ in found)
        return Figures(f"two nights at once ({met} of them met)", len(items), [wrong for _, wrong in found if wrong])

    def try_readers(self):
        found = self.mapped(races.beside_a_reader, [self.places["keeping 1"][0]])
        return Figures("nights beside a reader that holds a version", 1, [wrong for wrong in found if wrong])

    def try_signals(self):
        """Signals that come while the program runs, to the night alone and to both."""
        starts = [self.places[name][0] for name in full_disk.KINDS]
        items = [(start, name, group) for start in starts for name in self.counts.signals for group in (False, True)]
        found = self.mapped(races.ended_while_the_program_runs, items)
        return Figures("nights that a signal ends while the program runs", len(items), [wrong for wrong in found if wrong])

    def try_single(self):
        """What takes no drawing; what takes root is tried where this is root."""
        start = {name: start for name, (start, _) in self.places.items()}
        found = self.mapped(single.replaced, single.STEPS) + self.mapped(single.second_name, [start["later night"]])
        if os.geteuid() == 0:
            found += self.mapped(single.another_user, [start["later night"], start["refused night"]])
        what = "commits whose changes were replaced, files of two names and of two users"
        return Figures(what, len(found), [wrong for wrong in found if wrong])

    def try_written_through(self):
        names = COMMITTED if traced.installed() else []
        found = self.mapped(written_through.in_order, [self.places[name][0] for name in names])
        return Figures("nights that are written to the disk in order", len(found), [wrong for wrong in found if wrong])

    def try_full_disks(self):
        """Disks with room for so many pages or files; where no disk can be mounted there is nothing to say."""
        starts = [self.places[name][0] for name in full_disk.KINDS]
        items = [(start, fill, left) for start in starts for fill in full_disk.FILLS for left in self.counts.disks]
        found = self.mapped(full_disk.tried, items)
        if (None, None) in found:
            return Figures("full disks (none can be mounted here)", 0, [])
        gone_through = sum(each is True for each, _ in found)
        what = f"full disks ({gone_through} of them with room enough)"
        return Figures(what, len(items), [wrong for _, wrong in found if wrong])

    def try_histories(self):
        """Drawn histories, a process each for the seconds that they have."""
        items = [(self.places["later night"][0], self.source.random(), self.counts.seconds) for _ in range(LANES)]
        found = self.mapped(histories.drawn, items) if self.counts.seconds else []
        took = sum((steps for steps, _ in found), Counter())
        told = ", ".join(f"{step.replace('_', ' ')} {times:,}" for step, times in sorted(took.items()))
        return Figures(f"steps of drawn histories ({told})", took.total(), [wrong for _, wrong in found if wrong])

    def try_spoilt(self):
        """Spoilt tools, each of which has to be noticed."""
        ways = [way for way in copies.SPOILT if traced.installed() or not way.call]
        found = self.mapped(noticed, [(way, *self.places[way.start]) for way in ways])
        return Figures("spoilt tools, of which all are noticed", len(ways), [wrong for wrong in found if wrong])


def noticed(tool, item, folder):
    """That nothing shows how a tool is spoilt, or None."""
    way, start, found = item
    spoilt = copies.spoilt(tool, folder.with_suffix(".tools"), way.code)
    shown = any(tries_of(spoilt, way, start, found, (folder.with_name(f"{folder.name}.{number}") for number in count())))
    return None if shown else f"nothing shows that a tool {way.way}"


def tries_of(tool, way, start, found, folders):
    """What does not hold of nights of a spoilt tool, one after another."""
    if way.what == "two nights":
        return (races.raced(tool, (start, number / RACES), next(folders))[1] for number in range(RACES))
    if way.what == "a reader that holds":
        return (races.beside_a_reader(tool, start, next(folders)) for _ in range(1))
    if way.what == "written through":
        return (written_through.in_order(tool, start, next(folders)) for _ in range(1))
    places = [place for place in found if place.call == way.call] if way.call else [None]
    return (tried(tool, Trial(start, way.what, place), next(folders)) for place in places)
