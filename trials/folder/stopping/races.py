"""Nights that meet others: a second night, a reader that holds a version, and whoever ends them while the program runs."""

import fcntl
import os
import signal
import time
from pathlib import Path
from random import Random

from trials.folder.stopping.at_a_place import Room
from trials.folder.stopping.judge import contents, demand, judged, versions
from trials.folder.stopping.starts import COMMIT
from trials.folder.stopping.traced import Tool

LATER, SLOW = 0.15, 0.4


def raced(tool, item, folder):
    """Whether two nights met, and what does not hold after them."""
    start, seed = item
    return judged(f"two nights at once, {start.name}", folder, lambda: two_nights(Room(tool, start, folder), Random(seed)))


def beside_a_reader(tool, start, folder):
    """What does not hold beside a reader, or None."""
    return judged(f"beside a reader, {start.name}", folder, lambda: reader_holds(Room(tool, start, folder)))[1]


def two_nights(room, source):
    """Two nights that are started together, with changes that arrive meanwhile at drawn moments."""
    tool = source.choice([room.tool, slowed(room, f"sleep {SLOW}")])
    commands = []
    first = room.start.words
    for words in (first, source.choice([first, first, ("night",) if room.start.fresh else first])):
        commands.append(tool.started(words[0], room.folder, *words[1:]))
        time.sleep(source.choice([0, 0, source.uniform(0, LATER)]))
    for view in source.sample(["orders", "orders", "products", "lines"], source.randint(0, 3)):
        time.sleep(source.uniform(0, LATER))
        room.hand.put(view)
    told = [command.ended() for command in commands]
    statuses = [each.status for each in told]
    demand(not any("Traceback" in each.told for each in told), f"a traceback: {told[0].told}{told[1].told}")
    demand(sorted(statuses) in ([0, 0], [0, 6]), f"the statuses are {statuses}: {told[0].told}{told[1].told}")
    demand(all("process" in each.told for each in told if each.status), "a night that ends for another does not say whose it is")
    room.judge.readable(len(told))
    room.recover()
    return 6 in statuses


def reader_holds(room):
    """A version that a reader holds stays until it is let go."""
    held = max(versions(room.folder))
    was = contents(room.folder / f"versions/{held}")
    handle = os.open(room.folder / "current", os.O_RDONLY | os.O_DIRECTORY)
    try:
        fcntl.flock(handle, fcntl.LOCK_SH)
        for _ in range(2):
            room.hand.put("orders")
            told = room.tool.run("night", room.folder, *COMMIT, "--keep", "1")
            demand(told.status == 0, f"a night beside a reader ends with {told.status}: {told.told}")
            demand(held in versions(room.folder), "a version that a reader holds is gone")
            demand(contents(room.folder / f"versions/{held}") == was, "a version that a reader holds is changed")
    finally:
        os.close(handle)
    there = versions(room.folder)
    demand(sorted(there) == [held, held + 2], f"versions {sorted(there)} are there, and {held} is held")
    room.recover()
    demand(held not in versions(room.folder), "a version that nobody holds any more is still there")


def ended_while_the_program_runs(tool, item, folder):
    """What does not hold of a night that a signal ends while it waits for the program, or None."""
    start, name, group = item
    return judged(f"SIG{name} while the program runs, {start.name}", folder, lambda: signalled(Room(tool, start, folder), name, group))[1]


def slowed(room, first):
    """The tool with a program that does something else first."""
    slow = Path(f"{room.folder}.slow")
    slow.write_text(f'#!/bin/sh\n{first}\nexec {room.tool.program} "$@"\n')
    slow.chmod(0o755)
    return Tool(room.tool.script, slow)


def signalled(room, name, group):
    """Sends a signal, to a night alone or to the program as well, as a terminal does."""
    began = Path(f"{room.folder}.began")
    command = slowed(room, f"touch {began}; sleep 1").started("night", room.folder, *room.start.options)
    while not began.exists() and not command.has_ended(0.01):
        pass
    command.signal(getattr(signal, f"SIG{name}"), group)
    told = command.ended()
    demand(told.status != 0, "the status is 0")
    room.was_ended(told)
    demand(len(told.told.splitlines()) == 1, f"not one line: {told.told}")
    room.judge.undone(room.hand.given)
    room.recover()
