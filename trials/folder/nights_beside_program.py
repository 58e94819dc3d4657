"""Nights of a folder over a drawn shop chain, beside the program alone on the same bundle: tables, processor seconds, seconds by the clock,
and memory."""

import os
import shutil
import subprocess
import sys
import tempfile
import time
from pathlib import Path
from typing import NamedTuple

from trials.drawn import retail
from trials.drawn.shop import table
from upkeep.words import ROOT
from whview.bundle import part_pieces, unpack

# How many first nights are measured and how many after them, and how soon a process is looked at again.
NIGHTS, PAUSE = 3, 0.02
# How many times the seconds and the memory of the program a night may take. It takes less than that: 1.2 to 1.8 times the seconds on a quick
# machine, and up to 2.3 where other work keeps the machine busy, or Python is slower beside compiled code.
MOST = 3, 1.5
# The tool as its first line begins it, without what chooses among several Pythons; its modules are compiled once.
TOOL = [ROOT / "whview", "folder"]
KEEPS_COMPILED = {name: value for name, value in os.environ.items() if name != "PYTHONDONTWRITEBYTECODE"}
# From how many megabytes on that is judged, and up to how many sqlite3 is asked too.
JUDGED, COMPARED = 25, 1


class Taken(NamedTuple):
    """Processor seconds, bytes of memory at most, and seconds by the clock, of a process and those that it starts."""

    seconds: float
    memory: int
    clock: float

    def beside(self, other):
        return tuple(one / two for one, two in zip(self, other))


def least(nights):
    """What several nights take at least, and the program alone."""
    return [Taken(*map(min, zip(*each))) for each in zip(*nights)]


def tree(process):
    """A process and those that it has started."""
    try:
        tasks = list(Path(f"/proc/{process}/task").iterdir())
        below = [child for task in tasks for child in (task / "children").read_text().split()]
    except OSError:
        return []
    return [process, *(each for child in below for each in tree(child))]


def memory_of(process):
    """The bytes of memory that a process holds; what several hold is parted between them."""
    try:
        lines = Path(f"/proc/{process}/smaps_rollup").read_text().splitlines()
    except OSError:
        return 0
    return next((int(line.split()[1]) * 1024 for line in lines if line.startswith("Pss:")), 0)


def ran(words, output):
    """What a command takes, which has to be done; what it prints goes to a file."""
    with open(output, "wb") as printed:
        began, most = time.monotonic(), 0
        started = subprocess.Popen(words, stdin=subprocess.DEVNULL, stdout=printed, env=KEEPS_COMPILED)
        while True:
            ended, status, used = os.wait4(started.pid, os.WNOHANG)
            if ended:
                break
            most = max(most, sum(map(memory_of, tree(str(started.pid)))))
            time.sleep(PAUSE)
        clock = time.monotonic() - began
    started.returncode = os.waitstatus_to_exitcode(status)
    if started.returncode:
        sys.exit(f"{' '.join(map(str, words))} ends with {started.returncode}")
    return Taken(used.ru_utime + used.ru_stime, most, clock)


def bundle(folder, number):
    """The bundle of the night that made a version, in pieces."""
    before, made = folder / "versions" / str(number - 1), folder / "versions" / str(number)
    files = [("catalogue", made / "catalogue.toml"), ("strategy", made / "strategy.txt")]
    for kind, place in (("data", before / "data"), ("changes", made / "changes")):
        files += [(f"{kind} {path.stem}", path) for path in sorted(place.glob("*.csv"))]
    return [piece for heading, path in files for piece in part_pieces(heading, path.read_bytes())]


def judge(folder, answer, rows, megabytes):
    """Compares the version's tables with the program's, and where they are few with sqlite3's."""
    for name, printed in unpack(answer.read_bytes()).items():
        if sorted(printed.split(b"\n")) != sorted((folder / f"current/views/{name}.csv").read_bytes().split(b"\n")):
            sys.exit(f"the table of {name} is another than the program's")
    if megabytes <= COMPARED:
        for name, wanted in retail.expected(rows).items():
            kind = "data" if name in rows else "views"
            if table(folder / f"current/{kind}/{name}.csv") != wanted:
                sys.exit(f"the table of {name} is another than sqlite3's")


def night(built, room, drawn, number, few, megabytes):
    """What a night of the folder takes, and what the program takes for it alone."""
    retail.put_changes(room / "folder", drawn.night(few))
    return carried_out(built, room, drawn, number, megabytes)


def first_night(built, room, drawn, megabytes):
    """The same of a first night, of a copy of the folder as it was laid, which takes its place."""
    shutil.rmtree(room / "folder", ignore_errors=True)
    shutil.copytree(room / "laid", room / "folder")
    return carried_out(built, room, drawn, 1, megabytes)


def another_night(built, room, drawn, number, megabytes):
    """The same of a night whose catalogue is another than that of the version, by which its tables are judged anew."""
    with (room / "folder/catalogue.toml").open("a") as catalogue:
        catalogue.write(f"# of night {number}\n")
    return night(built, room, drawn, number, 1, megabytes)


def carried_out(built, room, drawn, number, megabytes):
    """Carries a night of the folder out, and judges its tables. Answers what it takes, and the program alone."""
    folder = room / "folder"
    taken = ran([*TOOL, "night", folder, "--commit", "--keep", "2", "--program", built], room / "report")
    (room / "bundle").write_bytes(b"".join(bundle(folder, number)))
    alone = ran([built, "night", "--input", room / "bundle"], room / "answer")
    judge(folder, room / "answer", drawn.rows, megabytes)
    return taken, alone


def told(what, taken, alone):
    seconds, memory, clock = taken.beside(alone)
    rate = f"{taken.seconds:.2f} s beside {alone.seconds:.2f} ({seconds:.2f} times), {taken.memory / 2**20:.0f} MiB"
    by_clock = f"by the clock {taken.clock:.2f} s beside {alone.clock:.2f} ({clock:.2f} times)"
    return f"{what}: {rate} beside {alone.memory / 2**20:.0f} ({memory:.2f} times), {by_clock}"


def judged(what, taken, alone, is_judged):
    """The same line; where it is judged and takes too much, that ends the run."""
    line = told(what, taken, alone)
    if is_judged and any(times > most for times, most in zip(taken.beside(alone), MOST)):
        sys.exit(f"{line}: more than {MOST[0]} times in time or {MOST[1]} in memory")
    return line


def tried(built, megabytes, is_judged=True):
    """Nights over so many megabytes, a line about each kind. The least of several is what they take."""
    drawn, is_judged = retail.Retail(megabytes * 1_000_000 // retail.ORDER), is_judged and megabytes >= JUDGED
    with tempfile.TemporaryDirectory() as kept:
        room = Path(kept)
        retail.lay(room / "laid", drawn)
        retail.put_changes(room / "laid", drawn.night(1))
        first = least([first_night(built, room, drawn, megabytes) for _ in range(NIGHTS)])
        yield judged(f"{megabytes} MB, the first night", *first, is_judged)
        few = least([night(built, room, drawn, number, 1, megabytes) for number in range(2, 2 + NIGHTS)])
        yield judged(f"{megabytes} MB, a night of 28 changed rows", *few, is_judged)
        many = least([night(built, room, drawn, 2 + NIGHTS + number, max(megabytes * 4, 1), megabytes) for number in range(NIGHTS)])
        yield judged(f"{megabytes} MB, a night of {112 * megabytes} changed rows", *many, is_judged)
        anew = least([another_night(built, room, drawn, 2 + 2 * NIGHTS + number, megabytes) for number in range(NIGHTS)])
        yield judged(f"{megabytes} MB, a night with another catalogue", *anew, is_judged)
