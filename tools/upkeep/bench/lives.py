"""Nights, pages and memory of `whview live`, on star joins of 10,000, 100,000 and 1,000,000 rows.

Each night takes 500 rows out of the fact table and puts 500 others in, or these back, so that all tables keep their sizes. Its time goes
from its line `@end`, before which all its parts were sent, to the answer's last line. A pair of nights is one round, and the median of all
is printed. Then a desk reads 50,000 facts in pages of 256, and 10,000 nights of one row out and one in say what a night leaves
in memory. Nothing else is measured beside it.
"""

import subprocess
import sys
import time
from pathlib import Path
from statistics import median
from tempfile import TemporaryDirectory

from trials.drawn import star
from upkeep.bench.replays import data, night
from upkeep.words import program

ROUNDS, PAGE, READ, LONG = 20, 256, 50_000, 10_000
ENDS = (b"ready", b"refused", b"fault", b"broken", b"version", b"session", b"closed", b"end", b"more", b"unknown", b"memory")

# One row out and another in, and back.
ONE = [f"@changes sales\n#,id,shop,product,pieces\n{sign}1,{star.sale(0)}\n{other}1,{star.sale(1_000_000)}\n" for sign, other in (("-", ""), ("", "-"))]


class Live:
    """A program that stays, and answers commands."""

    def __init__(self, started, opening):
        self.process = subprocess.Popen([started, "live", "--input", opening], stdin=subprocess.PIPE, stdout=subprocess.PIPE)

    def ask(self, command):
        """The lines of an answer, and how long it took."""
        begun, lines = time.perf_counter(), []
        self.process.stdin.write(command.encode())
        self.process.stdin.flush()
        while not lines or not lines[-1].startswith(ENDS):
            lines.append(self.process.stdout.readline())
            if not lines[-1]:
                sys.exit(f"the program ended after {command[:40]!r}")
        return lines, time.perf_counter() - begun

    def night(self, parts):
        """How long a night took that is committed."""
        self.process.stdin.write(f"night\n{parts}".encode())
        self.process.stdin.flush()
        lines, took = self.ask("@end\n")
        if lines[-1] != b"ready\n":
            sys.exit(f"a night was answered {lines}")
        self.ask("commit\n")
        return took

    def memory(self):
        """What it has in memory, in KiB."""
        status = Path(f"/proc/{self.process.pid}/status").read_text()
        return int(status.split("VmRSS:")[1].split()[0])

    def end(self):
        self.process.communicate(b"quit\n")


def pages(live):
    """How many rows were read, and how long it took."""
    live.ask("open 0\n")
    rows, took, last = 0, 0.0, b"more\n"
    while rows < READ and last == b"more\n":
        lines, each = live.ask(f"read 0 sales {PAGE}\n")
        rows, took, last = rows + len(lines) - 2, took + each, lines[-1]
    return rows, took


def show(started, rows, room, rounds):
    """Prints the figures of a star of so many rows; answers what a night takes."""
    opening = room / "opening"
    opening.write_text(data(rows) + star.STRATEGY)
    begun = time.perf_counter()
    live = Live(started, opening)
    live.ask("open 1\n")
    print(f"{rows:7} rows, opened in {time.perf_counter() - begun:.2f} s, {live.memory() // 1024} MiB")
    each = median([live.night(night(rows, back)) for _ in range(rounds) for back in (False, True)])
    count, took = pages(live)
    print(f"{rows:7} rows, a night {each * 1000:8.2f} ms, {count} rows in pages of {PAGE} {took * 1000:8.1f} ms")
    live.end()
    return each


def grown(started, room):
    """Prints what so many nights leave in memory."""
    opening = room / "opening"
    opening.write_text(data(10_000) + star.STRATEGY)
    live, after = Live(started, opening), {}
    live.ask("open 1\n")
    for number in range(LONG):
        live.night(ONE[number % 2])
        after[number + 1] = live.memory() if number + 1 in (100, LONG) else 0
    print(f"after 100 nights {after[100]} KiB, after {LONG} {after[LONG]}, {after[LONG] / after[100]:.2f} times as much")
    live.end()


def measure(asked):
    started = program(asked.program)
    with TemporaryDirectory() as room:
        times = [show(started, rows, Path(room), asked.rounds) for rows in (10_000, 100_000, 1_000_000)]
        print(f"a night beside a hundred times as many rows: {times[-1] / times[0]:.1f} times as long")
        grown(started, Path(room))
