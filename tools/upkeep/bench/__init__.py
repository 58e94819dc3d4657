"""What tools/bench measures, a module each, and how: commands that run in turn, since other work on a machine only adds time, and
programs that they are compared with, whose sources are in tools/yardsticks."""

import os
import shutil
import subprocess
import sys
from pathlib import Path
from statistics import median
from tempfile import TemporaryDirectory
from time import monotonic
from typing import NamedTuple

from upkeep.edits import libraries_below, uses
from upkeep.words import ROOT

SOURCES = ROOT / "tools/yardsticks"


class Run(NamedTuple):
    """A run of a command: what it took, at its highest in memory, and what it printed."""

    seconds: float
    kilobytes: int
    text: str


def run(command, given):
    """A run on the file `given`, by GNU time."""
    with TemporaryDirectory() as room, open(given, "rb") as file:
        words = ["/usr/bin/time", "-f", "%M", "-o", f"{room}/memory", *map(str, command)]
        began = monotonic()
        ran = subprocess.run(words, stdin=file, stdout=subprocess.PIPE)
        seconds = monotonic() - began
        return Run(seconds, int(Path(f"{room}/memory").read_text().split()[-1]), ran.stdout.decode(errors="replace"))


def in_turn(commands, rounds):
    """The runs of each command and its file, by its name: all of them once in each round."""
    found = {name: [] for name in commands}
    for _ in range(rounds):
        for name, (command, given) in commands.items():
            found[name].append(run(command, given))
    return found


def best(runs):
    return min(each.seconds for each in runs)


def one_text(runs):
    """Ends everything where runs printed different texts."""
    if len({each.text for several in runs for each in several}) != 1:
        sys.exit("tools/bench: the texts differ")


# ---- what is compared with


def peer(room, source):
    """A program in plain Rust."""
    built = Path(room) / source.replace("/", "_").removesuffix(".rs")
    subprocess.run(["rustc", "-O", "-o", built, SOURCES / source], check=True)
    return built


def proved(room, name, *used):
    """A program over libraries of the repository, which is proved and built in a workspace of its own; that takes about three minutes."""
    room, crate = Path(room), Path(room) / "crates" / name
    (crate / "src").mkdir(parents=True)
    shutil.copy(ROOT / "HANDLES", room)
    shutil.copy(SOURCES / name / "main.rattle", crate / "src/main.rt")
    below = [library for library in uses() if library in {*used, *libraries_below(used)}]
    for library in below:
        shutil.copytree(ROOT / "crates" / library, room / "crates" / library, dirs_exist_ok=True)
    lines = {library: " ".join(uses()[library]) for library in below} | {name: " ".join(used)}
    (room / "crates.txt").write_text("".join(f"{library}: {listed}\n" for library, listed in lines.items()))
    path = {**os.environ, "PATH": f"{os.environ['PATH']}:/opt/rattle/bin"}
    ran = subprocess.run(["rt", "run"], cwd=crate, env=path, stdin=subprocess.DEVNULL, capture_output=True, text=True)
    if ran.returncode:
        sys.exit("\n".join([*(ran.stdout + ran.stderr).splitlines()[-20:], f"tools/bench: {name} is not proved"]))
    return crate / "out" / name


class Steps:
    """Programs that run in turn, and print a line for each of their steps: its name, its microseconds, and perhaps for how many of what."""

    def __init__(self, programs, rounds):
        self.found = {}
        for each in in_turn({str(program): ([program], os.devnull) for program in programs}, rounds).values():
            for line in "".join(ran.text for ran in each).splitlines():
                name, micros, *count = line.split()
                self.found.setdefault(name, []).append(int(micros) / (int(count[0]) if count and count[0].isdecimal() else 1))

    def least(self, name):
        return min(self.found[name])

    def median(self, name):
        return median(self.found[name])

    def ratio(self, one, other):
        """How often the time of one step another takes, by the medians."""
        return self.median(one) / self.median(other)

    def ratio_of_rounds(self, one, other):
        """The same, by the median of the ratios within a round."""
        return median(a / b for a, b in zip(self.found[one], self.found[other]))
