"""Runs drawn nights, replays and plans by the program for as long as it is told, and compares each answer with an evaluator of its own.

A night is run by drawn workers, readers and rows of a page, and answered by trials/drawn/nights.py; a schedule is answered by
trials/oracle/machine.py, and a plan judged by trials/oracle/judged_plans.py. Of each run the most memory that was resident is taken. It may be no
more than 8 MB and the greatest multiple of its input that trials/run program/growth allows, and one night, one schedule and one plan that are
run again and again may take no more in the end than they did at first. It needs a C compiler.
"""

import random
import subprocess
import tempfile
import time
from collections import Counter
from pathlib import Path

from trials.bundles import examples
from trials.drawn import nights
from trials.drawn.schedules import Drawn
from trials.ended import ended, told
from trials.oracle import machine
from trials.oracle.judged_plans import Judge
from upkeep.words import ROOT, program, words_with_program
from whview.strategy import plans

COUPLES, SECONDS, AGAIN, MOST_WRONG = 8, 60, 50, 20
# How many times its input a run may take, beside what the program takes with its threads, and by how much one may differ from another.
TIMES, BESIDE, APART = 160, 8 << 10, 1.25
STANDING = ["night_star", "replay_one_key_a_page", "plan_one_way"]


class Runs:
    """The program, run beside what tells its peak; the peaks, kind by kind, and what was wrong."""

    def __init__(self, started, peak):
        self.started, self.peak = str(started), str(peak)
        self.count, self.most, self.wrong, self.first = Counter(), Counter(), [], {}

    def answer(self, kind, words, given):
        """What is printed, and the status; the peak is judged."""
        ran = subprocess.run([self.peak, self.started, *words], input=given, capture_output=True, timeout=SECONDS)
        said, _, kilobytes = ran.stderr.decode(errors="replace").removesuffix("\n").rpartition("\n")
        self.count[kind] += 1
        self.most[kind] = max(self.most[kind], int(kilobytes))
        if said:
            self.wrong.append(f"{kind}: standard error has {said!r} for\n{given.decode()}")
        if int(kilobytes) > BESIDE + TIMES * len(given) // 1024:
            self.wrong.append(f"{kind}: {kilobytes} KB for {len(given)} bytes:\n{given.decode()}")
        return ran.stdout.decode(errors="replace"), ran.returncode, int(kilobytes)

    def compare(self, kind, words, given, expected):
        text, status, _ = self.answer(kind, words, given)
        if (text, status) != expected:
            self.wrong.append(f"{kind} {words}: answered {text}status {status}\nwhere the rules say {expected}for\n{given.decode()}")


def a_night(runs, source):
    night = nights.drawn(source)
    for strategy in night.strategies(source, 2):
        readers = source.choice([0, 0, 2, 16])
        words = ["night", "--workers", str(source.choice([1, 2, 3, 16])), "--readers", str(readers), "--page-keys", str(source.choice([1, 7, 256]))]
        runs.compare("nights", words, night.bundle(strategy), (night.report(strategy) + night.shown() + night.readers(readers), 0))


def a_replay(runs, source):
    drawn = Drawn(source.random())
    runs.compare("replays", ["replay"], drawn.bytes, machine.answer(drawn.given))


class Watched(Judge):
    """A judge of plans whose runs are counted and watched."""

    def __init__(self, runs):
        super().__init__(runs.started)
        self.runs = runs

    def answer(self, command, catalogue, bundle, *options):
        words = [command, "--comp-cost", str(catalogue.comp), "--inst-cost", str(catalogue.inst), *options]
        return self.runs.answer("plans", words, bundle.encode())[:2]


def a_plan(runs, source):
    catalogue = source.choice([plans.drawn, plans.drawn_cyclic])(source, COUPLES)
    _, wrong, _ = Watched(runs).judged((source.random(), catalogue))
    if wrong:
        runs.wrong.append(f"{wrong}:\n{catalogue.bundle()}")


def standing(runs):
    """The bundles that are run again and again: each has its own answer, and takes no more memory than at first."""
    for example in examples():
        if example.name in STANDING:
            text, status, kilobytes = runs.answer("standing", example.words, example.bundle)
            if f"{text}status {status}\n".encode() != example.answer:
                runs.wrong.append(f"{example.name} answered {text}")
            if kilobytes > APART * runs.first.setdefault(example.name, kilobytes):
                runs.wrong.append(f"{example.name} took {kilobytes} KB, and at first {runs.first[example.name]} KB")


def soaked(runs, source, seconds):
    """Draws and runs until the time is up, or until too much is wrong."""
    until, turn = time.monotonic() + seconds, 0
    while time.monotonic() < until and len(runs.wrong) < MOST_WRONG:
        if turn % AGAIN == 0:
            standing(runs)
        source.choice([a_night, a_replay, a_replay, a_plan])(runs, source)
        turn += 1
    standing(runs)


def main():
    given = words_with_program(__doc__)
    given.add_argument("--seconds", type=int, default=600, help="how long (%(default)s)")
    given.add_argument("--seed", type=int, default=20261128, help="what the draw begins with (%(default)s)")
    asked = given.parse_args()
    started = program(asked.program)
    with tempfile.TemporaryDirectory() as name:
        peak = Path(name) / "peak"
        subprocess.run(["cc", "-O1", "-o", peak, ROOT / "trials/program/peak.c"], check=True)
        runs = Runs(started, peak)
        soaked(runs, random.Random(asked.seed), asked.seconds)
    told(runs.wrong)
    peaks = ", ".join(f"{runs.count[kind]} of {kind} ({runs.most[kind]} KB at most)" for kind in runs.count)
    return ended("soaked runs", runs.count.total(), len(runs.wrong), f"; {peaks}")
