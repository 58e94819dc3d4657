"""Runs `whview night` on twenty drawn catalogues, by several correct strategies each, and works every answer out again.

The catalogues have joins of two and of three views, summaries over joins over summaries, text columns and filters. What is
printed of a night is worked out by an evaluator of its own, from the definitions alone: each view from scratch over the old
and over the new base, the rows that each term of a Comp reads, and how many rows each view changes by. Beside that, a second
bundle has the new base tables as its data and no changes at all: its views have to read as the first one's, byte for byte.
Each first strategy is run by 1, 3 and 16 workers, beside 0 and 3 readers and by pages of 1 to 256 rows too: it has one text, behind
which each reader has the rows of before. It is run for the changes too, which are the new tables less the old ones.
"""

import random
import subprocess
from concurrent.futures import ThreadPoolExecutor

from trials.drawn.nights import drawn
from trials.ended import ended, told
from upkeep.words import program as started
from upkeep.words import words_with_program

CATALOGUES = 20
STRATEGIES = 5
SEED = 20261122

# How a night is run beside the defaults: its words, and how many readers there are.
RUNS = [
    (["--workers", "3"], 0),
    (["--workers", "16", "--readers", "3"], 3),
    (["--readers", "3", "--page-keys", "1"], 3),
    (["--workers", "3", "--readers", "16", "--page-keys", "7"], 16),
    (["--print", "tables"], 0),
    (["--print", "changes"], 0),
    (["--print", "changes", "--workers", "3", "--readers", "3", "--page-keys", "1"], 3),
]


def answer(program, given, words=()):
    """What the program prints, and its status."""
    ran = subprocess.run([str(program), "night", *words], input=given, capture_output=True, timeout=60)
    return ran.stdout.decode(errors="replace"), ran.returncode


def views_in(text):
    """What stands after the line of the version."""
    return text.partition("\nversion 1\n")[2]


def mistakes(program, night, strategies):
    """What is wrong with the answers of a night, each with its bundle."""
    shown = night.shown()
    for strategy in strategies:
        given = night.bundle(strategy)
        text, status = answer(program, given)
        expected = night.report(strategy) + shown
        if (text, status) != (expected, 0):
            yield f"answered with status {status}\n{text}where the definitions say\n{expected}for\n{given.decode()}"
    yield from mistaken_runs(program, night, strategies[0])
    again = night.again()
    given = again.bundle(again.strategies(random.Random(0), 1)[0])
    text, status = answer(program, given)
    if (views_in(text), status) != (shown, 0):
        yield f"answered of the new base with status {status}\n{text}where the night said\n{shown}for\n{given.decode()}"


def mistaken_runs(program, night, strategy):
    """What is wrong with the answers of a night that is run by other workers, readers and pages, or for its changes."""
    given = night.bundle(strategy)
    for words, readers in RUNS:
        text, status = answer(program, given, words)
        shown = night.shown_changes() if "changes" in words else night.shown()
        expected = night.report(strategy) + shown + night.readers(readers)
        if (text, status) != (expected, 0):
            yield f"{' '.join(words)}: answered with status {status}\n{text}where the definitions say\n{expected}for\n{given.decode()}"


def main():
    program = started(words_with_program(__doc__).parse_args().program)
    source = random.Random(SEED)
    nights = [drawn(source) for _ in range(CATALOGUES)]
    listed = [night.strategies(source, STRATEGIES) for night in nights]
    with ThreadPoolExecutor(max_workers=2) as runners:
        found = list(runners.map(lambda night, strategies: list(mistakes(program, night, strategies)), nights, listed))
    told(sum(found, []))
    return ended("nights", CATALOGUES, sum(map(bool, found)), f"; {sum(map(len, listed))} strategies")
