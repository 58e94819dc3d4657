"""Nights that `whview replay` goes through against `whview night`, on star joins of 10,000, 100,000 and 1,000,000 rows.

Each night takes 500 rows out of the fact table and puts 500 others in, or these back, so that all tables keep their sizes. A
replay of so many nights has every part of them in its bundle, whatever its events are: with none it reads the bundle and works
the opening contents out, and what the events of a night add is what a replayed night costs beside tables that stand. What is
printed is the best time of all rounds in turn, since other work on the machine only adds time, and the ratios to `night`, which
reads one night, works the same contents out, carries the night out and prints the views, and how many times longer a replayed
night takes beside a hundred times as many rows.
"""

import sys
from pathlib import Path
from tempfile import TemporaryDirectory

from upkeep.bench import best, in_turn
from upkeep.words import program
from trials.drawn import star

CHANGED, NIGHTS, ROUNDS = 500, 4, 9
HEAD = "@schedule\ndesks 1\nworkers 1\nkeys 256\n"
JOB, PAGE = "take 0\ndone 0\n", "page\n"
# The pages of the sales; shops and products do not change; those of the two views, and some in vain.
NIGHT = f"begin\n{JOB}{PAGE * 4}{JOB * 3}{PAGE * 8}commit\n"


def data(rows):
    """The catalogue and the tables."""
    lines = list(star.bundle(rows))
    return star.CATALOGUE + "".join(line + "\n" for line in lines[: lines.index("@changes sales\n#,id,shop,product,pieces")])


def night(rows, back):
    """The changes and the strategy of a night."""
    step = rows // CHANGED
    there, others = ([star.sale(begun + number * step) for number in range(CHANGED)] for begun in (0, rows))
    leaving, coming = (others, there) if back else (there, others)
    lines = [f"-1,{row}" for row in leaving] + [f"1,{row}" for row in coming]
    return "@changes sales\n#,id,shop,product,pieces\n" + "".join(f"{line}\n" for line in lines) + star.STRATEGY


def replay(rows, gone):
    """A bundle of all nights, with the events of so many."""
    nights = [night(rows, back % 2) for back in range(NIGHTS)]
    return data(rows) + HEAD + NIGHT * gone + "@night\n".join(nights)


def measure(asked):
    started = program(asked.program)
    with TemporaryDirectory() as room:
        times = [show(started, rows, Path(room), asked.rounds) for rows in (10_000, 100_000, 1_000_000)]
    print(f"a replayed night beside a hundred times as many rows: {times[-1] / times[0]:.1f} times as long")


def show(started, rows, room, rounds):
    """Prints the times of a star of so many rows, and their ratios; answers what a replayed night takes."""
    bundles = {"night": ("night", data(rows) + night(rows, False)), "replay, no event": ("replay", replay(rows, 0))}
    bundles |= {"replay, one night": ("replay", replay(rows, 1)), f"replay, {NIGHTS} nights": ("replay", replay(rows, NIGHTS))}
    commands = {}
    for name, (command, text) in bundles.items():
        (room / name).write_text(text)
        commands[name] = ([started, command], room / name)
    runs = in_turn(commands, rounds)
    carried, none, _, through = runs.values()
    if through[-1].text.count("version") != NIGHTS:
        sys.exit(f"a replay of {NIGHTS} nights printed\n{through[-1].text}")
    for name, each in runs.items():
        print(f"{rows:7} rows, {name:17} {best(each) * 1000:8.1f} ms, {best(each) / best(carried):.2f} times the night")
    each = (best(through) - best(none)) / NIGHTS
    print(f"{rows:7} rows, a replayed night {each * 1000:8.1f} ms, {each / best(carried):.2f} times the night")
    return each
