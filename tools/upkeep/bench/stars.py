"""Whole nights over star joins of 1,000, 10,000 and 100,000 rows against plain Rust, with rows looked up by their keys and, up to 10,000
rows, by a nested product. The programs have to print one text; what is told is the best time of each, and its memory."""

from pathlib import Path
from tempfile import TemporaryDirectory

from upkeep.bench import best, in_turn, one_text, peer
from upkeep.words import program
from trials.drawn import star

ROUNDS, SIZES, MOST_NESTED = 15, (1000, 10000, 100000), 10000


def measure(asked):
    started = program(asked.program)
    with TemporaryDirectory() as room:
        plain, bundle = peer(room, "nights/peer.rs"), Path(room) / "bundle"
        for rows in SIZES:
            bundle.write_text(star.whole(rows))
            peers = ["nested", "keys"] if rows <= MOST_NESTED else ["keys"]
            commands = {"whview": ([started, "night"], bundle), **{name: ([plain, name], bundle) for name in peers}}
            show(rows, in_turn(commands, asked.rounds), peers)


def show(rows, runs, peers):
    """Prints the times of a star of so many rows, and their ratios."""
    one_text(runs.values())
    for name, each in runs.items():
        print(f"{rows:6} rows, {name:7} {best(each) * 1000:9.1f} ms {min(ran.kilobytes for ran in each):8} KB")
    for name in peers:
        print(f"{rows:6} rows, over plain Rust, {name}: {best(runs['whview']) / best(runs[name]):.1f}")
