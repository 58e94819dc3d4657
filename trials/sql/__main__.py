"""Carries drawn nights out by the scripts of whview sql and compares each with `whview night`.

Drawn nights are carried out by the program, by SQLite and by a PostgreSQL server of its own, which is started in a temporary
folder over a socket. All have to leave the same rows in every table, base tables and changes too; where the program refuses a
night, the engine has to refuse it with the same words and to leave everything as it was. Before that, scripts that go against one
rule each are tried, and each has to be noticed; and after it the commands of docs/SQL.md are run as they are written,
readers and a writer come while a night is held open, sums leave 64 bits and come back, and where they do not, or counts do not, or
tables do not fit, the night is refused; tables as people have them are tried, and clients that go on after an error. Where there
is no PostgreSQL, and it cannot be installed, SQLite is tried alone.
"""

import random
import signal
import subprocess
import sys
from collections import Counter
from contextlib import ExitStack
from functools import partial

from trials import pages
from trials.drawn.scripts import Carried, Night, carried_by
from trials.drawn.shrunk import smallest
from trials.ended import told
from trials.servers.engines import PostgreSQLEngine, SQLiteEngine
from trials.servers.postgresql import Server, postgresql
from trials.spoilt.exchanged import script_of
from trials.spoilt.scripts import SPOILT
from trials.sql import cases, fitting, held, keyed_cases
from trials.sql.sums import sum_mistakes
from upkeep.words import ROOT, program, words_with_program
from whview.sql.comments import WHY

PACKAGES = ("psycopg", "hypothesis")
ENGINES = ("postgresql", "sqlite")
COUNT, SEED, MOST_DRAWN = 50, 20261125, 400


def page_mistakes(server):
    """What the first commands of the page print, where it is not what the page says."""
    found = pages.blocks_of("SQL.md")
    said = next(block for block in found[""] if block.startswith("day,"))
    with pages.examples_in_folder() as folder:
        ran = pages.run(found["sh"][0], folder, server)
    return [] if (ran.stdout, ran.stderr, ran.returncode) == (said, "", 0) else [f"docs/SQL.md: {ran.stdout}{ran.stderr}"]


def command_mistakes():
    """What the words of `whview sql` do, where it is not what they say."""

    def said(*words):
        return subprocess.run([ROOT / "whview", "sql", *words, ROOT / "examples/shop"], capture_output=True, text=True)

    wrong = []
    for words, counted in ((), 4), (("--plain", "*"), 1), (("--plain", "*", "--counted", "lines"), 2), (("--plain", "orders,lines"), 2):
        for engine in ENGINES:
            made = said("create", "--engine", engine, *words).stdout
            wrong += [] if made.count(' DEFAULT 1 ') == counted else [f"whview sql create {words}: {made}"]
    told = said("explain").stdout.split("\n")
    places = [told.index(line) for line in ("net orders", "judge orders", "comp sales from orders", "inst orders", "inst daily_by_region")]
    wrong += [] if places == sorted(places) else [f"whview sql explain: {told}"]
    reads = ["  reads: change of orders x lines x products", f"  why here: {WHY['comp']}"]
    wrong += [] if told[places[2] + 1 : places[2] + 3] == reads else [f"whview sql explain: {told}"]
    refused = said("night", "--plain", "sales")
    wrong += [] if (refused.returncode, refused.stderr) == (1, "whview sql: sales is no base view\n") else [f"whview sql: {refused}"]
    return wrong


def nights(started, seed):
    source = random.Random(seed)
    while True:
        yield Night(source, started)


def held_night(started, seed):
    """A drawn night that is carried out and changes something."""
    return next(night for night in nights(started, seed) if night.told is None and not night.is_large and night.before != night.after)


def spoilt_of(engine):
    return [spoilt for spoilt in SPOILT if engine.dialect.engine in spoilt.engines]


def unnoticed(started, seed, engine):
    """The spoilt scripts of an engine that no night shows."""
    left = spoilt_of(engine)
    for _, night in zip(range(MOST_DRAWN), nights(started, seed + 1)):
        left = [spoilt for spoilt in left if Carried(night, engine, partial(script_of, spoilt=spoilt.parts)).mistake() is None]
        if not left:
            break
    return left


def tried(started, engines, count, seed):
    """What is wrong with the smallest of so many drawn nights that an engine carries out otherwise, and how often nights ended how."""
    ends = Counter()

    def mistakes(source):
        night = Night(source, started)
        ends[night.end] += 1
        found = {engine.dialect.engine: carried_by(night, engine).mistake() for engine in engines}
        return [f"a night by {name}: {wrong}\nof\n{night.bundle(night.changes).decode()}" for name, wrong in found.items() if wrong]

    return smallest(mistakes, count, seed), ends


def main():
    # A server that was started is stopped too where this is.
    signal.signal(signal.SIGTERM, lambda *_: sys.exit(143))
    asked = words_with_program(__doc__, COUNT, SEED).parse_args()
    started, seed = program(asked.program), asked.seed
    with ExitStack() as stack:
        programs = postgresql()
        server = stack.enter_context(Server(programs)) if programs else None
        engines = [SQLiteEngine(), *([PostgreSQLEngine(server)] if server else [])]
        if not server:
            print("sql: there is no PostgreSQL here and it could not be installed: SQLite is tried alone")
        blind = [spoilt for engine in engines for spoilt in unnoticed(started, seed, engine)]
        wrong, ends = tried(started, engines, asked.count, seed)
        wrong += sum_mistakes(started, engines) + command_mistakes() + fitting.going_on_mistakes()
        wrong += [text for engine in engines for each in (fitting, cases, keyed_cases) for text in each.mistakes(engine)]
        drawn = held_night(started, seed)
        wrong += held.held_in_sqlite(drawn)
        wrong += held.held_mistakes(engines[1], drawn) + page_mistakes(server) if server else []
    told(wrong, 5)
    for kind in blind:
        print(f"not noticed: {kind.name}")
    nights_ended = ", ".join(f"{ends[end]} {end}" for end in sorted(ends))
    names, spoilt = " and ".join(engine.dialect.engine for engine in engines), sum(map(len, map(spoilt_of, engines)))
    noticed = f"{spoilt - len(blind)} of {spoilt} spoilt scripts noticed"
    print(f"sql: {sum(ends.values())} nights by {names} ({nights_ended}), {len(wrong)} failed; {noticed}")
    return 1 if wrong or blind else 0
