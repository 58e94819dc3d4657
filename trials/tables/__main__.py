"""Carries nights out by whview sql over tables as people have them, and judges every row of the database.

Cases that people met are tried one by one; then drawn nights on each engine, over tables that are drawn: in parts, with heirs,
keys, foreign keys, columns that the catalogue does not have, other types, triggers, owners, schemas and encodings. A night has to leave
exactly the program's rows and nothing else changed, or to be refused by a sentence of its own with nothing changed at all; which, the
drawer knows. Then hostile names and texts stand in every place of a catalogue; nights of the largest shapes are measured; and nights are
stopped at drawn moments. Scripts that are spoilt have to be noticed. The PostgreSQL server is this tool's own, of bounded memory, in a
temporary folder; where there is none, and it cannot be installed, SQLite is tried alone.
"""

import resource
import signal
import sys
from collections import Counter
from contextlib import ExitStack

from trials.drawn.shrunk import smallest
from trials.drawn.tables import TriedNight
from trials.servers.databases import PostgreSQLDatabase, SQLiteDatabase, in_folder
from trials.servers.postgresql import Server, postgresql
from trials.spoilt.tables import SPOILT, unnoticed
from trials.tables import clients, fixed
from trials.tables.cases import Tried
from trials.tables.hostile import hostile_mistakes
from trials.tables.largest import planning_mistakes
from trials.tables.stopped import stop_mistakes
from upkeep.words import program, words_with_program

PACKAGES = ("psycopg", "hypothesis")
COUNT, SEED, SHOWN = 50, 20261127, 12
# How many hostile texts and stops there are on each engine, and how many times as many where more nights are asked for.
ATTACKS, STOPS, MORE = 60, 4, 5
ENGINES = ("sqlite", "postgresql")
# The databases in which nights are drawn, by their engines: of another encoding, or without foreign keys.
DRAWN_IN = {"postgresql": ["", "", "latin", "ascii"], "sqlite": ["", "", "unkeyed"]}


class Trial:
    """The databases that nights are tried in, and what went wrong so far."""

    def __init__(self, stack, started):
        self.started, self.wrong = started, []
        folder = stack.enter_context(in_folder())
        self.databases = {("sqlite", ""): SQLiteDatabase(folder), ("sqlite", "unkeyed"): SQLiteDatabase(folder, False)}
        programs = postgresql()
        self.server = stack.enter_context(Server(programs)) if programs else None
        for name, encoding in (("tried", "UTF8"), ("latin", "LATIN1"), ("ascii", "SQL_ASCII")) if programs else ():
            self.databases["postgresql", name.removeprefix("tried")] = PostgreSQLDatabase(self.server, name, encoding)
        if programs:
            self.databases["postgresql", ""].asked("CREATE ROLE clerk LOGIN;")
        self.engines = [engine for engine in ENGINES if (engine, "") in self.databases]

    def seconds(self):
        """The processor's time so far, the server's too."""
        used = [resource.getrusage(who) for who in (resource.RUSAGE_SELF, resource.RUSAGE_CHILDREN)]
        return sum(each.ru_utime + each.ru_stime for each in used) + (self.server.seconds() if self.server else 0)

    def fixed(self, only=""):
        cases = [case for case in [*fixed.cases(), *clients.cases()] if case.engine in self.engines and only in case.name]
        for case in cases:
            mistakes = Tried(case, self.databases[case.engine, case.database]).mistakes()
            self.wrong += [f"{case.engine}: {case.name}: {text}" for text in mistakes[:2]]
        return f"{len(cases)} cases"

    def drawn(self, count, seed):
        ends = Counter()
        for engine in self.engines:
            wrong = smallest(lambda source, engine=engine: self.mistakes_of(source, engine, ends), count, f"{seed} {engine}")
            self.wrong += [f"{engine}: a drawn night: {text}" for text in wrong]
        told = ", ".join(f"{ends[end]} {end}" for end in sorted(ends))
        return f"{sum(ends.values())} nights by {' and '.join(self.engines)} ({told})"

    def mistakes_of(self, source, engine, ends):
        """What is wrong with a drawn night, and what was drawn."""
        tried = TriedNight(source, self.databases[engine, source.choice(DRAWN_IN[engine])], self.started)
        mistakes = tried.mistakes()
        ends["wrong" if mistakes else tried.end] += 1
        return [*mistakes[:2], tried.told()] if mistakes else []

    def hostile(self, count, seed):
        scripts = 0
        for engine in self.engines:
            wrong, run = hostile_mistakes(self.databases[engine, ""], self.started, count, seed)
            self.wrong += wrong
            scripts += run
        return f"{count} hostile names and texts, {scripts} of them written as scripts"

    def planned(self, is_whole):
        seconds, memory, shapes = [], [], 0
        for engine in self.engines:
            wrong, told = planning_mistakes(self.databases[engine, ""], is_whole)
            self.wrong += wrong
            shapes = max(shapes, len(told))
            seconds.append(f"{max(took for _, _, took, _ in told):.1f} s")
            memory.append(f"{max(used for _, _, _, used in told)} MB")
        return f"{shapes} largest shapes in at most {' and '.join(seconds)}, {' and '.join(memory)}"

    def stopped(self, count, seed):
        ends = Counter()
        for engine in self.engines:
            wrong, told = stop_mistakes(self.databases[engine, ""], count, seed)
            self.wrong += wrong
            ends.update(told)
        return f"{ends['stopped'] + ends['done']} stops, {ends['stopped']} with nothing done"

    def spoilt(self):
        left = unnoticed([*fixed.cases(), *clients.cases()], self.databases)
        self.wrong += [f"{spoilt.engine}: not noticed: {spoilt.name}" for spoilt in left]
        tried = [spoilt for spoilt in SPOILT if spoilt.engine in self.engines]
        return f"{len(tried) - len(left)} of {len(tried)} spoilt scripts noticed"


def main():
    # A server that was started is stopped too where this is.
    signal.signal(signal.SIGTERM, lambda *_: sys.exit(143))
    asked = words_with_program(__doc__, COUNT, SEED).parse_args()
    started, count, seed = program(asked.program), asked.count, asked.seed
    more = MORE if count > COUNT else 1
    with ExitStack() as stack:
        trial = Trial(stack, started)
        if not trial.server:
            print("databases: there is no PostgreSQL here and it could not be installed: SQLite is tried alone")
        parts = [trial.fixed, lambda: trial.drawn(count, seed), lambda: trial.hostile(ATTACKS * more, seed),
                 lambda: trial.planned(count > COUNT), lambda: trial.stopped(STOPS * more, seed), trial.spoilt]
        told = [part() for part in parts]
        seconds = trial.seconds()
    for text in trial.wrong[:SHOWN]:
        print(text[:1500])
    print(f"databases: {'; '.join(told)}; {len(trial.wrong)} failed; {seconds:.0f} s of processor")
    return 1 if trial.wrong else 0
