"""Nights of the largest shapes that whview takes: what they take of the processor, and what memory the engine needs."""

import os
import random
import re
import subprocess
from time import monotonic
from typing import NamedTuple

from trials.servers.databases import in_folder
from trials.servers.postgresql import SECONDS
from trials.tables.filled import Filled, plainly
from trials.tables.given_nights import Night, written
from trials.tables.judged import Judged
from whview.catalogue.evaluator import Unbounded
from whview.catalogue.views import Place, View

MOST_SECONDS, MOST_MEMORY = 5.0, 300 << 10
WIDE = 64
# psql's own commands: which backend it was, what memory that one has had at most, and what it took of the processor.
ASKED = "SELECT pg_backend_pid() AS number \\gset\n\\setenv BACKEND :number\n"
ASKED += "\\! grep VmHWM /proc/$BACKEND/status; cat /proc/$BACKEND/stat\n"


class Shape(NamedTuple):
    """A shape: its name, its views, and the rows that its base views have and get."""

    name: str
    views: list
    rows: int
    strategy: list


def base(number, width=WIDE):
    return View(f"b{number}", [(f"c{column}", "int") for column in range(width)])


def star_pairs(children, pairs):
    """Equalities of one child's columns with another's, as many as there may be, all in one row of children."""
    return [((n % (children - 1)) * WIDE + n // (children - 1), (n % (children - 1) + 1) * WIDE + n // (children - 1)) for n in range(pairs)]


def first_pairs(children, pairs):
    """Equalities of the first child's columns with those of all others."""
    return [(n % WIDE, (n % (children - 1) + 1) * WIDE + n % WIDE) for n in range(pairs)]


def mixed_pairs(children, pairs):
    """Equalities of all children's columns with one another, all of one class."""
    places = [(n % children) * WIDE + n // children for n in range(pairs + 1)]
    return [tuple(sorted(pair)) for pair in zip(places, places[1:])]


def each_pairs(children, pairs):
    """Equalities between each two children, each of a class of its own."""
    two = [(a, b) for a in range(children) for b in range(a + 1, children)]
    return [(two[n % len(two)][0] * WIDE + n, two[n % len(two)][1] * WIDE + n) for n in range(min(pairs, WIDE))]


def joined(name, over, join, width=WIDE):
    """A joined view that keeps as many columns as there may be."""
    keep = [Place(place % (len(over) * WIDE)) for place in range(0, width * 5, 5)]
    return View(name, [(f"k{n}", "int") for n in range(len(keep))], over, join, True, keep)


def at_once(views):
    """The strategy of all terms: each Comp from all its sources."""
    derived = [v for v, view in enumerate(views) if view.over]
    return [(v, tuple(views[v].over)) for v in derived] + [(v, None) for v in range(len(views))]


def six_children(pairs, name, rows):
    views = [base(number) for number in range(6)]
    views.append(joined("wide", range(6), pairs))
    return Shape(name, views, rows, at_once(views))


def narrow_children(rows):
    """Six children of few columns and many rows, each joined with the next by ten equalities."""
    width = 12
    pairs = [(child * width + column, (child + 1) * width + column) for child in range(5) for column in range(10)]
    keep = [Place(place) for place in range(0, 6 * width, 6)]
    views = [base(number, width) for number in range(6)]
    views.append(View("wide", [(f"k{n}", "int") for n in range(len(keep))], range(6), pairs, True, keep))
    return Shape(f"six narrow children with 50 pairs, {rows} rows", views, rows, at_once(views))


def many_views(rows):
    """Two base views and 62 over them: joins of three, and summaries over joins."""
    views = [base(0, 8), base(1, 8), base(2, 8)]
    for number in range(3, 64):
        if number % 2:
            keep = [Place(place) for place in range(0, 24, 3)]
            views.append(View(f"v{number}", [(f"k{n}", "int") for n in range(8)], [0, 1, 2], [(0, 8), (9, 17)], True, keep))
        else:
            columns = [("g", "int"), ("n", "int"), ("s", "int")]
            views.append(View(f"v{number}", columns, [number - 1], group=[0], sums=[["+", Place(1), Place(2)]]))
    return Shape("64 views", views, rows, at_once(views))


def chained(rows):
    """64 views, each a joined view over the one before it and a base view."""
    views = [base(0, 4), base(1, 4)]
    for number in range(2, 64):
        keep = [Place(0), Place(1), Place(6), Place(7)]
        views.append(View(f"v{number}", [(f"k{n}", "int") for n in range(4)], [number - 1, 0], [(0, 4)], True, keep))
    views[2].over = [1, 0]
    return Shape("a chain of 64 views", views, rows, at_once(views))


def shapes(is_whole):
    kinds = {"in a row": star_pairs, "round one": first_pairs, "of one class": mixed_pairs, "between each two": each_pairs}
    found = [chained(20)]
    for rows in (0, 40):
        found += [six_children(kind(6, WIDE), f"six children with 64 pairs {name}, {rows} rows", rows) for name, kind in kinds.items()]
        found.append(many_views(rows)._replace(name=f"64 views, {rows} rows"))
    found += [six_children([], "six children without pairs, no rows", 0), narrow_children(2000)]
    return found if is_whole else [found[0], found[1], found[9], found[10]]


class Planned:
    """A shape that is carried out on an engine."""

    def __init__(self, shape, database):
        self.shape, self.database = shape, database
        source = random.Random(shape.name)
        views = shape.views
        records = [[] if view.over else self.drawn(source, view, 0) for view in views]
        changes = [[] if view.over else self.drawn(source, view, 1000)[: max(shape.rows // 4, 0)] for view in views]
        self.night = Night(views, records, changes, shape.strategy)

    def drawn(self, source, view, start):
        """Rows of which each has one number all over, so that joins find one of each."""
        return [((number + start,) * len(view.columns), 1) for number in range(self.shape.rows)]

    def mistakes(self):
        """What is slow, large or wrong."""
        filled = Filled(self.database, self.night, [plainly(view) for view in self.night.views])
        before, after = self.tables(False), self.tables(True)
        made = [line for v, view in enumerate(self.night.views) for line in filled.rows(v, before[v]) + ([] if view.over else filled.changed(v))]
        with in_folder() as folder:
            began = monotonic()
            words = ["--engine", self.database.engine, self.night.folder(folder)]
            created, script = written("--create", *words), written(*words)
            self.writing = (monotonic() - began) / 2
        if created.status or script.status:
            return [f"it was refused: {(created.told + script.told).strip()[:300]}"]
        self.database.fresh()
        if told := self.database.run(created.text):
            return [f"--create: {told[:300]}"]
        self.database.make(made or ["SELECT 1;"])
        state = self.database.state()
        told, self.seconds, self.memory = self.measured(script.text)
        found = [f"it was refused: {told.strip()[:400]}"] if told else Judged(self.database, self.night, filled.tables, state, self.database.state()).done(after)
        found += [f"it took {self.seconds:.1f} s"] if self.seconds > MOST_SECONDS else []
        return found + ([f"it took {self.memory >> 10} MB"] if self.memory > MOST_MEMORY else [])

    def tables(self, is_after):
        """The tables by the definitions, but joined by equal numbers: the whole product would not end."""
        tables = self.night.base(is_after)
        for v, view in enumerate(self.night.views):
            if view.over:
                tables[v] = quick(view, [tables[u] for u in view.over])
        return tables

    def measured(self, text):
        """What is told, the processor's seconds, and the most memory in kB."""
        return self.of_postgresql(text) if self.database.engine == "postgresql" else self.of_sqlite(text)

    def of_postgresql(self, text):
        """psql asks in the end which backend it was, and what its memory was."""
        limited = {"PGCLIENTENCODING": "UTF8", "PGOPTIONS": f"-c statement_timeout={SECONDS * 900}"}
        self.database.script.write_bytes((text + "\n" + ASKED).encode())
        ran = self.database.server.psql(self.database.name, ("-f", self.database.script), surroundings=limited, given=b"")
        memory = re.search(rb"VmHWM:\s*(\d+) kB", ran.stdout)
        times = ran.stdout.rpartition(b")")[2].split()[11:13]
        told = ran.stderr.decode(errors="replace")
        return told or None, sum(map(int, times)) / os.sysconf("SC_CLK_TCK"), int(memory[1]) if memory else 0

    def of_sqlite(self, text):
        self.database.script.write_bytes(text.encode())
        with self.database.script.open("rb") as given:
            ran = subprocess.Popen(["sqlite3", "-bail", self.database.path], stdin=given, stdout=subprocess.DEVNULL, stderr=subprocess.PIPE)
            told = ran.stderr.read().decode(errors="replace")
            _, status, used = os.wait4(ran.pid, 0)
            ran.returncode = os.waitstatus_to_exitcode(status)
        return told or None, used.ru_utime + used.ru_stime, used.ru_maxrss


def quick(view, tables):
    """A view's table, where its children's rows are joined by the first equality that leads to each, and then by all."""
    rows = [((), 1)]
    start = 0
    for table in tables:
        width = len(next(iter(table))) if table else 0
        pair = next(((left, right - start) for left, right in view.join if start <= right < start + width and left < start), None)
        rows = list(extended(rows, table, pair))
        start += width
    return Unbounded().from_scratch(view, [dict(rows)])


def extended(rows, table, pair):
    """Combined rows and one more child's, by an equality where there is one."""
    by = {}
    for cells, times in table.items():
        by.setdefault(cells[pair[1]] if pair else None, []).append((cells, times))
    for row, count in rows:
        for cells, times in by.get(row[pair[0]] if pair else None, []):
            yield row + cells, count * times


class Read(NamedTuple):
    """A night whose rows an index finds that is not unique: what it changes, how many values the index tells apart, and what is done beforehand."""

    name: str
    changed: int
    values: int
    before: list
    most: int


MANY = 4000
HEIR = ["CREATE TABLE heir (UNIQUE (c0)) INHERITS (b0);", "INSERT INTO heir SELECT * FROM ONLY b0;", "DELETE FROM ONLY b0;"]
EMPTY = ["""UPDATE pg_class SET reltuples = 0, relpages = 1 WHERE relname IN ('b0', 'b0~changes');"""]
READS = [
    Read("one row changes that an index finds", 1, MANY, [], MANY),
    Read("one row changes that the index of an heir finds", 1, MANY, HEIR, MANY),
    Read("many rows change of few values, and statistics tell of none", MANY // 2, 5, EMPTY, 20 * MANY),
]


def read_mistakes(database):
    """Nights in PostgreSQL that read a whole table for one row, or the same rows again and again."""
    found = []
    for each in READS:
        rows = [((number % each.values, number), 1) for number in range(MANY)]
        night = Night([base(0, 2)], [rows], [[((cell, number + MANY), 1) for (cell, number), _ in rows[: each.changed]]], plain=[0])
        filled = Filled(database, night)
        database.fresh()
        database.make([*filled.made(0), *filled.made_changes(0), "CREATE INDEX found ON b0 (c0);", *filled.base_rows(0), *filled.changed(0)])
        database.asked("VACUUM ANALYZE;")
        database.make(each.before or ["SELECT 1;"])
        before = rows_read(database)
        with in_folder() as folder:
            script = written("--engine", database.engine, *night.option(), night.folder(folder)).text
        told = database.run(f"{script}\nSELECT pg_stat_force_next_flush();\n")
        read = rows_read(database) - before
        found += [f"postgresql: {each.name}: {told or f'{read} rows were read'}"] if told or read >= each.most else []
    return found


def rows_read(database):
    """How many rows of tables were read so far."""
    database.asked("SELECT pg_stat_force_next_flush();")
    asked = "SELECT sum(seq_tup_read) + coalesce(sum(idx_tup_fetch), 0) FROM pg_stat_user_tables WHERE relname IN ('b0', 'heir');"
    return database.asked(asked)[-1]


def planning_mistakes(database, is_whole):
    """What each shape does that it should not, and what it took."""
    found, told = [], []
    for shape in shapes(is_whole):
        planned = Planned(shape, database)
        wrong = planned.mistakes()
        found += [f"{database.engine}: {shape.name}: {text[:500]}" for text in wrong]
        if hasattr(planned, "seconds"):
            told.append((shape.name, round(planned.writing, 2), round(planned.seconds, 2), planned.memory >> 10))
    return found + (read_mistakes(database) if database.engine == "postgresql" else []), told
