"""Nights by the scripts of whview sql in a PostgreSQL server of its own and in SQLite, beside REFRESH MATERIALIZED VIEW.

The warehouses are the star of tools/star with a million facts, or as many as are asked for, and the shop of trials/run folder/nights with as
many lines and a third as many orders; one row in a hundred changes. Rows are loaded, the views are opened, and then the night is carried
out round by round, each time rolled back, with the time of each step; so is REFRESH of materialized views that hold the same. What is printed
are medians: of the night, of its Comps, of the Insts of base views and of derived ones, and of REFRESH without and with parallel
workers; and for each kind of step the time for a row of its work. After that come the star by a strategy that takes all changes at
once, and a night of the star in which nine tenths of the facts change.
"""

import csv
import io
import random
import sqlite3
import statistics
import sys
import time
from collections import defaultdict

from upkeep.words import ROOT
from trials.drawn import star as star_bundle
from trials.drawn.shop import Shop
from trials.servers.engines import PostgreSQLEngine, texts
from trials.servers.postgresql import Server, postgresql
from whview.bundle import parts_of
from whview.sql.carry import Night, carry
from whview.sql.catalogue import Catalogue
from whview.sql.comments import Comments
from whview.sql.insts import Insts
from whview.sql.sqlite import SQLite
from whview.sql.stepwise import StepwiseParts, StepwiseScript
from whview.sql.tokens import sql

ROUNDS = 5
# The server's memory is that of a small machine; all other settings are PostgreSQL's own.
MEMORY = ["SET work_mem = '64MB';", "SET temp_buffers = '64MB';"]
SALES = """SELECT orders.day, orders.region, lines.product, lines.pieces, lines.pieces * products.price AS cost FROM orders
 JOIN lines USING (id) JOIN products USING (product)"""
REFRESHED = {
    "star": {
        "sold": "SELECT shops.region, products.kind, sales.pieces * products.price AS cost FROM sales JOIN shops USING (shop)"
        " JOIN products USING (product)",
        "by_kind": "SELECT region, kind, count(*), sum(cost) FROM m_sold GROUP BY region, kind",
    },
    "shop": {
        "sales": SALES,
        "daily_by_product": "SELECT day, product, count(*), sum(pieces) AS pieces, sum(cost) AS cost FROM m_sales GROUP BY day, product",
        "daily_by_region": "SELECT day, region, count(*), sum(cost) FROM m_sales GROUP BY day, region",
    },
}


AT_ONCE = """@strategy
comp sold from sales shops products
inst sales
inst shops
inst products
comp by_kind from sold
inst sold
inst by_kind
"""


def star(facts, nine_tenths=False):
    """The star's catalogue, and the rows and changes of its base views."""
    once, nights = parts_of(star_bundle.whole(facts))
    records = lambda lines: list(csv.reader(lines))[1:]
    rows = {heading.split()[1]: records(lines) for heading, lines in once.items() if heading.startswith("data ")}
    changes = {heading.split()[1]: records(lines) for heading, lines in nights[0].items() if heading.startswith("changes ")}
    if nine_tenths:
        numbers = [(-1, number) for number in range(facts * 9 // 10)] + [(1, facts + number) for number in range(facts * 9 // 10)]
        changes["sales"] = [[count, *star_bundle.sale(number).split(",")] for count, number in numbers]
    return star_bundle.CATALOGUE + star_bundle.STRATEGY, rows, changes


def shop(lines):
    """The shop's catalogue, and the rows and changes of its base views; each row stands once."""
    drawn = Shop(random.Random(7), lines // 3, lines)
    drawn.rows["lines"] = list(dict.fromkeys(drawn.rows["lines"]))
    rows = {name: list(listed) for name, listed in drawn.rows.items()}
    there, changes = set(rows["lines"]), drawn.night(lines // 300, lines // 100)
    last = {row: count for count, row in changes["lines"]}
    changes["lines"] = [(count, row) for row, count in last.items() if count < 0 or row not in there]
    folder = ROOT / "examples/shop"
    text = f"@catalogue\n{(folder / 'catalogue.toml').read_text()}@strategy\n{(folder / 'strategy.txt').read_text()}"
    return text, rows, {name: [[count, *row] for count, row in listed] for name, listed in changes.items()}


class KeptChanges(Insts):
    """Insts after which each view's change stands in a table; nobody else touches rows."""

    def untouched(self, v):
        return []


class Timed:
    """Scripts whose comments are statements that tell when each step begins."""

    def __init__(self, text, dialect):
        self.catalogue, self.dialect = Catalogue(text), dialect
        self.script = carry(Night(self.catalogue), dialect)
        self.steps = []

    def comment(self, step):
        self.steps.append(step)
        return self.moment

    def named(self, name):
        return self.catalogue.names[name]

    def written(self, v, suffix="", count=False):
        """A table and its columns, the count first where it is wanted."""
        written = self.dialect.written
        columns = written(self.script.tables.users(v))
        return written([self.script.tables.table(v, suffix)])[0], ['"#"', *columns] if count else columns

    def tables(self, rows, changes):
        """The tables and columns that rows and changes are put into, with the rows."""
        for suffix, tables in ("", rows), ("~changes", changes):
            for name, listed in tables.items():
                yield (*self.written(self.named(name), suffix, bool(suffix)), listed)

    def kinds(self):
        """What each step is counted under."""
        views = self.catalogue.views
        base = ["inst of base views" if step.kind == "inst" and not views[step.view].over else None for step in self.steps]
        kinds = {"net": "changes netted and judged", "judge": "changes netted and judged", "comp": "comps", "finish": "comps"}
        return [found or kinds.get(step.kind, "inst of derived views") for found, step in zip(base, self.steps)]


class OnPostgreSQL(Timed):
    now = "extract(epoch FROM clock_timestamp())"
    moment = sql("INSERT INTO pg_temp.moments VALUES (extract(epoch FROM clock_timestamp()))")

    def __init__(self, engine, text, rows, changes):
        super().__init__(text, engine.dialect)
        self.engine = engine
        engine.fresh()
        self.told(engine.run(self.script.creation()))
        for table, columns, listed in self.tables(rows, changes):
            self.copy(table, columns, listed)
        self.told(engine.run([*self.script.open(Comments(self.catalogue).short)]))
        self.told(engine.run(["VACUUM ANALYZE;"]))

    def told(self, told):
        if told:
            sys.exit(f"tools/bench: {told}")

    def copy(self, table, columns, listed):
        text = io.StringIO()
        csv.writer(text, lineterminator="\n").writerows(listed)
        with self.engine.session() as session, session.connection.cursor().copy(f"COPY {table} ({', '.join(columns)}) FROM STDIN (FORMAT csv)") as copy:
            copy.write(text.getvalue())

    def asked(self, lines):
        """What lines answer in a session of their own."""
        with self.engine.session() as session:
            return session.asked(self.engine.script(lines))

    def night(self):
        """The moments at which the night's steps began, with its beginning and its end; it is rolled back."""
        self.steps = []
        *lines, _ = self.script.night(self.catalogue.correct(), self.comment)
        made = [*MEMORY, "CREATE TEMPORARY TABLE moments (at double precision);", f"SELECT {self.now};"]
        return list(map(float, self.asked([*made, *lines, "SELECT at FROM moments ORDER BY at;", f"SELECT {self.now};", "ROLLBACK;"])))

    def refresh(self, views, workers):
        """The seconds that REFRESH of all views takes."""
        lines = [*MEMORY, f"SET max_parallel_workers_per_gather = {workers};", f"SELECT {self.now};"]
        began, ended = map(float, self.asked([*lines, *(f"REFRESH MATERIALIZED VIEW m_{name};" for name in views), f"SELECT {self.now};"]))
        return ended - began

    def works(self):
        """How many rows the Comps read, and how many the Insts of base views and of derived ones put, by scripts that keep each change."""
        views, script = range(len(self.catalogue.views)), StepwiseScript(self.catalogue, self.dialect, parts=StepwiseParts(insts=KeptChanges))
        count = lambda v: 'sum("#")' if script.tables.shape.is_counted(v) else "count(*)"
        rows = [f"SELECT coalesce({count(v)}, 0)::bigint FROM {self.written(v)[0]};" for v in views]
        changes = [f'SELECT coalesce(sum(abs(n)), 0)::bigint FROM pg_temp."{script.tables.working_name(v, "net")}";' for v in views]
        self.steps = []
        *lines, _ = script.night(self.catalogue.correct(), lambda step: self.steps.append(step) or Comments(self.catalogue).short(step))
        numbers = self.asked([*rows, *lines, *rows, *changes, "ROLLBACK;"])
        self.catalogue.sizes = list(zip(*(numbers[len(views) * part :][: len(views)] for part in range(3))))
        comments, found = Comments(self.catalogue), defaultdict(int)
        for kind, step in zip(self.kinds(), self.steps):
            found[kind] += comments.rows(step, self.catalogue.sizes) or 0
            comments.short(step)
        return found

    def materialize(self, views):
        self.told(self.engine.run([*(f"CREATE MATERIALIZED VIEW m_{name} AS {query};" for name, query in views.items()), "ANALYZE;"]))


class OnSQLite(Timed):
    moment = sql("SELECT moment()")

    def __init__(self, text, rows, changes):
        super().__init__(text, SQLite())
        self.database, self.moments = sqlite3.connect(":memory:", isolation_level=None), []
        self.database.create_function("moment", 0, lambda: self.moments.append(time.monotonic()))
        self.database.executescript("\n".join(texts(self.dialect, self.script.creation())))
        for table, columns, listed in self.tables(rows, changes):
            self.insert(table, columns, listed)
        self.database.executescript("\n".join(texts(self.dialect, self.script.open(Comments(self.catalogue).short))))
        self.database.execute("ANALYZE")

    def insert(self, table, columns, listed):
        self.database.execute("BEGIN")
        self.database.executemany(f"INSERT INTO {table} ({', '.join(columns)}) VALUES ({', '.join('?' * len(columns))})", listed)
        self.database.execute("COMMIT")

    def night(self):
        self.steps = []
        *lines, _ = texts(self.dialect, self.script.night(self.catalogue.correct(), self.comment))
        self.moments = [time.monotonic()]
        for line in lines:
            self.database.execute(line)
        self.moments.append(time.monotonic())
        self.database.rollback()
        return self.moments


def spent(timed, rounds):
    """The seconds of each kind of step, and of the whole night, round by round."""
    found = defaultdict(list)
    for _ in range(rounds):
        moments = timed.night()
        parts = defaultdict(float)
        for kind, began, ended in zip(timed.kinds(), moments[1:], moments[2:]):
            parts[kind] += ended - began
        parts["the night"] = moments[-1] - moments[0]
        for kind, seconds in parts.items():
            found[kind].append(seconds)
    return {kind: statistics.median(seconds) for kind, seconds in found.items()}


def show(name, engine, seconds, work):
    for kind in ("the night", "changes netted and judged", "comps", "inst of base views", "inst of derived views"):
        each = f", {seconds[kind] / work[kind] * 1e6:.2f} us for each of {work[kind]} rows" if work.get(kind) else ""
        print(f"{name}, {engine}: {kind} {seconds[kind]:.3f} s{each}", flush=True)
    insts = [sum(of[kind] for kind in ("inst of base views", "inst of derived views")) for of in (seconds, work)]
    ratio = insts[0] / insts[1] / (seconds["comps"] / work["comps"])
    print(f"{name}, {engine}: a row that is installed costs what reading {ratio:.0f} rows does", flush=True)


def tried(engine, name, drawn, refreshed, rounds, on_sqlite=True):
    """Prints the times of a warehouse's night, and of REFRESH beside it."""
    text, rows, changes = drawn
    timed = OnPostgreSQL(engine, text, rows, changes)
    work = timed.works()
    show(name, "postgresql", spent(timed, rounds), work)
    if refreshed:
        timed.materialize(refreshed)
        for workers in (0, 2):
            seconds = statistics.median(timed.refresh(refreshed, workers) for _ in range(rounds))
            print(f"{name}, postgresql: REFRESH with {workers} workers {seconds:.3f} s", flush=True)
    if on_sqlite:
        show(name, "sqlite", spent(OnSQLite(text, rows, changes), rounds), work)


def measure(asked):
    facts, rounds = asked.facts, asked.rounds
    with Server(postgresql()) as server:
        engine = PostgreSQLEngine(server)
        text, rows, changes = star(facts)
        tried(engine, "star", (text, rows, changes), REFRESHED["star"], rounds)
        tried(engine, "shop", shop(facts), REFRESHED["shop"], rounds)
        at_once = text.partition("@strategy")[0] + AT_ONCE
        tried(engine, "star, all at once", (at_once, rows, changes), None, rounds)
        tried(engine, "star, nine tenths", star(facts, True), REFRESHED["star"], rounds, False)
