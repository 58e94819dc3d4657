"""Measures what captures cost writers, on a PostgreSQL server of its own that waits for the disk, each captured table beside a twin that is not.

First pgbench's own transactions, by four clients over tables of ten branches: how many a second, where each commit waits for the disk and where
none does (`synchronous_commit`), by turns, and the median of the rounds' ratios. Then statements by themselves, in seconds of the server's
processor: of one row, beside a trigger that does nothing, one that has the statement's rows and does nothing, and one that notes them as they
are; and of 100,000 rows. `--beside FOLDER`, a checkout of
another state of this repository, captures the same tables for comparison.
"""

import os
import statistics
import subprocess
import tempfile
from pathlib import Path

from upkeep.bench.checkouts import Waiting, checkouts
from trials.capture.places import LivePostgreSQL
from trials.servers.postgresql import postgresql

ROUNDS = 7
CLIENTS, SECONDS, BRANCHES = 4, 4, 10
ONE_BY_ONE, CHUNKS, MANY = 300, 20, 100_000
TABLES = "CREATE TABLE {name} (aid int PRIMARY KEY, bid int, abalance int, filler char(84));"
FILLED = "INSERT INTO {name} SELECT i, 1, 0, '' FROM generate_series(1, {many}) AS i;"
CATALOGUE = '[[view]]\nname = "{name}"\ncolumns = ["aid", "bid", "abalance", "filler:text"]\nnulls = ["bid", "abalance", "filler"]\nkey = ["aid"]\n'
ROWS = "REFERENCING OLD TABLE AS gone NEW TABLE AS come"
BARE = (
    "INSERT INTO noted SELECT aid, bid, abalance, filler, -1 FROM gone UNION ALL SELECT aid, bid, abalance, filler, 1 FROM come;",
    "INSERT INTO noted SELECT aid, bid, abalance, filler, 1 FROM come;",
)
# What is compared with the table without triggers: the body of a trigger's function for an UPDATE and for an INSERT, and which rows it has.
TRIGGERS = {"empty": (("", ""), False), "with_rows": (("", ""), True), "bare": (BARE, True)}
STATEMENTS = {
    "an UPDATE": "UPDATE {name} SET abalance = abalance + 1 WHERE aid = {row}",
    "an INSERT": "INSERT INTO {name} VALUES ({row} + {free}, 1, 0, '')",
}
OF_MANY = {
    "an UPDATE": "UPDATE {name} SET abalance = abalance + 1;",
    "an INSERT": "INSERT INTO {name} SELECT i + {free}, 1, 0, '' FROM generate_series(1, {many}) AS i;",
}


class Timed:
    """A session, and the microseconds of a processor that its server process takes."""

    def __init__(self, database):
        self.database = database
        self.process = database.asked("SELECT pg_backend_pid();")[0]

    def spent(self):
        return int(Path(f"/proc/{self.process}/schedstat").read_text().split()[0]) / 1e3

    def timed(self, text):
        began = self.spent()
        self.database.asked(text)
        return self.spent() - began


def folder_of(folder, name, catalogue):
    """A folder with a catalogue."""
    path = Path(folder) / name
    path.mkdir()
    (path / "catalogue.toml").write_text(catalogue)
    return path


# ---- transactions


def pgbench(server, database, *words, synchronous="on"):
    """What pgbench prints."""
    command = [server.programs / "pgbench", "-h", server.folder, "-U", "postgres", "-n", *words, database.name]
    settings = {**os.environ, "PGOPTIONS": f"-c synchronous_commit={synchronous}"}
    return subprocess.run(list(map(str, command)), check=True, capture_output=True, text=True, cwd=server.folder, env=settings).stdout


def transactions(server, folder, rounds, captures):
    """Transactions a second of the captured tables over those of their twins."""
    databases = {name: LivePostgreSQL(server, f"bench_{name}") for name in ("twin", *captures)}
    for name, database in databases.items():
        pgbench(server, database, "-i", "-q", "-s", BRANCHES)
        if name in captures:
            checkout = captures[name]
            checkout.carried_out(database, "--capture", folder_of(folder, name, checkout.sql(database, "--catalogue")))
    for synchronous in ("on", "off"):
        found = {name: [] for name in databases}
        for _ in range(rounds):
            for name, database in databases.items():
                said = pgbench(server, database, "-c", CLIENTS, "-T", SECONDS, synchronous=synchronous)
                found[name].append(float(next(line for line in said.splitlines() if line.startswith("tps")).split()[2]))
        twin, medians = found["twin"], {name: statistics.median(each) for name, each in found.items()}
        fewer = {name: 100 * (1 - statistics.median(b / a for a, b in zip(twin, found[name]))) for name in captures}
        shown = "; ".join(f"{name} {medians[name]:.0f}, {fewer[name]:.0f} % fewer" for name in captures)
        print(f"writers: pgbench, synchronous_commit {synchronous}: {medians['twin']:.0f} transactions a second; captured {shown}", flush=True)


# ---- statements


def triggered(database, name, bodies, has_rows):
    """A table whose UPDATE and INSERT fire a trigger with a body."""
    for event, body in zip(("update", "insert"), bodies):
        rows = (ROWS if event == "update" else ROWS.replace("OLD TABLE AS gone ", "")) if has_rows else ""
        function = f"of_{name}_{event}()"
        database.asked(f"CREATE FUNCTION {function} RETURNS trigger LANGUAGE plpgsql AS $$ BEGIN {body} RETURN NULL; END $$;")
        database.asked(f"CREATE TRIGGER of_{event} AFTER {event} ON {name} {rows} FOR EACH STATEMENT EXECUTE FUNCTION {function};")


def prepare(database, folder, captures):
    """The tables, each of them filled."""
    database.asked("CREATE TABLE noted (aid int, bid int, abalance int, filler char(84), n int);")
    for name in ("plain", *TRIGGERS, *captures):
        database.asked(TABLES.format(name=name) + FILLED.format(name=name, many=MANY))
    for name, (bodies, has_rows) in TRIGGERS.items():
        triggered(database, name, bodies, has_rows)
    for name, checkout in captures.items():
        checkout.carried_out(database, "--capture", "--schema", f"wh_{name}", folder_of(folder, f"one_{name}", CATALOGUE.format(name=name)))
    database.asked("SET synchronous_commit = off; VACUUM ANALYZE;")


def one_by_one(session, captures):
    """The microseconds of a statement of one row in a transaction of its own, and what each trigger adds to it."""
    names = ("plain", *TRIGGERS, *captures)
    for said, statement in STATEMENTS.items():
        found = {name: [] for name in names}
        for chunk in range(CHUNKS):
            first = chunk * ONE_BY_ONE + 1
            for name in names:
                body = statement.format(name=name, row="i", free=MANY)
                program = f"DO $$ BEGIN FOR i IN {first} .. {first + ONE_BY_ONE - 1} LOOP {body}; COMMIT; END LOOP; END $$;"
                found[name].append(session.timed(program) / ONE_BY_ONE)
        more = {name: statistics.median(b - a for a, b in zip(found["plain"], found[name])) for name in names[1:]}
        shown = ", ".join(f"{name} {more[name]:.1f}" for name in captures)
        triggers = f"an empty trigger {more['empty']:.1f} more, with the rows {more['with_rows']:.1f}, that notes them bare {more['bare']:.1f}"
        print(f"writers: {said} of one row: {statistics.median(found['plain']):.1f} microseconds; {triggers}; captured {shown}", flush=True)


def at_once(session, rounds, captures):
    """How often the time of a statement of many rows a captured table takes."""
    for said, statement in OF_MANY.items():
        found = {name: [] for name in ("plain", "bare", *captures)}
        for number in range(rounds):
            for name in found:
                text = statement.format(name=name, many=MANY, free=MANY * (number + 2))
                found[name].append(session.timed(text))
                session.database.asked(f"DELETE FROM {name} WHERE aid > {MANY}; TRUNCATE noted; VACUUM {name}; CHECKPOINT;")
        ratios = {name: statistics.median(b / a for a, b in zip(found["plain"], found[name])) for name in ("bare", *captures)}
        shown = f"noted bare {ratios['bare']:.2f} times as long, captured {', '.join(f'{name} {ratios[name]:.2f}' for name in captures)} times"
        print(f"writers: {said} of {MANY} rows: {statistics.median(found['plain']) / 1e6:.2f} s; {shown}", flush=True)


def measure(asked):
    with Waiting(postgresql()) as server, tempfile.TemporaryDirectory() as folder:
        os.environ.update(PGHOST=str(server.folder), PGUSER="postgres")
        database, captures = LivePostgreSQL(server, "one"), checkouts(asked)
        prepare(database, folder, captures)
        session = Timed(database)
        one_by_one(session, captures)
        at_once(session, asked.rounds, captures)
        transactions(server, folder, asked.rounds, captures)
