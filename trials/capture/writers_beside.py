"""Writers beside nights: transactions that commit late, two nights at once, and a thousand small transactions that must not wait."""

import random
import re
import sqlite3
from contextlib import closing

from trials.capture.cases import NEW_LINES, NEW_ORDER, PARTED
from trials.ended import faults
from trials.servers.beside import Beside

# A lock that is waited for longer than this is told by the server's log.
LONGEST_MS = 10
WATCHED = f"ALTER SYSTEM SET log_lock_waits = on; ALTER SYSTEM SET deadlock_timeout = {LONGEST_MS}; SELECT pg_reload_conf();"
WAITED = re.compile(r"process (\d+) still waiting for (\w+ on .*) after ([\d.]+) ms")
# So many small transactions, each timed from its first statement to the end of its COMMIT.
WRITER = """
CREATE TABLE IF NOT EXISTS took (number int, milliseconds float8);
CREATE OR REPLACE PROCEDURE writes(many int) LANGUAGE plpgsql AS $$
DECLARE began timestamptz; times float8[] := '{}';
BEGIN
  FOR n IN 1..many LOOP
    began := clock_timestamp();
    INSERT INTO orders (id, day, at, paid, region) VALUES (100000 + n, DATE '2026-01-01' + n % 7, now(), n % 2 = 0, 'region ' || n % 5);
    INSERT INTO lines VALUES (100000 + n, 'product ' || 1 + n % 20, n % 5), (1 + n % 40, 'product ' || 1 + n % 7, 1);
    UPDATE products SET price = n + 0.5 WHERE product = 'product ' || 1 + n % 20;
    DELETE FROM orders WHERE id = 100000 + n - 10;
    COMMIT;
    times := times || extract(epoch FROM clock_timestamp() - began)::float8 * 1000;
    IF n % 4 = 0 THEN PERFORM pg_sleep(0.001); END IF;
  END LOOP;
  INSERT INTO took SELECT row_number() OVER (), t FROM unnest(times) AS t;
END $$;
"""


def late_mistakes(live):
    """Transactions that are open while nights run: they do not wait, and each is wholly in the night after its COMMIT."""
    wrong = live.fresh()
    with live.database.another() as late, live.database.another() as later:
        late.asked("BEGIN;" + NEW_ORDER)
        later.asked("BEGIN ISOLATION LEVEL SERIALIZABLE; SAVEPOINT a; UPDATE products SET price = 1 WHERE product = 'product 2';")
        live.asked("UPDATE lines SET pieces = 2 WHERE id = 3;")
        for said in (NEW_LINES, "UPDATE lines SET pieces = 5 WHERE id = 900;"):
            wrong += live.right("beside an open transaction: ")
            late.asked(said)
        late.asked("COMMIT;")
        wrong += [] if live.pending() else ["what was committed late is nowhere"]
        wrong += live.right("after the COMMIT: ")
        later.asked("ROLLBACK TO a; UPDATE products SET price = 2 WHERE product = 'product 3'; COMMIT;")
    return wrong + live.right("after a savepoint: ")


def two_mistakes(live, times=4):
    wrong = live.fresh()
    for number in range(times):
        live.asked(f"UPDATE lines SET pieces = {number % 5} WHERE id % 3 = 0; DELETE FROM orders WHERE id = {number + 1};")
        told = [night.communicate(timeout=60)[1].decode() for night in [live.database.begun(live.script), live.database.begun(live.script)]]
        wrong += [f"one of two nights was told {each}" for each in faults(*told)] + live.mistakes()
        wrong += ["changes stayed behind two nights"] if live.pending() else []
    return wrong


def unchanged(live, script, word):
    """What a script that has to be refused by a word does otherwise, or takes away; and what the night after it leaves."""
    before, told = live.pending(), live.database.run(script)
    wrong = [] if told and word in told and live.pending() == before else [f"it was told {told!r}"]
    return wrong + live.right()


def within_mistakes(live):
    """A night within a transaction that has asked something already, and so sees what was there then: it is refused, and changes nothing. So is the block of a
    night without the lines before it."""
    wrong = []
    for begun_as in ("BEGIN ISOLATION LEVEL REPEATABLE READ;", "BEGIN ISOLATION LEVEL SERIALIZABLE;", "BEGIN;"):
        wrong += live.fresh()
        live.asked("UPDATE lines SET pieces = pieces + 1;")
        told = unchanged(live, f"{begun_as} SELECT count(*) FROM orders;\n{live.script}", "must be called before any query")
        wrong += [f"after {begun_as} {text}" for text in told]
    wrong += live.fresh()
    live.asked("UPDATE lines SET pieces = pieces + 1;")
    block = live.script[live.script.index("\nDO ", live.script.index("\nBEGIN ")) : live.script.rindex("COMMIT")]
    return wrong + [f"the block alone: {text}" for text in unchanged(live, block, "run the whole script")]


def part_mistakes(live):
    """Two writers after a part has come that is not captured: neither waits for the other one."""
    wrong = live.fresh(PARTED)
    live.asked('DROP EVENT TRIGGER "whview wh"; CREATE TABLE more PARTITION OF lines FOR VALUES FROM (2000) TO (3000);')
    with live.database.another() as first, live.database.another() as second:
        first.asked("BEGIN;" + NEW_ORDER + NEW_LINES)
        wrong += second.goes_on("SET lock_timeout = '5s'; INSERT INTO lines VALUES (3, 'product 3', 3);")
        first.asked("COMMIT;")
    return wrong + live.refuses("more has no triggers") + live.anew()


# What a writer does before an heir comes, so that its session knows the table, and in which transaction the heir comes; then the heir's row changes
# through the table.
HEIR = "CREATE TABLE more () INHERITS (lines); INSERT INTO more VALUES (5, 'product 2', 5);"
BESIDE_HEIRS = {
    "a statement": ("UPDATE lines SET pieces = pieces + 1 WHERE id = 3 AND (SELECT count(*) FROM pg_sleep(1)) = 1;", ""),
    "a transaction of one snapshot": ("BEGIN ISOLATION LEVEL REPEATABLE READ; SELECT 1;", "UPDATE lines SET pieces = pieces + 1 WHERE id = 3; COMMIT;"),
    "a transaction of one snapshot that is the first": ("BEGIN ISOLATION LEVEL REPEATABLE READ; UPDATE lines SET pieces = 1 WHERE id = 3;", "COMMIT;"),
}


def heir_mistakes(live):
    """A session that has found out that nobody inherits from a table, or was about to, when an heir comes: that the heir was there is noted."""
    return [f"{said}: {text}" for said, (before, after) in BESIDE_HEIRS.items() for text in heir_mistakes_of(live, before, after)]


def heir_mistakes_of(live, before, after):
    wrong = live.fresh()
    with live.database.another() as first, live.database.another() as second:
        first.asked("UPDATE lines SET pieces = pieces WHERE id = 4;" if after != "COMMIT;" else "SELECT 1;")
        with Beside(first.asked, before) as begun:
            begun.is_at_work(0.3)
            second.asked(HEIR)
        first.asked(after + "UPDATE lines SET pieces = pieces + 1 WHERE id = 5; DROP TABLE more;")
    return wrong + live.refuses("more is no part of it any more") + live.anew()


def altered_mistakes(live):
    """A session that has found out how a table is, when another one alters it: it finds out anew."""
    wrong = live.fresh()
    with live.database.another() as first:
        first.asked("UPDATE lines SET pieces = pieces + 1 WHERE id = 4;")
        live.asked("ALTER TABLE lines RENAME pieces TO amount;")
        first.asked("INSERT INTO lines (id, product, amount) VALUES (3, 'product 3', 3);")
        live.asked("ALTER TABLE lines RENAME amount TO pieces;")
        first.asked("INSERT INTO lines (id, product, pieces) VALUES (3, 'product 3', 4);")
    return wrong + live.refuses("while its columns were not as they were captured") + live.anew()


# Of the last two nights how many views and steps they tell of, the rows of these views that are otherwise than they were counted, and what changed.
LAST_TWO = (
    "SELECT (SELECT count(*) FROM wh.\"~sizes\" WHERE night > m - 2), (SELECT count(DISTINCT step) FROM wh.\"~steps\" WHERE night = m), (SELECT count(*) FROM"
    " wh.\"~sizes\" WHERE night > m - 2 AND (change <> 0 OR pre <> post)) FROM (SELECT max(night) AS m FROM wh.\"~nights\" WHERE ended >= began) AS n"
)


def quiet_mistakes(live):
    """Nights in which nothing changed are in the history as all others are, and the next one goes on from there."""
    wrong = live.fresh()
    live.asked("UPDATE lines SET pieces = pieces + 1 WHERE id = 4;")
    wrong += faults(live.night(), live.night(), live.night())
    ((sizes, steps, changed),) = live.asked(LAST_TWO)
    ((views, of_all),) = live.asked('SELECT count(DISTINCT view), (SELECT count(DISTINCT step) FROM wh."~steps") FROM wh."~sizes"')
    wrong += [] if (sizes, steps, changed) == (2 * views, of_all, 0) else [f"{sizes} sizes of {views} views, {steps} steps of {of_all}, {changed} that changed"]
    live.asked("DELETE FROM lines WHERE id = 4;")
    return wrong + live.right()


BESIDE = {
    "a late transaction": late_mistakes, "two nights at once": two_mistakes, "a night within a transaction": within_mistakes,
    "writers after a part has come": part_mistakes, "beside an heir": heir_mistakes, "a session beside another one that alters": altered_mistakes,
    "nights in which nothing changed": quiet_mistakes,
}


# ---- a thousand small transactions


def waits(server):
    """Which process waited for what longer than it may, by the server's log."""
    return WAITED.findall((server.folder / "log").read_text(errors="replace"))


def torn(live):
    """Transactions of the writer that a night has half of: each makes an order with its line, or takes both away."""
    lines, orders = (f"SELECT id FROM {live.database.table(name)} WHERE id > 100000" for name in ("lines", "orders"))
    half = live.database.answers(f"({lines} EXCEPT {orders}) UNION ALL ({orders} EXCEPT {lines})")[0]
    return [f"a night had half of the transactions of {half[:3]}"] if half else []


def written(live, many, nights):
    """The writer beside so many nights: what went wrong, and the milliseconds of each of its transactions."""
    wrong, server = [], live.database.server
    live.asked(WRITER + "TRUNCATE took;")
    before = len(waits(server))
    with live.database.another() as writer:
        (number,) = writer.asked("SELECT pg_backend_pid();")
        with Beside(writer.asked, f"CALL writes({many});"):
            for _ in range(nights):
                told = live.night()
                wrong += [f"a night beside the writer was told {told}"] if told else torn(live)
    waited = [f"it waited {took} ms for {what}" for process, what, took in waits(server)[before:] if int(process) == number]
    return wrong + waited, sorted(live.asked("SELECT milliseconds FROM took;"))


def told_times(times):
    """The median, the thousandth longest and the longest."""
    return f"{times[len(times) // 2]:.2f}, {times[-1 - len(times) // 1000]:.2f} and {times[-1]:.2f} ms"


def writer_mistakes(live, many=1000, nights=10):
    """What a writer of many small transactions meets beside nights, and what its transactions took with them and without."""
    live.asked(WATCHED)
    wrong = live.bare()
    _, bare = written(live, many, 0)
    wrong += live.fresh()
    _, without = written(live, many, 0)
    wrong += live.fresh()
    told, beside = written(live, many, nights)
    wrong += told + live.right("the last night: ")
    if len(beside) != many:
        wrong.append(f"{len(beside)} of {many} transactions were timed")
    longer = sum(took > bare[-1] + LONGEST_MS for took in beside)
    shown = (
        f"a writer's {many} transactions took {told_times(bare)} without triggers, {told_times(without)} with them, and {told_times(beside)}"
        f" beside {nights} nights (median, 99.9 %, longest), {longer} of them {LONGEST_MS} ms longer than the longest without"
    )
    return [f"a writer beside nights: {text}" for text in wrong], shown


# ---- SQLite, where a writer waits as for any other

OF_SQLITE = (
    "INSERT INTO lines SELECT id, 'product ' || ({n} % 20 + 1), {n} % 5 FROM orders WHERE id = {n} % 40 + 1",
    "REPLACE INTO products (product, price) VALUES ('product ' || ({n} % 25), {n})",
    "UPDATE OR IGNORE orders SET id = id + 1 WHERE id = {n} % 60",
    "DELETE FROM lines WHERE rowid IN (SELECT rowid FROM lines WHERE id = {n} % 40 + 1 LIMIT 1)",
)


def sqlite_writes(path, many):
    """Drawn transactions, each of which waits its turn."""
    source = random.Random(many)
    with closing(sqlite3.connect(path, isolation_level=None, timeout=60)) as database:
        database.execute("PRAGMA foreign_keys = 1")
        for n in range(many):
            database.execute("BEGIN IMMEDIATE")
            for said in source.sample(OF_SQLITE, 2):
                database.execute(said.format(n=n))
            database.execute(source.choice(["COMMIT", "COMMIT", "ROLLBACK"]))


def sqlite_writer_mistakes(live, many=300, nights=5):
    """A writer that waits its turn beside nights."""
    wrong, script = live.fresh(), "PRAGMA busy_timeout = 60000;\n" + live.script
    with Beside(sqlite_writes, live.database.path, many):
        told = [live.database.run(script) for _ in range(nights)]
    wrong += [f"a night was told {each}" for each in faults(*told, live.night()) if each.strip() != "60000"] + live.mistakes()
    return [f"sqlite: a writer beside nights: {text}" for text in wrong]
