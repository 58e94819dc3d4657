"""Captures beside changes of tables, captures made again after them, and databases whose settings, publications or subscriptions get into their way."""

import os
from time import monotonic, sleep
from unittest import mock

from trials.capture.application import CATALOGUE, Live, stored, unlike
from trials.capture.places import LivePostgreSQL
from trials.ended import faults
from trials.servers.postgresql import Server
from trials.tables.given_nights import lay, written

WAIT = 30
ALL = "CREATE PUBLICATION all_of_it FOR ALL TABLES;"
# What is done while a capture waits: tables whose rows are written anew, so that a snapshot from before sees none of them.
REWRITES = (
    "ALTER TABLE products ALTER price TYPE numeric(10,2) USING price + 1;", "ALTER TABLE lines ALTER id TYPE int USING id + 0;",
    "CREATE TABLE kept AS SELECT * FROM lines; TRUNCATE lines; INSERT INTO lines SELECT * FROM kept; DROP TABLE kept;",
)


def is_waiting(live):
    return live.asked("SELECT count(*) > 0 FROM pg_locks WHERE NOT granted;") == [True]


def beside(live, script, said):
    """What a script is told that begins while a transaction with this statement is open, and waits for it."""
    with live.database.another() as changing:
        changing.asked(f"BEGIN; SET client_min_messages = error; {said}")
        capture, began = live.database.begun(script), monotonic()
        while not is_waiting(live) and capture.poll() is None and monotonic() - began < WAIT:
            sleep(0.02)
        changing.asked("COMMIT;")
    return capture.communicate(timeout=WAIT)[1].decode()


def rewritten_mistakes(live):
    """Captures while a source is written anew: the mirrors have its rows."""
    wrong = []
    for said in REWRITES:
        wrong += live.fresh()
        live.asked("UPDATE lines SET pieces = 3 WHERE id < 9;")
        wrong += faults(beside(live, live.words("--capture"), said)) or live.right()
    return wrong


# What comes after the snapshot of a transaction that writes then, and what it writes.
LATER = {
    "ALTER TABLE lines RENAME pieces TO amount;": ("INSERT INTO lines VALUES (3, 'product 3', 3);", "ALTER TABLE lines RENAME amount TO pieces;"),
    "ALTER TABLE lines ALTER pieces DROP NOT NULL;": ("INSERT INTO lines VALUES (3, 'product 3', NULL);", "UPDATE lines SET pieces = 1 WHERE pieces IS NULL;"),
    "ALTER TABLE products ALTER price TYPE numeric;": ("UPDATE products SET price = 10::numeric ^ 30;", "UPDATE products SET price = 2; ALTER TABLE products ALTER price TYPE"
                                                       " numeric(10,2);"),
    "ALTER TABLE lines DROP COLUMN pieces;": ("INSERT INTO lines VALUES (3, 'product 3');", "ALTER TABLE lines ADD COLUMN pieces smallint NOT NULL DEFAULT 2;"),
}
ISOLATIONS = ("REPEATABLE READ", "SERIALIZABLE")


def begun(live, isolation):
    """A session whose transaction is a snapshot of now."""
    found = live.database.another()
    found.asked(f"BEGIN ISOLATION LEVEL {isolation}; SELECT 1;")
    return found


def late_mistakes(live):
    """Transactions by a snapshot from before a table was altered, or captured, that write afterwards: no writer fails, and no row is lost without a word."""
    wrong = []
    for (altered, (written_then, back)), isolation in zip(LATER.items(), ISOLATIONS * 2):
        wrong += live.fresh()
        with begun(live, isolation) as session:
            live.asked(altered)
            session.asked(f"{written_then} COMMIT;")
        wrong += live.refuses("is not captured as it was", f"after {altered} ")
        live.asked(back)
        wrong += live.anew()
    return wrong + early(live)


def early(live):
    """A transaction that has begun before a table is captured at all."""
    wrong = live.bare()
    with begun(live, "REPEATABLE READ") as session:
        wrong += faults(live.opened())
        session.asked("INSERT INTO lines VALUES (3, 'product 3', 3); DELETE FROM lines WHERE id = 5; COMMIT;")
    return wrong + right_or_told(live, "begun before it was captured") + live.anew()


def right_or_told(live, word):
    """What is wrong where a night is neither right nor refused by a word."""
    told = live.night()
    is_right = word in told if told else not live.mistakes()
    return [] if is_right else [f"the night was told {told!r}, {live.mistakes()}"[:500]]


# ---- a catalogue that has less

LESS = CATALOGUE.partition("[[view]]\nname = \"sales\"")[0].replace('"product:text", "pieces"]', '"product:text"]') + """
[[view]]
name = "placed"
over = ["orders"]
keep = [["region", "orders.region"], ["id", "orders.id"]]
[[view]]
name = "sold"
over = ["lines"]
group = [["product", "lines.product"]]
count = "many"
"""
SOLD = "SELECT product, count(*) AS many FROM lines GROUP BY product"
PLACED = r"SELECT coalesce(region, '\N') AS region, id FROM orders"
AGAIN = "INSERT INTO lines VALUES (3, 'product 3', 3), (4, 'product 4', 1); UPDATE lines SET product = 'product 9' WHERE id = 5; DELETE FROM lines WHERE id = 6;"


def of_less(live):
    """What the views over less have otherwise than the tables."""
    return unlike(live.database, {"sold": (SOLD, stored(live.database, "sold", ("product", "many"), False)),
                                  "placed": (PLACED, stored(live.database, "placed", ("region", "id"), True))})


def left_out_mistakes(live):
    """A column that is taken out of the catalogue and views that are defined anew, captured again: writers go on all the time, the mirror keeps its rows as of the
    last night, and once what differs is filled nights are right; and the same when the column is captured once more."""
    wrong, path = live.fresh(), less(live.path)
    live.asked(AGAIN)
    for words, told in (("--capture", ""), ("--live", "was not filled by the definition")):
        found = live.database.run(written("--database", live.database.address, words, path).text)
        wrong += [] if (told in (found or "") if told else found is None) else [f"{words} is told {found!r}"]
        live.asked(AGAIN)
    for words in (["--live", "--open", "--changed"], ["--live"], ["--live"]):
        found = live.run(*words, path=path)
        wrong += [f"{words} is told {found!r}"] if found else of_less(live) if len(words) == 1 else []
        live.asked(AGAIN)
    wrong += [f"with the column again: {text}" for text in faults(live.capture() or live.run("--live", "--open", "--changed")) or live.right()]
    live.asked(AGAIN)
    return wrong + live.right()


ORDER = b"\ncomp placed from orders\ncomp sold from lines\ninst orders\ninst lines\ninst products\ninst placed\ninst sold"


def less(path):
    """A folder with the catalogue that has less."""
    return lay(path / "less", LESS, ORDER)


# ---- all or nothing

HALVES = {
    "ALTER TABLE products ADD COLUMN stamp bigint; UPDATE products SET stamp = -9223372036854775808 WHERE product = 'product 3';": (
        'columns = ["product:text", "price", "stamp"]', "stands for NULL"),
    "CREATE TABLE more (id int); ALTER TABLE products SET UNLOGGED;": ('columns = ["product:text", "price"]\n[[view]]\nname = "more"\ncolumns = ["id"]', "is unlogged"),
}


def half_mistakes(live):
    """A capture of more than was captured, of which a part is refused: nothing is otherwise than before, and nights go on."""
    wrong = []
    for made, (columns, word) in HALVES.items():
        wrong += live.fresh()
        live.asked(made)
        path = lay(live.path / "half", CATALOGUE.replace('columns = ["product:text", "price"]', columns))
        before = live.database.state()
        told = live.database.run(written("--database", live.database.address, "--capture", path).text)
        wrong += [] if word in (told or "") else [f"it is told {told!r}, and not {word!r}"]
        wrong += before.differences(live.database.state())
        live.asked("ALTER TABLE products SET LOGGED; UPDATE lines SET pieces = 3;")
        wrong += live.right()
    return wrong


# ---- publications, settings, subscriptions


def published_mistakes(live):
    """Nights where all tables of the database are published."""
    wrong = live.fresh()
    live.asked(f"SET client_min_messages = error; {ALL}")
    for said in ("UPDATE lines SET pieces = pieces + 1 WHERE id < 9; DELETE FROM orders WHERE id = 7;", "INSERT INTO products VALUES ('new', 3);"):
        live.asked("ALTER TABLE lines REPLICA IDENTITY FULL;" + said)
        wrong += live.right()
    for words in (["--capture"], ["--live", "--open"], ["--live"], ["--uncapture"], ["--capture"], ["--live", "--open"], ["--live"]):
        wrong += [f"{words}: {told}" for told in faults(live.run(*words))]
    wrong += live.mistakes()
    live.asked("DROP PUBLICATION all_of_it;")
    return wrong


SETTINGS = {"array_nulls": "off", "search_path": "''", "DateStyle": "'SQL, DMY'", "default_transaction_isolation": "serializable", "row_security": "off"}


def setting_mistakes(live):
    """Settings of a database that change what a statement says."""
    wrong = []
    for key, value in SETTINGS.items():
        live.asked(f"ALTER DATABASE {live.database.name} SET {key} = {value};")
        wrong += live.fresh()
        live.asked("UPDATE public.lines SET pieces = pieces + 1 WHERE id < 9; DELETE FROM public.orders WHERE id = 7;")
        wrong += live.right(f"{key} = {value}: ")
        live.asked(f"ALTER DATABASE {live.database.name} RESET {key};")
    return wrong


class Logical(Server):
    """A server whose changes are decoded for subscribers."""

    settings = f"{Server.settings} -c wal_level=logical"


LINES = "CREATE TABLE lines (id int NOT NULL, product text NOT NULL, pieces smallint NOT NULL); ALTER TABLE lines REPLICA IDENTITY FULL;"
SUBSCRIBED = (
    "CREATE SUBSCRIPTION s CONNECTION 'dbname={name} host={folder} user=postgres' PUBLICATION p WITH (create_slot = false, slot_name = 's', copy_data = {copies});"
)
GOES = "ALTER SUBSCRIPTION s DISABLE; ALTER SUBSCRIPTION s SET (slot_name = NONE); DROP SUBSCRIPTION s;"


def applied(live, pieces, count=1):
    """Whether so many lines of so many pieces have come by a subscription."""
    began = monotonic()
    while monotonic() - began < WAIT:
        if live.asked(f"SELECT count(*) FROM lines WHERE pieces = {pieces};")[0] >= count:
            return True
        sleep(0.05)
    return False


def left_slot(first):
    """Drops the slot once the server has let go of it, a moment after its reader has gone, and tells what is wrong."""
    began = monotonic()
    while monotonic() - began < WAIT:
        if first.asked("SELECT pg_drop_replication_slot(slot_name) FROM pg_replication_slots WHERE slot_name = 's' AND NOT active;"):
            return []
        sleep(0.05)
    return ["the slot is read by a subscription that is gone"]


def subscribed(first, live, copies):
    """What a subscription leaves that comes, brings rows and goes again before the next night."""
    wrong = live.fresh()
    first.asked(f"DROP TABLE IF EXISTS lines; {LINES} DROP PUBLICATION IF EXISTS p; CREATE PUBLICATION p FOR TABLE lines;"
                " SELECT pg_create_logical_replication_slot('s', 'pgoutput');")
    come = "INSERT INTO lines VALUES (1, 'product 1', 60);"
    first.asked(come if copies else "SELECT 1;")
    live.asked(SUBSCRIBED.format(name=first.name, folder=first.server.folder, copies=str(copies).lower()))
    first.asked(come)
    wrong += [] if applied(live, 60, 1 + copies) else ["nothing came by the subscription"]
    live.asked(GOES)
    wrong += left_slot(first)
    return wrong + right_or_told(live, "written by logical replication") + live.anew()


def subscribed_mistakes(live):
    """A subscription that comes, brings rows and goes between two nights."""
    with Logical(live.database.server.programs) as server, mock.patch.dict(os.environ, PGHOST=str(server.folder)):
        first, second = LivePostgreSQL(server, "first"), Live(LivePostgreSQL(server, "second"), live.path)
        wrong = [each for copies in (False, True) for each in subscribed(first, second, copies)]
        for each in (first, second.database):
            each.session.close()
    return wrong


TRIED = {
    "a source that is written anew": rewritten_mistakes, "a transaction by an older snapshot": late_mistakes, "a column that is left out": left_out_mistakes,
    "half a capture": half_mistakes, "a publication of all tables": published_mistakes, "a setting": setting_mistakes, "a subscription": subscribed_mistakes,
}
