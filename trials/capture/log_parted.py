"""What the log does not tell of tables that are captured from it: partitions that come, leave and are emptied alone, columns and tables that had other
names for a while, rows that were written while no log was kept, and a table that the nights' role may not read any more."""

from trials.capture import intruders, parted
from trials.capture.altered import PARTED
from trials.capture.case import Case
from trials.capture.intruders import GONE, ROLE
from trials.capture.parted import ATTACHED
from trials.ended import faults

BOTH_TEXT = "ALTER TABLE orders ALTER region TYPE text, ALTER note TYPE text;"
NAMES = "ALTER TABLE orders RENAME region TO x; ALTER TABLE orders RENAME note TO region; ALTER TABLE orders RENAME x TO note;"
HEALED = {
    "columns of one type that change their names beside a key": Case(NAMES + "UPDATE orders SET region = 'a', note = 'b' WHERE id < 5; DELETE FROM orders WHERE id = 7;" + NAMES,
                                                                     made=BOTH_TEXT),
    "a table with a key that is unlogged for a while": Case(
        "ALTER TABLE orders SET UNLOGGED; UPDATE orders SET region = 'a' WHERE id = 3; DELETE FROM orders WHERE id = 5; ALTER TABLE orders SET LOGGED;",
        made="ALTER TABLE lines DROP CONSTRAINT lines_id_fkey;",
    ),
    "a table that is unlogged for a while": Case("ALTER TABLE lines SET UNLOGGED; INSERT INTO lines VALUES (3, 'product 3', 5); ALTER TABLE lines SET LOGGED;"),
    "rows that are packed anew": Case("VACUUM FULL lines; CLUSTER orders USING orders_pkey; UPDATE lines SET pieces = 3 WHERE id < 4; DELETE FROM orders WHERE id = 5;"),
    "a type that changes within a transaction that writes": Case(
        "BEGIN; UPDATE lines SET pieces = 4 WHERE id = 3; ALTER TABLE lines ALTER pieces TYPE int; UPDATE lines SET pieces = 70000 WHERE id = 3; ALTER TABLE lines ALTER pieces"
        " TYPE smallint USING 5; INSERT INTO lines VALUES (3, 'product 3', 6); COMMIT;"
    ),
    "a type that stays another one": Case("BEGIN; UPDATE lines SET pieces = 4 WHERE id = 3; ALTER TABLE lines ALTER pieces TYPE int; UPDATE lines SET pieces = 70000; COMMIT;",
                                          refused="its column pieces is of another type"),
    "rights, defaults and statistics of columns": Case(
        "GRANT SELECT (region) ON orders TO seller; ALTER TABLE orders ALTER region SET DEFAULT 'x', ALTER day SET STATISTICS 30; GRANT USAGE ON SCHEMA public TO seller;"
        " UPDATE orders SET paid = NOT paid WHERE id < 4; UPDATE lines SET pieces = 3;"
    ),
    "a part that is emptied alone": Case("TRUNCATE low; UPDATE lines SET pieces = 3 WHERE id > 30; INSERT INTO low VALUES (1, 4, 'product 4');", made=PARTED),
    "a part that is published with a list of columns": Case(
        "SET client_min_messages = error; CREATE TABLE more (id int NOT NULL, product text NOT NULL, pieces smallint NOT NULL, PRIMARY KEY (id, product)); CREATE PUBLICATION"
        " listed FOR TABLE more (id, product); ALTER TABLE lines ATTACH PARTITION more FOR VALUES FROM (2000) TO (3000); INSERT INTO more VALUES (2000, 'product 2', 3); UPDATE"
        " more SET pieces = 7; DROP PUBLICATION listed;", made=PARTED, refused="are not logged as they were",
    ),
    "a part that is emptied, and others at once": Case("TRUNCATE low; TRUNCATE lines; INSERT INTO lines VALUES (3, 'product 3', 3); TRUNCATE high;", made=PARTED),
}
# A day: a new part whose rows come, change and leave; the day after they change by the log alone.
DAY = (
    "CREATE TABLE day{n} PARTITION OF lines FOR VALUES FROM ({a}) TO ({b}); INSERT INTO lines SELECT {a}, 'product ' || i, i FROM generate_series(1, 8) AS i; UPDATE day{n} SET"
    " pieces = 7 WHERE product = 'product 3'; DELETE FROM lines WHERE id = {a} AND product = 'product 4'; INSERT INTO orders (id, day, region) VALUES ({a}, '2026-03-03', 'region 7');"
)
LATER = "UPDATE day{n} SET pieces = pieces + 1 WHERE pieces > 5; DELETE FROM lines WHERE id = {a} AND product = 'product 2'; INSERT INTO day{n} VALUES ({a}, 'product 9', 9);"
LEAVES = ("DROP TABLE day0;", "ALTER TABLE lines DETACH PARTITION day1; UPDATE day1 SET pieces = 1;", "TRUNCATE day2;", "ALTER TABLE day3 RENAME TO third; INSERT INTO third SELECT id,"
          " product, 4 FROM third; DELETE FROM third WHERE product = 'product 1'; UPDATE third SET pieces = pieces + 1;")
IDENTITIES = "SELECT relname, relreplident FROM pg_class WHERE relkind IN ('r', 'p') AND relnamespace = 'public'::regnamespace AND relreplident <> 'd' ORDER BY 1;"


def daily_mistakes(live):
    """Daily partitions want no capture: each night ends right, and those that stay are read from the log. What is let go is told as it was,
    but for a part that was detached meanwhile."""
    wrong = live.fresh(PARTED + "ALTER TABLE low REPLICA IDENTITY FULL;")
    said = [DAY.format(n=n, a=2000 + n * 10, b=2010 + n * 10) for n in range(4)]
    said = [each for n, day in enumerate(said) for each in (day, LATER.format(n=n, a=2000 + n * 10))] + [*LEAVES, ATTACHED.replace("2000", "2900").replace("2001", "2901")]
    for text in said:
        live.asked(text)
        wrong += live.right(f"{text[:60]}: ")
    told = live.checked() + faults(live.run("--uncapture"))
    left = live.asked(IDENTITIES + "SELECT evtname FROM pg_event_trigger;")
    return [f"daily partitions: {text}"[:700] for text in wrong + told + ([] if left == [("day1", "f"), ("low", "f")] else [f"{left} stays"])]


def revoked_mistakes(live):
    """A night of a role that may not read a table any more says so, and loses nothing."""
    wrong = live.bare() + faults(live.opened("--role", ROLE))
    live.asked("REVOKE SELECT ON lines FROM keeper; UPDATE lines SET pieces = 77 WHERE id = 3;")
    wrong += live.refuses("may not be read")
    found = live.written("--check", live.path)
    wrong += [] if found.status and "permission denied" in found.told else [f"a check says {found}"]
    live.asked("GRANT SELECT ON lines TO keeper; UPDATE lines SET pieces = 78 WHERE id = 4;")
    wrong += live.right()
    live.run("--uncapture")
    live.asked(GONE)
    return [f"a table that may not be read: {text}"[:500] for text in wrong]


def stranger_mistakes(live):
    """Parts of an owner who is no member of the role, with all that he may put on them: nothing of his is called as another one, and the night says so."""
    wrong = live.bare(PARTED)
    live.asked(parted.OWNED)
    wrong += faults(live.opened("--role", ROLE))
    live.asked(parted.NOTES + "RESET ROLE;")
    parted.his_parts(live, "wh.\"lines~logged\"()")
    night = live.refuses("is not captured as it was")
    wrong += intruders.caught(live, "a stranger's part") + night
    live.run("--uncapture")
    live.asked(GONE)
    return [f"a stranger's parts: {text}"[:600] for text in wrong]


def mistakes(live):
    """All of these, and partitions that come and leave beside writers and nights."""
    return [*daily_mistakes(live), *revoked_mistakes(live), *stranger_mistakes(live), *parted.busy_mistakes(live, 60)]
