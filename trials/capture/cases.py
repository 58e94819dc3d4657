"""What applications do to their tables while these are captured, one case each: after the next night the views are what the tables give."""

import sqlite3

from trials.capture.altered import COLOURS, COLUMNS, PARTED, PARTS
from trials.capture.case import Case, each_case
from trials.capture.parted import COMING
from trials.ended import faults
from trials.servers.postgresql import Broken

NEW_ORDER = "INSERT INTO orders (id, day, paid, region) VALUES (900, '2026-02-02', TRUE, 'region 9');"
# What is written where tables have been captured anew.
AGAIN = "INSERT INTO lines SELECT id, 'product 2', 5 FROM orders WHERE id = 35; UPDATE lines SET pieces = 6 WHERE id = 36;"
NEW_LINES = "INSERT INTO lines VALUES (900, 'product 2', 3), (900, 'product 3', 4);"


BOTH = {
    "rows come": Case(NEW_ORDER + NEW_LINES),
    "rows change": Case("UPDATE lines SET pieces = pieces + 1 WHERE id < 9; UPDATE products SET price = price * 2 WHERE price > 7;"),
    "rows leave": Case("DELETE FROM lines WHERE pieces > 4; DELETE FROM products WHERE product = 'product 7';"),
    "a key changes, and what refers to it": Case("UPDATE orders SET id = id + 1000 WHERE id % 3 = 0;"),
    "what refers to a row leaves with it": Case("DELETE FROM orders WHERE id % 5 = 1;"),
    "a column changes that no view has": Case("UPDATE orders SET note = 'seen'; UPDATE products SET about = 'good';"),
    "NULLs come and go": Case(
        "UPDATE orders SET region = NULL WHERE id < 12; UPDATE orders SET region = 'was NULL', at = NULL WHERE id % 4 = 0;"
        " UPDATE products SET price = NULL WHERE product = 'product 3'; UPDATE products SET price = 3.07 WHERE product = 'product 10';"
    ),
    "texts that look like what stands for NULL": Case(
        "UPDATE orders SET region = '\\N' WHERE id < 5; UPDATE orders SET region = '\\\\N' WHERE id IN (5, 6); UPDATE orders SET region = 'N' WHERE id = 7;"
        " UPDATE orders SET region = NULL WHERE id = 10;",
        made="UPDATE orders SET region = '\\N' WHERE id IN (1, 9, 10); UPDATE orders SET region = '\\\\N' WHERE id = 13;",
    ),
    "nothing is left of it": Case("BEGIN;" + NEW_ORDER + NEW_LINES + "ROLLBACK;"),
    "a savepoint": Case(
        "BEGIN; SAVEPOINT a;" + NEW_ORDER + "ROLLBACK TO a; UPDATE lines SET pieces = 1 WHERE id = 3; SAVEPOINT b; DELETE FROM lines WHERE id = 4;"
        " RELEASE b; COMMIT;"
    ),
    "one row again and again": Case("".join(f"UPDATE products SET price = {n} WHERE product = 'product 1';" for n in range(9))),
    "a row that comes and leaves": Case(NEW_ORDER + "DELETE FROM orders WHERE id = 900;"),
    "ON CONFLICT": Case(
        "INSERT INTO products (product, price) VALUES ('product 1', 50), ('product 99', 51) ON CONFLICT (product) DO UPDATE SET price = 52;"
        "INSERT INTO products (product, price) VALUES ('product 2', 50), ('product 98', 51) ON CONFLICT DO NOTHING;"
    ),
    "a statement that fails": Case("INSERT INTO products (product, price) VALUES ('new', 1), ('product 4', 2);", fails="product"),
    "dates before 1970": Case("UPDATE orders SET day = '1969-12-30' WHERE id = 7; UPDATE orders SET day = '1901-05-06', at = '1960-01-01 01:02:03' WHERE id = 9;"),
}

ANEW = "CREATE TABLE lines (id int NOT NULL, product text NOT NULL, pieces smallint NOT NULL);"
HEIRS = "CREATE TABLE special_lines (why text) INHERITS (lines); INSERT INTO special_lines VALUES (3, 'product 3', 3, 'gift');"
OF_POSTGRESQL = {
    "COPY": Case("COPY lines FROM PROGRAM 'printf \"1,product 2,7\\n2,product 3,8\\n\"' (FORMAT csv);"),
    "MERGE": Case(
        "MERGE INTO products AS p USING (VALUES ('product 1', 5.5), ('product 2', NULL), ('new', 7.25)) AS n (product, price) ON p.product = n.product"
        " WHEN MATCHED AND n.price IS NULL THEN DELETE WHEN MATCHED THEN UPDATE SET price = n.price WHEN NOT MATCHED THEN INSERT VALUES (n.product, n.price);"
    ),
    "several statements in one": Case(
        "WITH gone AS (DELETE FROM lines WHERE id < 5 RETURNING id, product, pieces), paid AS (UPDATE orders SET paid = NOT paid WHERE id < 3 RETURNING id)"
        " INSERT INTO lines SELECT id + 10, product, pieces FROM gone;"
    ),
    "TRUNCATE": Case("TRUNCATE lines;"),
    "TRUNCATE of what is referred to": Case("TRUNCATE orders CASCADE;" + NEW_ORDER + NEW_LINES),
    "TRUNCATE that is taken back": Case("BEGIN; TRUNCATE lines; ROLLBACK;"),
    "TRUNCATE of rows of one's own": Case("BEGIN;" + NEW_ORDER + NEW_LINES + "TRUNCATE lines;" + NEW_LINES + "COMMIT;"),
    "TRUNCATE of a later isolation": Case("BEGIN ISOLATION LEVEL REPEATABLE READ; TRUNCATE lines; COMMIT;", refused="it was truncated at another isolation"),
    "without triggers, as one supposes": Case("SET session_replication_role = replica;" + NEW_ORDER + "SET session_replication_role = origin;"),
    "no number, and no end of days": Case(
        "UPDATE orders SET day = 'infinity', at = '-infinity' WHERE id = 2; UPDATE orders SET day = '-infinity', at = 'infinity' WHERE id = 3;"
        " DELETE FROM lines WHERE id IN (2, 3); UPDATE orders SET day = '2026-01-01', at = NULL WHERE id IN (2, 3);"
    ),
    "someone without rights on the mirrors": Case(
        "SET ROLE seller;" + NEW_ORDER + NEW_LINES + "UPDATE lines SET pieces = 1 WHERE id = 5; DELETE FROM lines WHERE id = 6; RESET ROLE;",
        made="GRANT ALL ON ALL TABLES IN SCHEMA public TO seller; GRANT USAGE ON SCHEMA public TO seller;",
    ),
    "a writer with a path of its own": Case(
        "CREATE FUNCTION public.floor(numeric) RETURNS numeric LANGUAGE sql AS 'SELECT 0.0'; SET search_path = public, pg_catalog;"
        " UPDATE orders SET at = at + INTERVAL '1 day'; RESET search_path; DROP FUNCTION public.floor(numeric);"
    ),
    "texts that are filled with blanks": Case(
        "INSERT INTO orders (id, day, region) SELECT 900 + n, '2026-02-02', r FROM unnest(ARRAY['', 'žluťoučký', ' a b ', '\\N', 'region 3   ', NULL]) WITH ORDINALITY"
        " AS l (r, n); INSERT INTO orders (id, day, region) VALUES (910, '2026-02-02', 'žlutý'); DELETE FROM orders WHERE id = 903;"
        " UPDATE orders SET region = 'region 2' WHERE id > 904; UPDATE orders SET region = NULL WHERE id = 3;",
        made="ALTER TABLE orders ALTER region TYPE char(12);",
    ),
    "a trigger that writes on": Case(
        NEW_ORDER + "UPDATE orders SET paid = TRUE;",
        made="CREATE FUNCTION f() RETURNS trigger LANGUAGE plpgsql AS $f$ BEGIN INSERT INTO lines VALUES (NEW.id, 'product 1', 1); RETURN NULL; END $f$;"
             " CREATE TRIGGER a AFTER INSERT OR UPDATE ON orders FOR EACH ROW EXECUTE FUNCTION f();",
    ),
    "a trigger that changes what comes": Case(
        NEW_ORDER + NEW_LINES,
        made="CREATE FUNCTION f() RETURNS trigger LANGUAGE plpgsql AS $f$ BEGIN NEW.pieces := 6; RETURN NEW; END $f$;"
             " CREATE TRIGGER z BEFORE INSERT ON lines FOR EACH ROW EXECUTE FUNCTION f();",
    ),
    "rows of partitions": Case(
        "INSERT INTO orders (id, day, region) VALUES (1500, '2026-03-03', 'region 7'); INSERT INTO lines VALUES (1500, 'product 1', 1), (2, 'product 2', 2);"
        " INSERT INTO low VALUES (5, 3, 'product 3'); UPDATE lines SET id = id + 15 WHERE id % 3 = 0; UPDATE others SET pieces = 9;"
        " DELETE FROM high WHERE pieces = 9 AND id % 2 = 0; TRUNCATE low; INSERT INTO low VALUES (1, 4, 'product 4');",
        made=PARTED,
    ),
    "TRUNCATE of a table in parts": Case("TRUNCATE lines; INSERT INTO lines VALUES (3, 'product 3', 3);", made=PARTED),
    "heirs": Case("UPDATE lines SET pieces = pieces + 1; INSERT INTO special_lines VALUES (4, 'product 4', 4, 'gift'); DELETE FROM ONLY lines WHERE id < 4;"
                  " TRUNCATE ONLY lines;", made=HEIRS),
    "a trigger that is disabled": Case("ALTER TABLE lines DISABLE TRIGGER ALL; DELETE FROM lines WHERE id = 3;", refused="lines has no triggers"),
    "triggers that are disabled for a while": Case(
        "ALTER TABLE lines DISABLE TRIGGER ALL; DELETE FROM lines WHERE id = 3; DO $$ DECLARE t text; BEGIN FOR t IN SELECT tgname FROM pg_trigger WHERE tgrelid"
        " = 'lines'::regclass AND NOT tgisinternal LOOP EXECUTE format('ALTER TABLE lines ENABLE ALWAYS TRIGGER %I', t); END LOOP; END $$;",
        refused="the triggers of public.lines were disabled",
    ),
    "triggers that have other names, as those of a dump": Case(
        "DO $$ DECLARE t text; BEGIN FOR t IN SELECT tgname FROM pg_trigger WHERE tgrelid = 'lines'::regclass AND NOT tgisinternal LOOP"
        " EXECUTE format('ALTER TRIGGER %I ON lines RENAME TO %I', t, 'once ' || t); END LOOP; END $$; ALTER TABLE lines DISABLE TRIGGER ALL;"
        " ALTER TABLE lines ENABLE TRIGGER ALL;" + NEW_LINES.replace("900", "8"), refused="lines has no triggers",
    ),
    "a column whose values are written anew": Case("ALTER TABLE lines ALTER pieces TYPE smallint USING pieces + 1;", refused="columns of public.lines were written anew"),
    "a column that is made anew": Case("ALTER TABLE lines DROP COLUMN pieces; ALTER TABLE lines ADD COLUMN pieces smallint NOT NULL DEFAULT 2;",
                                       refused="its column pieces is of another type"),
    "an heir that comes, is written to and goes again": Case(
        "CREATE TABLE more () INHERITS (lines); INSERT INTO more VALUES (5, 'product 2', 5); UPDATE lines SET pieces = pieces + 1 WHERE id = 5; DROP TABLE more;",
        refused="more is no part of it any more",
    ),
    "a column of another type": Case("ALTER TABLE lines ALTER pieces TYPE int; UPDATE lines SET pieces = 70000 WHERE id = 1;",
                                     refused="its column pieces is of another type"),
    "an enumeration that gets a value": Case("ALTER TYPE colour ADD VALUE 'red';" + NEW_LINES.replace("900", "8"), made=COLOURS),
    "an enumeration whose value gets another name": Case(
        "ALTER TYPE colour RENAME VALUE 'region 1' TO 'region one'; UPDATE orders SET paid = TRUE WHERE id = 1;", made=COLOURS,
        refused="its column region is of another type, or its values have other names",
    ),
    "an enumeration whose value has another name for a while": Case(
        "ALTER TYPE colour RENAME VALUE 'region 1' TO 'x'; INSERT INTO orders (id, day, region) VALUES (900, '2026-02-02', 'x'); ALTER TYPE colour RENAME VALUE 'x' TO"
        " 'region 1';", made=COLOURS, refused="its column region is of another type, or its values have other names",
    ),
    "an enumeration that gets a value before others": Case("ALTER TYPE colour ADD VALUE 'red' BEFORE 'region 1'; UPDATE orders SET paid = NOT paid, region = 'red' WHERE id < 9;",
                                                           made=COLOURS),
    "an enumeration whose value gets a comma": Case(
        "ALTER TYPE colour RENAME VALUE 'region 3' TO 'region 3,region 4'; UPDATE orders SET paid = TRUE WHERE id = 3;", made=COLOURS,
        refused="its column region is of another type, or its values have other names",
    ),
    "a table that is made anew": Case(
        f"CREATE TABLE new_lines AS SELECT * FROM lines; DROP TABLE lines; {ANEW} INSERT INTO lines SELECT * FROM new_lines WHERE id > 2;"
        + NEW_LINES.replace("900", "4"), refused="its table is gone",
    ),
    "a table in the place of another one": Case(
        f"ALTER TABLE lines RENAME TO old_lines; {ANEW} INSERT INTO lines SELECT * FROM old_lines WHERE id > 2;" + NEW_LINES.replace("900", "4"),
        refused="it is public.old_lines now, and another table may have its name",
    ),
    "an heir's row with the key of another one": Case(
        "INSERT INTO special (product, price) VALUES ('product 1', 3), ('product 1', 4), ('product 2', 2.25); DELETE FROM ONLY products WHERE product = 'product 2';",
        made="CREATE TABLE special (why text) INHERITS (products);",
    ),
    "TRUNCATE by a role from which rows are hidden": Case(
        'ALTER FUNCTION wh."lines~capture"() OWNER TO seller; GRANT USAGE ON SCHEMA wh TO seller; GRANT ALL ON ALL TABLES IN SCHEMA wh TO seller;'
        " GRANT SELECT ON lines TO seller; GRANT USAGE ON SCHEMA public TO seller; ALTER TABLE lines ENABLE ROW LEVEL SECURITY;"
        " CREATE POLICY few ON lines USING (id < 9); INSERT INTO lines VALUES (3, 'product 3', 3); TRUNCATE lines;", refused="its rows are hidden",
    ),
    "a row that a unique index of one's own keeps out until another one has left": Case(
        "CREATE UNIQUE INDEX own ON wh.orders (at) WHERE at > 1800000000; INSERT INTO orders (id, day, at) VALUES (0, '2026-02-02', '2030-01-01 00:00Z');"
        " DELETE FROM orders WHERE id = 7; UPDATE orders SET at = '2031-01-01 00:00Z' WHERE id = 8;"
        " INSERT INTO orders (id, day, at) VALUES (-1, '2026-02-02', '2032-01-01 00:00Z'); UPDATE orders SET at = NULL WHERE id = 9;",
        made="UPDATE orders SET at = '2030-01-01 00:00Z' WHERE id = 7; UPDATE orders SET at = '2032-01-01 00:00Z' WHERE id = 9;",
    ),
    "a column whose name is of two lines": Case(
        "UPDATE lines SET \"a\nb]: '\" = E'x\\n]: y' WHERE id < 5; UPDATE lines SET pieces = 2 WHERE id < 9; INSERT INTO lines VALUES (3, 'product 3', 1, E'\\r');",
        made="ALTER TABLE lines ADD COLUMN \"a\nb]: '\" text DEFAULT E'q\\nr';",
    ),
    "a table by another name": Case("ALTER TABLE lines RENAME TO positions; INSERT INTO positions VALUES (4, 'product 4', 4); ALTER TABLE positions RENAME TO lines;"),
}
OF_SQLITE = {
    "REPLACE": Case("REPLACE INTO products (product, price) VALUES ('product 1', 9.5), ('new', 1.25); REPLACE INTO orders (id, day, region) VALUES (3, '2026-04-04', 'x');"),
    "REPLACE with triggers": Case("PRAGMA recursive_triggers = ON; REPLACE INTO products (product, price) VALUES ('product 1', 9.5), ('product 1', 2), ('new', 1);"),
    "REPLACE of two rows": Case(
        "REPLACE INTO codes (a, b) VALUES (1, 20); REPLACE INTO lines (id, product, pieces) VALUES (3, 'product 1', 1);"
        " UPDATE OR REPLACE lines SET pieces = 0 WHERE id = 5;",
        made="CREATE TABLE codes (a INTEGER UNIQUE, b INTEGER UNIQUE); INSERT INTO codes VALUES (1, 10), (2, 20);"
             " DELETE FROM lines WHERE rowid NOT IN (SELECT min(rowid) FROM lines GROUP BY id); CREATE UNIQUE INDEX one ON lines (id);",
    ),
    "UPDATE OR REPLACE": Case("UPDATE OR REPLACE products SET product = 'product 5', price = 3 WHERE product IN ('product 6', 'product 7');"
                              "UPDATE OR REPLACE orders SET id = id + 1 WHERE id < 8;"),
    "IGNORE and then REPLACE": Case(
        "INSERT OR IGNORE INTO products (product, price) VALUES ('product 1', 7); UPDATE products SET price = 8 WHERE product = 'product 1';"
        " REPLACE INTO products (product, price) VALUES ('product 1', 9); INSERT OR IGNORE INTO orders (id, day) VALUES (5, '2026-01-01');"
        " UPDATE orders SET id = 5005 WHERE id = 5; INSERT INTO orders (id, day) VALUES (5, '2026-01-02');"
    ),
    "IGNORE and FAIL": Case("INSERT OR IGNORE INTO products (product, price) VALUES ('product 1', 7), ('b', 8);"
                            " UPDATE OR IGNORE products SET product = 'product 9' WHERE product = 'product 8';"),
    "an index that knows no case": Case(
        "REPLACE INTO products (product, price) VALUES ('PRODUCT 1', 9.5);", made="CREATE UNIQUE INDEX one ON products (product COLLATE NOCASE);"
    ),
    "an index of some rows": Case(
        "REPLACE INTO products (product, price) VALUES ('product 1', 1.25); REPLACE INTO products (product, price, about) VALUES ('q', 4.25, 'x');",
        made="CREATE UNIQUE INDEX one ON products (price) WHERE price < 9;",
    ),
    "REPLACE that fills a NULL": Case(
        "REPLACE INTO orders (id, day, at, paid, region) SELECT 1900, day, at, NULL, region FROM orders WHERE id = 2;"
        " UPDATE OR REPLACE orders SET paid = NULL, region = 'region 2', at = (SELECT at FROM orders WHERE id = 6) WHERE id = 7;",
        made="CREATE UNIQUE INDEX one ON orders (paid, region, at);",
    ),
    "a unique index that comes later": Case(
        "CREATE UNIQUE INDEX later ON products (price); REPLACE INTO products (product, price) VALUES ('q', 1.25);", refused="it has a unique index more"
    ),
    "a row that gets its number": Case("INSERT INTO orders (id, day) VALUES (-1, '2026-01-01'); INSERT INTO orders (day, region) VALUES ('2026-01-01', 'new');"
                                       "INSERT INTO orders (day, region) VALUES ('2026-01-02', 'new');"),
    "a trigger that writes on": Case(
        "REPLACE INTO orders (id, day, region) VALUES (3, '2026-04-04', 'x'), (4, '2026-04-04', 'x');",
        made="CREATE TRIGGER a AFTER INSERT ON orders WHEN new.id < 100 BEGIN INSERT INTO lines VALUES (new.id, 'product 1', 1);"
             " INSERT INTO orders (id, day) VALUES (new.id + 500, '2026-01-03'); END;",
    ),
    "a table that is made anew": Case(
        "PRAGMA foreign_keys = OFF; CREATE TABLE l AS SELECT * FROM lines; DROP TABLE lines; CREATE TABLE lines (id INT NOT NULL, product TEXT NOT NULL,"
        " pieces INT NOT NULL); INSERT INTO lines SELECT * FROM l; INSERT INTO lines VALUES (3, 'product 1', 8);", refused="its triggers are gone",
    ),
    "all rows leave": Case("DELETE FROM lines;"),
    "a table in the place of another one": Case(
        "PRAGMA foreign_keys = OFF; ALTER TABLE lines RENAME TO old_lines; CREATE TABLE lines (id INT NOT NULL, product TEXT NOT NULL, pieces INT NOT NULL);"
        " INSERT INTO lines SELECT * FROM old_lines WHERE id > 2; UPDATE old_lines SET pieces = 1;", refused="its triggers are gone, or stand on another table",
    ),
    "a unique index that comes, and goes again": Case(
        "CREATE UNIQUE INDEX later ON products (price); REPLACE INTO products (product, price) VALUES ('q', 1.25); DROP INDEX later;",
        refused="rows of it changed unnoticed while the schema did",
    ),
    "tables and indexes of others come": Case(
        "CREATE TABLE elsewhere (x INT); CREATE INDEX by_day ON orders (day);" + NEW_ORDER + NEW_LINES + "ANALYZE; DELETE FROM lines WHERE id < 4;"
    ),
    "the file is packed anew": Case("DELETE FROM lines WHERE id < 9 AND rowid % 2 = 0; VACUUM;" + NEW_ORDER + NEW_LINES),
    "a trigger that comes later": Case(
        "CREATE TRIGGER a BEFORE UPDATE ON lines WHEN new.pieces = 5 BEGIN UPDATE lines SET pieces = 9, product = 'product 9' WHERE rowid = old.rowid; END;",
        refused="it has a trigger more",
    ),
    "a trigger BEFORE UPDATE that changes the row": Case(
        "UPDATE lines SET pieces = 5 WHERE id < 12; UPDATE lines SET product = 'product 3' WHERE id = 7; UPDATE lines SET pieces = 5 WHERE id < 12;",
        made="CREATE TRIGGER a BEFORE UPDATE ON lines WHEN new.pieces = 5 BEGIN UPDATE lines SET pieces = old.pieces + 9, product = 'product 9'"
             " WHERE rowid = old.rowid; END;",
    ),
    "a trigger BEFORE DELETE that changes the row": Case(
        "DELETE FROM lines WHERE id < 9;" + NEW_LINES.replace("900", "9") + "DELETE FROM lines WHERE id = 9;",
        made="CREATE TRIGGER a BEFORE DELETE ON lines BEGIN UPDATE lines SET pieces = pieces + 1 WHERE rowid = old.rowid; END;",
    ),
    "a trigger BEFORE INSERT that changes what is replaced": Case(
        "REPLACE INTO products (product, price) VALUES ('product 1', 2), ('product 2', 3);",
        made="CREATE TRIGGER a BEFORE INSERT ON products BEGIN UPDATE products SET price = 77.25 WHERE product = new.product; END;",
    ),
    "a trigger BEFORE UPDATE that makes the row anew": Case(
        "UPDATE lines SET pieces = 5 WHERE id < 7;",
        made="CREATE TRIGGER a BEFORE UPDATE ON lines WHEN new.pieces = 5 BEGIN DELETE FROM lines WHERE rowid = old.rowid;"
             " INSERT INTO lines (rowid, id, product, pieces) VALUES (old.rowid, old.id, 'product 4', 2); END;",
    ),
}
OF = {"postgresql": {**BOTH, **OF_POSTGRESQL, **COLUMNS, **PARTS, **COMING}, "sqlite": {**BOTH, **OF_SQLITE}}


def said(live, text, fails):
    """What the application meets otherwise than it should."""
    try:
        live.asked(text)
    except (Broken, sqlite3.Error) as told:
        return [] if fails and fails in str(told) else [f"the application was told {str(told)[:300]}"]
    return [f"the application was not told {fails}"] if fails else []


def mistakes(live, case):
    """What comes otherwise than it should of a case."""
    wrong = live.fresh(case.made) + said(live, case.said, case.fails)
    before = live.pending()
    if case.refused:
        wrong += live.refuses(case.refused)
        wrong += [] if live.pending() == before else ["a night that was refused took changes"]
        wrong += faults(live.capture()) + said(live, AGAIN, "")
    wrong += live.right() + ([f"{live.pending()} changes stayed"] if live.pending() else [])
    return wrong + live.right("the night after: ")


def case_mistakes(live, only=""):
    """What is wrong with the cases of an engine, and how many there are."""
    return each_case(live, OF[live.engine], mistakes, only)
