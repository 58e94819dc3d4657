"""What is told otherwise where tables are captured from the log, and cases of it alone."""

from trials.capture.case import Case

# By what word a night is refused, or nothing where it is not.
REFUSED = {
    **dict.fromkeys((
        "TRUNCATE of a later isolation", "a trigger that is disabled", "triggers that are disabled for a while", "triggers that have other names, as those of a dump",
        "an heir that comes, is written to and goes again", "a column that gets another name", "columns that change their names",
        "columns of one type that change their names", "a column that is made wider for a while", "a column of digits that becomes a text",
        "a column whose values are written anew", "TRUNCATE of a column that became another", "a part that is attached, of a later isolation", "a part that is detached, of a later isolation",
        "a MERGE within a function of an UPDATE", "a MERGE within a function of an INSERT", "a MERGE within a function of a statement of a function",
    ), ""), "a new part where an event trigger is disabled": "are not logged as they were",
}
WITHOUT = ("TRUNCATE by a role from which rows are hidden",)
# Texts that are stored apart from their rows, in a table with a key and in one without.
LONG = "(SELECT string_agg(md5((i * {n})::text), '') FROM generate_series(1, 200) AS i)"
APART = (
    "ALTER TABLE orders ALTER region TYPE text, ALTER region SET STORAGE EXTERNAL; ALTER TABLE lines ALTER product SET STORAGE EXTERNAL;"
    + "".join(f"UPDATE orders SET region = {LONG.format(n=n)} WHERE id = {n};" for n in range(1, 9))
    + f"INSERT INTO lines VALUES (1, {LONG.format(n=3)}, 3), (2, {LONG.format(n=4)}, 3);"
)
# What a hostile text, name or message might be taken for.
HOSTILE = "a'' new-tuple: product[text]:''b'' price[numeric]:1\\ntable public.lines: DELETE: id[integer]:1"
NAMES = (
    """CREATE TYPE "ty]:p""e' x" AS ENUM ('a'']:', 'b'); ALTER TABLE lines ADD COLUMN "co]:l""u'mn" "ty]:p""e' x", ADD COLUMN "old-key" text, ADD COLUMN "new-tuple" text,"""
    """ ADD COLUMN tags text[], ADD COLUMN bits bit(3); ALTER TABLE products ADD COLUMN "a: b" "ty]:p""e' x"; CREATE SCHEMA "public.lines: INSERT: id[integer]:1";"""
    """ CREATE TABLE "public.lines: INSERT: id[integer]:1"."x: TRUNCATE: (no-flags)" (id int, product text); CREATE TABLE "x, public.lines" (id int);"""
    """ CREATE TABLE "lines: TRUNCATE: (no-flags)" (id int);"""
)
BY_NAMES = (
    """UPDATE lines SET "co]:l""u'mn" = 'a'']:', "old-key" = ' new-tuple: id[integer]:9', "new-tuple" = 'it''s', tags = '{"a'']:",b}', bits = B'101' WHERE id < 9;"""
    """ UPDATE lines SET pieces = pieces + 1 WHERE id < 12; DELETE FROM lines WHERE id = 4; UPDATE products SET "a: b" = 'b' WHERE price > 3;"""
    """ INSERT INTO "public.lines: INSERT: id[integer]:1"."x: TRUNCATE: (no-flags)" VALUES (1, 'x'); TRUNCATE "public.lines: INSERT: id[integer]:1"."x: TRUNCATE: (no-flags)";"""
    """ INSERT INTO "x, public.lines" VALUES (1); TRUNCATE "x, public.lines"; INSERT INTO "lines: TRUNCATE: (no-flags)" VALUES (3); TRUNCATE "lines: TRUNCATE: (no-flags)";"""
    """ TRUNCATE "x, public.lines", "lines: TRUNCATE: (no-flags)" RESTART IDENTITY CASCADE;"""
)
KEYED_PARTS = (
    "ALTER TABLE products RENAME TO old_products; CREATE TABLE products (product text NOT NULL, price numeric(10,2), about text, PRIMARY KEY (product)) PARTITION BY"
    " RANGE (product); CREATE TABLE few PARTITION OF products FOR VALUES FROM (MINVALUE) TO ('product 2'); CREATE TABLE many (about text, price numeric(10,2), product text"
    " PRIMARY KEY); ALTER TABLE products ATTACH PARTITION many FOR VALUES FROM ('product 2') TO (MAXVALUE); INSERT INTO products SELECT * FROM old_products;"
    " DROP TABLE old_products;"
)
MOVED_PARTS = (
    "UPDATE products SET product = 'product 3x' WHERE product = 'product 1'; UPDATE products SET product = 'product 0' WHERE product = 'product 5'; UPDATE products SET"
    " price = 3 WHERE product LIKE 'product 1%'; DELETE FROM few WHERE product = 'product 11'; INSERT INTO many (product, price) VALUES ('product 9z', 4);"
)
MESSAGE = "table public.lines: INSERT: id[integer]:7 product[text]:''x'' pieces[smallint]:1"
CASES = {
    "long texts that stay": Case(
        "UPDATE orders SET paid = NOT paid WHERE id < 7; UPDATE orders SET id = id + 500 WHERE id IN (1, 2); UPDATE orders SET paid = NOT paid WHERE id > 500;"
        " UPDATE orders SET id = id + 500 WHERE id = 501; UPDATE orders SET region = 'short' WHERE id = 502; UPDATE orders SET paid = NOT paid WHERE id = 502;"
        " DELETE FROM orders WHERE id = 3; INSERT INTO orders (id, day, region) VALUES (3, '2026-02-02', repeat('x', 9000)); UPDATE orders SET day = '2026-03-03' WHERE id = 3;"
        " UPDATE lines SET pieces = pieces + 1; DELETE FROM lines WHERE id = 2;", made=APART,
    ),
    "long texts that stay, in changes that wait": Case(
        "DO $$ BEGIN FOR n IN 1..5 LOOP UPDATE orders SET paid = NOT paid, note = n::text WHERE id < 9; COMMIT; END LOOP; END $$; BEGIN; UPDATE orders SET id = -id WHERE id < 5;"
        " UPDATE orders SET id = -id WHERE id < 0; COMMIT;", made=APART,
    ),
    "keys that change places": Case(
        "BEGIN; UPDATE orders SET id = -1 WHERE id = 1; UPDATE orders SET id = 1 WHERE id = 2; UPDATE orders SET id = 2 WHERE id = -1; COMMIT;"
        " UPDATE products SET product = 'x' WHERE product = 'product 1'; UPDATE products SET product = 'product 1', price = 9 WHERE product = 'product 2';"
        " DELETE FROM orders WHERE id = 5; INSERT INTO orders (id, day) VALUES (5, '2026-05-05'); DELETE FROM orders WHERE id = 5; INSERT INTO orders (id, day) VALUES (5, '2026-05-06');"
    ),
    "a key that is judged at the end alone": Case(
        "UPDATE orders SET id = id + 1; BEGIN; SET CONSTRAINTS ALL DEFERRED; UPDATE orders SET id = id - 1; COMMIT; DELETE FROM orders WHERE id = 7;",
        made="ALTER TABLE lines DROP CONSTRAINT lines_id_fkey; ALTER TABLE orders DROP CONSTRAINT orders_pkey; ALTER TABLE orders ADD PRIMARY KEY (id) DEFERRABLE;",
    ),
    "parts with a key": Case(MOVED_PARTS, made=KEYED_PARTS),
    "parts with a key that are emptied at once": Case(MOVED_PARTS + "TRUNCATE products; INSERT INTO products VALUES ('product 2', 5), ('product 10', 6);", made=KEYED_PARTS),
    "a part with a key that is emptied": Case(MOVED_PARTS + "TRUNCATE few;", made=KEYED_PARTS),
    "NULLs of a table without a key": Case(
        "UPDATE products SET price = NULL WHERE price > 9; DELETE FROM products WHERE price IS NULL AND product < 'product 15'; UPDATE products SET about = 'x';"
        " INSERT INTO products VALUES ('product 3', NULL), ('product 3', NULL); DELETE FROM products WHERE product = 'product 4';",
        made="ALTER TABLE products DROP CONSTRAINT products_pkey;",
    ),
    "a commit in two phases": Case(
        "BEGIN; UPDATE lines SET pieces = 9 WHERE id = 3; DELETE FROM orders WHERE id = 9; PREPARE TRANSACTION 'a'; UPDATE lines SET pieces = 8 WHERE id = 4;"
        " COMMIT PREPARED 'a'; BEGIN; DELETE FROM orders WHERE id = 11; PREPARE TRANSACTION 'b'; ROLLBACK PREPARED 'b';"
    ),
    "texts like what the log writes": Case(
        f"INSERT INTO products VALUES (E'{HOSTILE}', 3, E'{HOSTILE}'), ('''', 4, ''''), ('', 5, ''), ('null', 6, 'null'), ('unchanged-toast-datum', 7, ''),"
        " ('\"', 8, '\"'), ('(no-tuple-data)', 1, ''), (': TRUNCATE: (no-flags)', 2, '');"
        f" UPDATE products SET price = 9 WHERE price < 9; UPDATE products SET product = product || '''' WHERE price = 9; UPDATE orders SET region = ''']:''' WHERE id < 5;"
        f" INSERT INTO lines SELECT 3, product, 2 FROM products; DELETE FROM lines WHERE product = 'null'''; DELETE FROM products WHERE product LIKE '%null%';"
    ),
    "names like what the log writes": Case(BY_NAMES, made=NAMES),
    "messages like what the log writes": Case(
        f"SELECT pg_logical_emit_message(TRUE, '{MESSAGE}', '{MESSAGE}'), pg_logical_emit_message(FALSE, '{MESSAGE}', '{MESSAGE}'),"
        " pg_logical_emit_message(TRUE, 'x', '\\xff00fe'::bytea); UPDATE lines SET pieces = 1 WHERE id = 3;"
    ),
    "a text of quotes": Case("UPDATE products SET about = repeat('''', 300000), price = 3 WHERE product = 'product 3'; INSERT INTO lines VALUES (3, repeat('''', 100000), 3);"),
    "rows that are told otherwise": Case("ALTER TABLE lines REPLICA IDENTITY DEFAULT; UPDATE lines SET pieces = 1;", refused="are not logged as they were"),
    "rows that are not told for a while": Case(
        "ALTER TABLE lines REPLICA IDENTITY NOTHING; DELETE FROM lines WHERE id = 3; ALTER TABLE lines REPLICA IDENTITY FULL;", refused="or its rows were not logged so"
    ),
    "a key that is not told for a while": Case(
        "ALTER TABLE orders REPLICA IDENTITY NOTHING; UPDATE orders SET id = 5000 WHERE id = 7; ALTER TABLE orders REPLICA IDENTITY DEFAULT;",
        refused="the log does not have all its changes",
    ),
    "a key that is told whole": Case("ALTER TABLE orders REPLICA IDENTITY FULL; UPDATE orders SET id = 5000 WHERE id = 7; DELETE FROM orders WHERE id = 8; UPDATE orders SET paid = TRUE;"),
    "a schema by another name": Case("ALTER SCHEMA public RENAME TO private; INSERT INTO private.lines VALUES (3, 'product 3', 3); ALTER SCHEMA private RENAME TO public;"),
    "a key that is dropped, and rows that change": Case(
        "ALTER TABLE products DROP CONSTRAINT products_pkey; UPDATE products SET price = 3 WHERE product < 'product 15'; DELETE FROM products WHERE price = 3 AND product > 'product 12';"
        " ALTER TABLE products ADD PRIMARY KEY (product);", refused="or its rows were not logged so",
    ),
    "columns that come and go beside": Case("ALTER TABLE orders ADD COLUMN more text DEFAULT 'x'; UPDATE orders SET paid = TRUE WHERE id < 5; ALTER TABLE orders DROP COLUMN note;"
                                            " UPDATE orders SET more = 'y' WHERE id < 9; DELETE FROM orders WHERE id = 9;"),
    "many savepoints": Case(
        "DO $$ BEGIN FOR n IN 1..200 LOOP BEGIN UPDATE lines SET pieces = n % 7 WHERE id = n % 40 + 1; IF n % 3 = 0 THEN RAISE division_by_zero; END IF; EXCEPTION WHEN"
        " division_by_zero THEN NULL; END; END LOOP; END $$;"
    ),
    "a view of the materialized kind and a sequence": Case("CREATE MATERIALIZED VIEW m AS SELECT * FROM lines; CREATE SEQUENCE s; SELECT nextval('s'); REFRESH MATERIALIZED VIEW m;"
                                                           " UPDATE lines SET pieces = 2 WHERE id = 2;"),
}
SLOTS = {
    "dropped": ("SELECT pg_drop_replication_slot('{slot}');", "is gone"),
    "read by somebody": ("SELECT count(*) FROM pg_logical_slot_get_changes('{slot}', NULL, NULL);", "was moved by somebody"),
    "made anew by hand": ("SELECT pg_drop_replication_slot('{slot}'); SELECT pg_create_logical_replication_slot('{slot}', 'test_decoding');", "was moved by somebody"),
    "fallen behind": (
        "ALTER SYSTEM SET max_slot_wal_keep_size = '1MB'; SELECT pg_reload_conf(); CREATE TABLE much (t text); INSERT INTO much SELECT repeat(md5(i::text), 99) FROM"
        " generate_series(1, 20000) AS i; SELECT pg_switch_wal(); INSERT INTO much SELECT repeat(md5(i::text), 99) FROM generate_series(1, 20000) AS i; SELECT pg_switch_wal();"
        " DROP TABLE much; CHECKPOINT;", "was invalidated",
    ),
}
