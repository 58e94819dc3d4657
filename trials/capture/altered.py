"""Tables whose columns, keys or parts are changed beside captures, and rows that are written all the same: no writer fails, and the next night says
what is otherwise, or is right."""

from trials.capture.case import Case

PARTED = (
    "ALTER TABLE lines RENAME TO old_lines; CREATE TABLE lines (id int NOT NULL, product text NOT NULL, pieces smallint NOT NULL) PARTITION BY"
    " RANGE (id); CREATE TABLE low (pieces smallint NOT NULL, id int NOT NULL, product text NOT NULL); ALTER TABLE lines ATTACH PARTITION low FOR VALUES"
    " FROM (0) TO (20); CREATE TABLE high PARTITION OF lines FOR VALUES FROM (20) TO (2000) PARTITION BY LIST (product);"
    " CREATE TABLE others PARTITION OF high DEFAULT; INSERT INTO lines SELECT * FROM old_lines; DROP TABLE old_lines;"
)
# Rows that come, change and leave.
WRITES = "INSERT INTO lines VALUES (3, 'product 3', {three}); UPDATE lines SET product = 'product 9' WHERE id = 4; DELETE FROM lines WHERE id = 5;"
MOVES = "MERGE INTO lines USING (VALUES (3), (5), (24)) AS n (id) ON lines.id = n.id WHEN MATCHED THEN UPDATE SET id = (lines.id + 20) % 40"
MORE = " WHEN NOT MATCHED THEN INSERT VALUES (7, 'product 7', 7);"
LESS = (
    "MERGE INTO lines USING (VALUES (3), (5), (24), (30)) AS n (id) ON lines.id = n.id WHEN MATCHED AND n.id = 30 THEN DELETE"
    " WHEN MATCHED AND lines.pieces > 2 THEN UPDATE SET id = (lines.id + 20) % 40 WHEN MATCHED THEN UPDATE SET pieces = 6"
)
# A function that moves a row by a MERGE when it comes to its ninth one.
MOVING = (
    "CREATE FUNCTION moves(n int) RETURNS smallint LANGUAGE plpgsql AS $f$ BEGIN IF n = 9 THEN MERGE INTO lines USING (VALUES (30)) AS v (id) ON lines.id = v.id WHEN"
    " MATCHED THEN UPDATE SET id = 5; END IF; RETURN 7; END $f$;"
)
MOVED = "MERGE INTO lines USING (VALUES (25)) AS v (id) ON lines.id = v.id WHEN MATCHED THEN UPDATE SET id = 6;"
COLOURS = "CREATE TYPE colour AS ENUM ('region 1', 'region 2', 'region 3'); ALTER TABLE orders ALTER region TYPE colour USING region::colour;"
COLUMNS = {
    "a column that gets another name": Case("ALTER TABLE lines RENAME pieces TO amount;" + WRITES.format(three=3) + "ALTER TABLE lines RENAME amount TO pieces;",
                                            refused="while its columns were not as they were captured"),
    "columns that change their names": Case(
        "ALTER TABLE orders RENAME id TO old_id; ALTER TABLE orders RENAME note TO id; INSERT INTO orders (id, old_id, day) VALUES ('text', 901, '2026-02-02');"
        " ALTER TABLE orders RENAME id TO note; ALTER TABLE orders RENAME old_id TO id;", refused="while its columns were not as they were captured",
    ),
    "columns of one type that change their names": Case(
        "ALTER TABLE lines RENAME id TO of; ALTER TABLE lines RENAME pieces TO id; ALTER TABLE lines RENAME of TO pieces; INSERT INTO lines (id, product, pieces)"
        " VALUES (3, 'product 3', 4); ALTER TABLE lines RENAME id TO of; ALTER TABLE lines RENAME pieces TO id; ALTER TABLE lines RENAME of TO pieces;",
        made="ALTER TABLE lines ALTER pieces TYPE int;", refused="while its columns were not as they were captured",
    ),
    "a column that is dropped": Case(
        "ALTER TABLE lines DROP COLUMN pieces; INSERT INTO lines VALUES (3, 'product 3'); DELETE FROM lines WHERE id = 5;"
        " ALTER TABLE lines ADD COLUMN pieces smallint NOT NULL DEFAULT 2;", refused="its column pieces is of another type",
    ),
    "a column that may be NULL": Case(
        "ALTER TABLE lines ALTER pieces DROP NOT NULL;" + WRITES.format(three="NULL") + "UPDATE lines SET pieces = NULL WHERE id = 7;"
        " UPDATE lines SET pieces = 1 WHERE pieces IS NULL;", refused="its column pieces may be NULL now",
    ),
    "a column that is NULL for a while": Case(
        "ALTER TABLE lines ALTER pieces DROP NOT NULL;" + WRITES.format(three="NULL") + "DELETE FROM lines WHERE pieces IS NULL; ALTER TABLE lines ALTER pieces"
        " SET NOT NULL;",
    ),
    "a column that is made wider": Case(
        "ALTER TABLE products ALTER price TYPE numeric(30,2); UPDATE products SET price = 1234567890123456789012345.5 WHERE product = 'product 3';"
        " UPDATE products SET price = 7 WHERE product = 'product 3'; ALTER TABLE products ALTER price TYPE numeric(12,2);", refused="its column price is of another type",
    ),
    "a column that is made wider for a while": Case(
        "ALTER TABLE products ALTER price TYPE numeric; UPDATE products SET price = 'Infinity' WHERE product = 'product 3';"
        " UPDATE products SET price = 7 WHERE product = 'product 3'; ALTER TABLE products ALTER price TYPE numeric(10,2);", refused="columns of public.products were written anew",
    ),
    "a column of digits that becomes a text": Case(
        "ALTER TABLE lines ALTER pieces TYPE text; INSERT INTO lines VALUES (3, 'product 3', 'many'), (4, 'product 4', '');"
        " DELETE FROM lines WHERE pieces IN ('many', ''); ALTER TABLE lines ALTER pieces TYPE smallint USING pieces::smallint;",
        refused="columns of public.lines were written anew",
    ),
    "a text that becomes longer": Case(
        "ALTER TABLE orders ALTER region TYPE varchar(200); UPDATE orders SET region = repeat('region ', 20) WHERE id = 3; UPDATE orders SET region = 'x'"
        " WHERE id = 3;", refused="its column region is of another type",
    ),
    "an enumeration that becomes a text": Case(
        "ALTER TABLE orders ALTER region TYPE text; UPDATE orders SET region = 'anywhere' WHERE id = 3;", made=COLOURS, refused="its column region is of another type",
    ),
    "a column of a domain that changes": Case(
        "ALTER DOMAIN many DROP NOT NULL; INSERT INTO lines VALUES (3, 'product 3', NULL); DELETE FROM lines WHERE pieces IS NULL;",
        made="CREATE DOMAIN many AS smallint NOT NULL; ALTER TABLE lines ALTER pieces DROP NOT NULL; ALTER TABLE lines ALTER pieces TYPE many;",
        refused="while its columns were not as they were captured",
    ),
    "a primary key that is dropped": Case(
        "ALTER TABLE products DROP CONSTRAINT products_pkey; INSERT INTO products (product, price) VALUES ('product 1', 3), ('product 2', 3);",
        refused="its key (product) is gone",
    ),
    "TRUNCATE of a column that became another": Case(
        "ALTER TABLE lines RENAME pieces TO amount; TRUNCATE lines; ALTER TABLE lines RENAME amount TO pieces;",
        refused="columns of public.lines were written anew",
    ),
}
PARTS = {
    **{f"a MERGE within a function of {name}": Case(said, made=PARTED + MOVING, refused="may have a MERGE of the same table") for name, said in {
        "an UPDATE": "UPDATE lines SET pieces = moves(id) WHERE id < 15;",
        "an INSERT": "/* a * b */ -- c\n INSERT INTO lines SELECT n, 'product 4', moves(n) FROM generate_series(1, 12) AS n;",
        "a statement of a function": "DO $$ BEGIN DELETE FROM lines WHERE id < 15 AND moves(id) = 7; END $$;",
    }.items()},
    "a MERGE within functions, with nothing written outside": Case(
        f"SELECT moves(9); UPDATE lines SET pieces = 4 WHERE id = 7; DO $$ BEGIN PERFORM moves(9); UPDATE lines SET pieces = 5 WHERE id < 5; {MOVED} END $$; BEGIN; {MOVED}"
        " UPDATE lines SET pieces = moves(id) WHERE id < 15; COMMIT;", made=PARTED + MOVING,
    ),
    "a MERGE within a trigger": Case(
        "UPDATE orders SET paid = NOT paid WHERE id < 12;", made=PARTED + MOVING + "CREATE FUNCTION fires() RETURNS trigger LANGUAGE plpgsql AS $f$ BEGIN PERFORM moves(NEW.id);"
        " RETURN NULL; END $f$; CREATE TRIGGER fires AFTER UPDATE ON orders FOR EACH ROW EXECUTE FUNCTION fires();",
    ),
    "MERGE that moves rows to other parts": Case(MOVES + ";" + LESS + ";", made=PARTED),
    "MERGE that moves rows and makes some": Case(MOVES + MORE, made=PARTED),
    "MERGE that moves rows and takes some away": Case(LESS + MORE, made=PARTED),
    "MERGE of one part": Case(MOVES.replace("lines USING", "high AS lines USING").replace("(lines.id + 20) % 40", "lines.id + 100") + ";", made=PARTED),
    "MERGE that was prepared": Case(f"PREPARE moves AS {MOVES}; EXECUTE moves; EXECUTE moves; DEALLOCATE moves;", made=PARTED),
    "MERGE within functions": Case(
        "SELECT by_plpgsql(); SELECT by_sql(); SELECT by_text(); UPDATE lines SET id = id + 1 WHERE id > 30;",
        made=PARTED + f"CREATE FUNCTION by_plpgsql() RETURNS void LANGUAGE plpgsql AS $f$ BEGIN {MOVES}; UPDATE lines SET pieces = pieces + 1 WHERE id < 9; END $f$;"
                      f" CREATE FUNCTION by_sql() RETURNS void LANGUAGE sql AS $f$ {LESS}; $f$;"
                      f" CREATE FUNCTION by_text() RETURNS void LANGUAGE plpgsql AS $f$ BEGIN EXECUTE $m${MOVES}{MORE.rstrip(';')}$m$; END $f$;",
    ),
    "MERGE between other statements": Case(
        f"BEGIN; UPDATE lines SET pieces = pieces + 1 WHERE id < 30; SAVEPOINT a; {MOVES}; ROLLBACK TO a; UPDATE lines SET id = id + 15 WHERE id % 3 = 0; {LESS};"
        " UPDATE lines SET id = id + 3 WHERE id % 4 = 0; DELETE FROM lines WHERE id % 7 = 0; INSERT INTO lines VALUES (2, 'product 2', 2);"
        " COPY lines FROM PROGRAM 'printf \"1,product 2,7\\n22,product 3,8\\n\"' (FORMAT csv); COMMIT; UPDATE lines SET id = id + 15 WHERE id % 5 = 0;", made=PARTED,
    ),
    "MERGE beside a trigger that writes on": Case(
        f"{MOVES}; UPDATE lines SET id = id + 20 WHERE id = 6;",
        made=PARTED + "CREATE FUNCTION f() RETURNS trigger LANGUAGE plpgsql AS $f$ BEGIN IF pg_trigger_depth() = 1 THEN UPDATE lines SET id = id + 21 WHERE id = 10;"
                      " INSERT INTO lines VALUES (8, 'product 8', 1); END IF; RETURN NULL; END $f$;"
                      " CREATE TRIGGER z AFTER UPDATE ON lines FOR EACH STATEMENT EXECUTE FUNCTION f();",
    ),
    "COPY to a table in parts": Case("COPY lines FROM PROGRAM 'printf \"1,product 2,7\\n22,product 3,8\\n\"' (FORMAT csv);", made=PARTED),
    "a command that only looks like MERGE": Case("UPDATE lines SET id = id + 15 /* merge */ WHERE id % 3 = 0; DELETE FROM lines WHERE product = 'execute' OR id = 22;"
                                                 " INSERT INTO lines SELECT 9, 'product 9', 3 WHERE 'merge' <> '';", made=PARTED),
}
