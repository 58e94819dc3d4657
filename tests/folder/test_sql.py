"""`sql`: a version in SQLite."""

import csv
import io
import os
import pty
import re
import subprocess
from unittest import mock

import pytest

from whview.folder import sql
from whview.folder.reading import Tables

from .shop import WHVIEW, carried_out, contents


def queried(kept, *words, given="", status=0):
    ended, printed, told = carried_out(["sql", kept.folder, *words], given.encode())
    assert ended == status
    return printed if status == 0 else told


def test_a_query_over_views_is_what_the_night_has_made(kept):
    query = "SELECT day, product, COUNT(*) AS lines, SUM(pieces) AS pieces, SUM(cost) AS cost FROM (SELECT day, product, pieces, cost FROM sales"
    query += ' WHERE "#" = 1 UNION ALL SELECT day, product, pieces, cost FROM sales WHERE "#" > 1) GROUP BY day, product'
    found = {tuple(row[:2]) for row in csv.reader(io.StringIO(queried(kept, query)))}
    with open(kept.folder / "current/views/daily_by_product.csv") as file:
        assert found == {tuple(row[1:3]) for row in csv.reader(file)}
    rows = queried(kept, 'SELECT "#", typeof("#"), typeof(price), typeof(product), price + 1 FROM products WHERE price > 450 ORDER BY price')
    assert rows.splitlines()[1] == "1,integer,integer,text,476"


def test_an_older_version_and_other_forms(kept):
    assert queried(kept, "--version", "0", "SELECT price FROM products WHERE product = 'jam'") == "price\n450\n"
    found = queried(kept, "--format", "json", "SELECT price, NULL AS none FROM products WHERE product = 'jam'")
    assert found == '{"version": 1, "rows": [\n{"price": 475, "none": null}\n]}\n'
    assert "two columns are named a" in queried(kept, "--format", "jsonl", "SELECT 1 AS a, 2 AS a", status=2)


def test_statements_one_after_another(kept):
    given = "CREATE TABLE t(a TEXT); INSERT INTO t VALUES (';'), ('x');\nSELECT a,\n 1 AS b FROM t; -- the last one\nSELECT COUNT(*) AS n FROM orders"
    assert queried(kept, given=given) == "a,b\n;,1\nx,1\nn\n7\n"
    assert queried(kept, given="SELECT 1 AS a; SELECT * FROM t; SELECT 2", status=2) == "SQLite: no such table: t\n"


def test_at_a_terminal_a_fault_ends_nothing(kept):
    own, other = pty.openpty()
    command = [WHVIEW, "folder", "sql", kept.folder]
    with subprocess.Popen(command, stdin=other, stdout=subprocess.PIPE, stderr=subprocess.STDOUT, text=True) as running:
        os.write(own, b"SELECT * FROM none;\nSELECT 1 AS one\n, 2 AS two;\n\x04")
        told = running.communicate(timeout=120)[0]
    os.close(own)
    os.close(other)
    assert "SQLite: no such table: none\n" in told
    assert "one  two\n---  ---\n  1    2\n" in told
    assert running.returncode == 0


def test_nothing_leads_out_of_it(kept):
    before, room = contents(kept.folder), kept.folder.parent
    for query in (
        f"ATTACH '{room}/other.db' AS other", f"VACUUM INTO '{room}/other.db'", "BEGIN", "SAVEPOINT s", "PRAGMA max_page_count = 9",
        "PRAGMA journal_mode = DELETE", "SELECT load_extension('x')",
    ):
        assert re.search("not authorized|denied", queried(kept, query, status=2))
    queried(kept, "DELETE FROM orders")
    assert (contents(kept.folder), (room / "other.db").exists()) == (before, False)


def test_what_there_is_not_is_told(kept):
    assert "there is no version 9" in queried(kept, "SELECT 1", "--version", "9", status=2)
    assert queried(kept, "SELECT 1; SELECT 2", status=2) == "SQLite: You can only execute one statement at a time.\n"
    assert queried(kept, "SELEC 1", status=2) == 'SQLite: near "SELEC": syntax error\n'


def test_a_table_is_read_when_it_is_asked_for(kept):
    database = sql.Database(Tables(kept.folder, 1))
    with mock.patch.object(database, "fill", side_effect=database.fill) as filled:
        database.rows("SELECT COUNT(*) FROM orders o JOIN lines USING (id)")
        database.rows("SELECT 1 FROM orders")
        database.rows("SELECT name FROM sqlite_schema")
    assert [call.args[0] for call in filled.call_args_list] == ["lines", "orders"]


def test_whatever_way_a_table_is_asked_for_its_rows_are_there(kept):
    asked = [
        "SELECT COUNT(*) FROM lines", "SELECT COUNT(*) FROM orders JOIN lines USING (id)", "SELECT COUNT(*) FROM orders NATURAL JOIN lines",
        "SELECT (SELECT COUNT(*) FROM lines)", "SELECT EXISTS (SELECT 1 FROM lines)", "WITH l AS (SELECT * FROM lines) SELECT COUNT(*) FROM l",
        "SELECT 1 IN (SELECT id FROM lines)", "VALUES ((SELECT MAX(rowid) FROM lines))",
    ]
    whole = sql.Database(Tables(kept.folder, 1))
    for name in whole.tables.paths:
        whole.fill(name)
    for query in asked:
        found, wanted = sql.Database(Tables(kept.folder, 1)).rows(query)[1].fetchall(), whole.rows(query)[1].fetchall()
        assert (found, found != [(0,)]) == (wanted, True)
    changed = "DELETE FROM lines", "UPDATE lines SET pieces = 0", "CREATE INDEX i ON lines(id)", "CREATE TABLE t AS SELECT * FROM lines"
    for statement in changed:
        database = sql.Database(Tables(kept.folder, 1))
        database.rows(statement)[1].fetchall()
        assert {"lines"} <= database.filled
    for statement in ("DROP TABLE lines", "ALTER TABLE lines RENAME TO l", "ALTER TABLE lines ADD COLUMN x"):
        with pytest.raises(sql.sqlite3.DatabaseError):
            whole.rows(statement)


def test_a_view_and_a_trigger_ask_for_their_tables(kept):
    database = sql.Database(Tables(kept.folder, 1))
    for statement in (
        "CREATE VIEW v AS SELECT COUNT(*) AS n FROM lines",
        "CREATE TABLE t(a)",
        "CREATE TRIGGER r AFTER INSERT ON t BEGIN UPDATE t SET a = (SELECT COUNT(*) FROM orders); END",
        "INSERT INTO t VALUES (1)",
    ):
        database.rows(statement)[1].fetchall()
    assert database.rows("SELECT n, a FROM v, t")[1].fetchall() == [(9, 7)]


def test_room_and_memory_are_bounded(kept):
    with mock.patch.object(sql, "MOST", 2**18):
        database = sql.Database(Tables(kept.folder, 1))
    with pytest.raises(sql.Failure) as full:
        sql.carry_out(database, "CREATE TABLE t AS SELECT randomblob(1000000)", "csv", 1)
    assert (full.value.status, full.value.lines) == (5, ("SQLite: database or disk is full",))
    database = sql.Database(Tables(kept.folder, 1))
    with pytest.raises(sql.Failure) as memory:
        sql.carry_out(database, "SELECT length(zeroblob(900000000) || 'x') AS n", "csv", 1)
    assert memory.value.status == 4


def test_the_version_is_held(kept):
    kept.more()
    command = [WHVIEW, "folder", "sql", kept.folder, "--version", "1"]
    with subprocess.Popen(command, stdin=subprocess.PIPE, stdout=subprocess.PIPE, text=True) as running:
        running.stdin.write("SELECT 1 AS a;\nSELECT 2 AS b;\n")
        running.stdin.flush()
        assert running.stdout.readline() == "a\n"
        kept.more(b"#,id,day,region\n1,9,Friday,south\n", "--keep", "1")
        running.stdin.write("SELECT COUNT(*) AS n FROM orders;\n")
        found = running.communicate(timeout=120)[0]
    assert (found[-4:], kept.versions()) == ("n\n7\n", ["1", "3"])
