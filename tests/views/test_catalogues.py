"""Tests of catalogues in SQL: what they declare, how queries are spelled out, of which kind expressions are, and what is refused."""

import sqlite3
from contextlib import closing

import pytest

from whview.folder.declared.cells import Unlike, cell_of, value_of
from whview.folder.declared.said import Column
from whview.views import tree
from whview.views.refused import Refused
from whview.views.sqlite.declared import declared
from whview.views.sqlite.spelled import Spelled
from whview.views.sqlite.taking import TakingDeclared

TABLES = """CREATE TABLE people (id integer PRIMARY KEY, name text NOT NULL, town text, born date);
CREATE TABLE tickets (id bigint PRIMARY KEY, owner integer, hours numeric(6,2), opened timestamp NOT NULL) WITH (null = 'NA');
"""
COLUMNS = {"people": ["id", "name", "town", "born"], "tickets": ["id", "owner", "hours", "opened"]}


def taken(query):
    """What a view is taken apart into."""
    taking = TakingDeclared(declared(f"{TABLES}CREATE VIEW v AS {query};"))
    found = taking.taken()
    if taking.refused:
        raise taking.refused[0]
    return found


def spelled(query):
    """A query, spelled out."""
    return tree.printed(Spelled(COLUMNS).query(tree.parsed(query)))


def test_tables_have_kinds_keys_and_a_word_for_null():
    people, tickets = declared(TABLES).tables
    assert [(each.name, each.kind.name, each.is_filled) for each in people.columns] == [
        ("id", "integer", True), ("name", "text", True), ("town", "text", False), ("born", "date", False),
    ]
    assert (people.key, people.null, tickets.null) == (("id",), "", "NA")
    assert tickets.columns[2].kind.shown == "numeric(6,2)"


@pytest.mark.parametrize(("text", "why"), [
    ("CREATE TABLE t (a numeric(16,2));", "15 digits"),
    ("CREATE TABLE t (a float);", "its kind is none of"),
    ("CREATE TABLE t (a integer UNIQUE);", "PRIMARY KEY"),
    ("CREATE TABLE t (a integer); CREATE TABLE T (b integer);", "of this name above"),
    ("CREATE TABLE sqlite_t (a integer);", "does not begin with"),
    ("DROP TABLE t;", "CREATE TABLE and CREATE VIEW alone"),
    ("CREATE VIEW v AS SELECT a IS b FROM t;", "the parser says"),
])
def test_what_a_catalogue_may_not_declare(text, why):
    with pytest.raises(Refused, match=why):
        declared(text)


@pytest.mark.parametrize(("query", "found"), [
    ("SELECT * FROM people p", "SELECT p.id, p.name, p.town, p.born FROM main.people AS p"),
    ("SELECT town AS t, count(*) AS n FROM people GROUP BY 1 ORDER BY n", "SELECT town AS t, count(*) AS n FROM main.people GROUP BY town ORDER BY count(*)"),
    ("SELECT 2 AS a, count(*) AS n FROM people GROUP BY 1 ORDER BY a", "SELECT 2 AS a, count(*) AS n FROM main.people GROUP BY CAST(2 AS bigint) ORDER BY CAST(2 AS bigint)"),
    ("SELECT trim(name) AS n FROM people", "SELECT ltrim(rtrim(name)) AS n FROM main.people"),
    ("SELECT id FROM people WHERE \"time\"(born, '1 hour') > \"time\"()",
     "SELECT id FROM main.people WHERE strftime('%H:%M:%S', born, '1 hour') > strftime('%H:%M:%S', 'now')"),
    ("SELECT id, owner FROM people p NATURAL JOIN tickets t", "SELECT id, owner FROM main.people AS p INNER JOIN main.tickets AS t USING (id)"),
    ("SELECT count(*) AS n FROM people p NATURAL JOIN (SELECT 1 AS one) q", "SELECT count(*) AS n FROM main.people AS p CROSS JOIN (SELECT 1 AS one) AS q"),
    ("WITH b (a, n) AS (SELECT town, count(*) FROM people GROUP BY 1) SELECT a FROM b",
     "WITH b(a, n) AS (SELECT town AS a, count(*) AS n FROM main.people GROUP BY town) SELECT a FROM b"),
    ("SELECT p.id FROM people p JOIN tickets t USING (id)", "SELECT p.id FROM main.people AS p INNER JOIN main.tickets AS t USING (id)"),
])
def test_queries_are_spelled_out(query, found):
    assert spelled(query) == found


def test_a_name_in_an_order_means_an_output_before_a_column_and_in_a_group_after_it():
    said = spelled("SELECT upper(name) AS name, count(*) AS n FROM people GROUP BY name ORDER BY name")
    assert said.endswith("GROUP BY name ORDER BY upper(name)")


@pytest.mark.parametrize(("expression", "kind"), [
    ("hours * 2", "numeric(18,2)"), ("hours * 1.25", "numeric(18,4)"), ("hours / 2", "real"), ("owner / 2", "integer"), ("owner > 2", "boolean"),
    ("date(opened)", "date"), ("coalesce(hours, 0)", "numeric(6,2)"), ("owner || 'x'", "text"), ("max(owner, 2)", "integer"), ("opened", "timestamp"),
])
def test_kinds_of_expressions(expression, kind):
    (read,) = taken(f"SELECT {expression} AS x FROM tickets").reads
    assert [each.type for each in read.columns] == [kind]


def test_what_never_fails_is_computed_as_rows_come_and_all_else_as_they_are_read():
    columns = {each.expression for each in taken("SELECT lower(town) AS t, id + 1 AS i, date(born) AS d FROM people").mirrors[0].columns}
    assert any("lower(r.town)" in each for each in columns) and any("date(r.born)" in each for each in columns)
    assert not any("+" in each for each in columns)


def test_what_depends_on_now_is_computed_as_it_is_read():
    found = taken("SELECT date('now') AS today, strftime('%Y', name) AS y, date(born, '1 day') AS next FROM people")
    expressions = [each.expression for each in found.mirrors[0].columns]
    assert not any("now" in each or "strftime" in each for each in expressions) and any("date(r.born, '1 day')" in each for each in expressions)


@pytest.mark.parametrize(("query", "why"), [
    ("SELECT id FROM people WHERE id = '1'", "affinity"),
    ("SELECT id FROM people WHERE id IN (SELECT name FROM people)", "compares integer with text"),
    ("SELECT id FROM people WHERE 0 = (name LIKE 'a')", "parentheses"),
    ("SELECT town, name FROM people GROUP BY town", "any row's value"),
    ("SELECT name, count(*) AS n FROM people ORDER BY id", "any row's value"),
    ("SELECT avg(hours / 3) AS a FROM tickets", "order"),
    ("SELECT id, id FROM people", "two columns have this name"),
    ("SELECT id FROM people p JOIN LATERAL (SELECT 1 AS one) q ON TRUE", "SQLite has none of this kind"),
])
def test_what_is_refused_of_a_view(query, why):
    with pytest.raises(Refused, match=why):
        taken(query)


@pytest.mark.parametrize(("sides", "why"), [
    (("owner", "hours"), "line 4, column 8: a set cannot be kept: one side of it is integer, and the other one numeric(6,2); cast both to integer, or both to real"),
    (("hours", "hours * 1.5"), "numeric(6,2), and the other one numeric(18,3)"), (("hours", "hours / 2"), "numeric(6,2), and the other one real"),
    (("owner > 2", "owner"), "boolean, and the other one integer"), (("id, owner", "id, hours"), "line 4, column 12: a set"),
])
@pytest.mark.parametrize("sign", ["UNION", "UNION ALL", "INTERSECT", "EXCEPT"])
def test_sides_of_a_set_are_of_one_kind_of_number(sign, sides, why):
    with pytest.raises(Refused) as refused:
        taken(f"SELECT {sides[0]} AS x FROM tickets {sign}\nSELECT {sides[1]} AS x FROM tickets")
    assert why in refused.value.told()


@pytest.mark.parametrize(("sides", "kind"), [
    (("id", "owner"), "integer"), (("hours", "hours + 0.50"), "numeric(6,2)"), (("owner * 1.00", "hours"), "numeric(6,2)"), (("hours / 3", "hours / 2"), "real"),
    (("CAST(owner AS real)", "CAST(hours AS real)"), "real"), (("NULL", "hours"), "numeric(6,2)"), (("id", "NULL"), "integer"),
])
def test_sides_of_one_kind_are_taken(sides, kind):
    (read,) = taken(f"SELECT {sides[0]} AS x FROM tickets UNION SELECT {sides[1]} FROM tickets").reads
    assert [each.type for each in read.columns] == [kind]


@pytest.mark.parametrize("query", [
    "SELECT 'a' AS k, t.id FROM people p FULL JOIN tickets t ON\n t.owner = p.id UNION ALL SELECT 'b', id FROM people",
    "SELECT 'b' AS k, id FROM people UNION ALL SELECT q.k, q.id FROM (SELECT 'a' AS k, t.id FROM people p FULL JOIN tickets t ON\n t.owner = p.id) q",
])
def test_a_full_join_within_a_set_is_refused(query):
    with pytest.raises(Refused) as refused:
        taken(query)
    assert refused.value.told().startswith("v, line 4, column 2: FULL JOIN") and refused.value.told().endswith("by UNION ALL and NOT EXISTS")


def test_what_is_said_in_the_place_of_a_full_join_is_taken():
    assert taken(
        "SELECT 'a' AS k, t.id FROM people p LEFT JOIN tickets t ON t.owner = p.id UNION ALL"
        " SELECT 'a', t.id FROM tickets t WHERE NOT EXISTS (SELECT 1 FROM people p WHERE t.owner = p.id) UNION ALL SELECT 'b', id FROM people"
    ).reads


@pytest.mark.parametrize("query", [
    "SELECT id FROM people UNION SELECT owner FROM tickets UNION ALL SELECT id FROM tickets", "SELECT id FROM people INTERSECT SELECT owner FROM tickets EXCEPT SELECT 1",
    "SELECT q.id FROM (SELECT id FROM people UNION SELECT 1 UNION SELECT owner FROM tickets) q JOIN tickets t ON t.id = q.id",
])
def test_sets_are_carried_out_from_left_to_right(query):
    (read,) = taken(query).reads
    assert "AS s UNION" in read.query or "AS s EXCEPT" in read.query


def test_a_later_set_that_comes_first_is_refused():
    with pytest.raises(Refused, match="from left to right; have the later one in a FROM"):
        taken("SELECT id FROM people UNION SELECT owner FROM tickets INTERSECT SELECT id FROM tickets")
    assert taken("SELECT id FROM people UNION SELECT * FROM (SELECT owner FROM tickets INTERSECT SELECT id FROM tickets) AS q").reads


def test_a_set_within_a_full_join_is_taken():
    assert taken("SELECT q.id, t.hours FROM (SELECT id FROM people UNION SELECT owner FROM tickets) q FULL JOIN tickets t ON t.owner = q.id").reads


def test_a_refusal_has_its_place_in_the_catalogue():
    with pytest.raises(Refused) as refused:
        taken("SELECT id,\n  nobody FROM people")
    assert refused.value.told().startswith("v, line 4, column 3: ")


@pytest.mark.parametrize(("cell", "kind", "value", "again"), [
    ("12.5", Column("c", "numeric", 6, 2), 12.5, "12.50"), ("NA", Column("c", "integer"), None, "NA"), ("yes", Column("c", "boolean"), 1, "true"),
    ("2026-01-02T03:04:05.5", Column("c", "timestamp"), "2026-01-02 03:04:05.500000", "2026-01-02 03:04:05.500000"), ("", Column("c", "text"), "", ""),
    ("2024-02-29", Column("c", "date"), "2024-02-29", "2024-02-29"), ("-7", Column("c", "integer"), -7, "-7"),
])
def test_cells_are_values_of_their_kinds_and_come_again(cell, kind, value, again):
    found = value_of(cell, kind, "NA")
    assert found == value and cell_of(found, kind, "NA") == again


@pytest.mark.parametrize(("cell", "column"), [
    ("12.345", Column("c", "numeric", 6, 2)), ("12345.6", Column("c", "numeric", 6, 2)), ("-9223372036854775808", Column("c", "integer")), ("1e3", Column("c", "integer")),
    ("2026-02-29", Column("c", "date")), ("maybe", Column("c", "boolean")), ("2026-01-01", Column("c", "timestamp")), ("NA", Column("c", "integer", is_filled=True)),
])
def test_cells_of_another_kind(cell, column):
    with pytest.raises(Unlike):
        value_of(cell, column, "NA")


def test_an_empty_cell_of_a_text_that_is_always_there_is_an_empty_text():
    assert value_of("", Column("c", "text", is_filled=True), "") == "" and value_of("", Column("c", "text"), "") is None


@pytest.mark.parametrize("query", [
    "SELECT sum(id) OVER (ORDER BY random()) AS s FROM people", "SELECT id, count(*) OVER w AS n FROM people WINDOW w AS (PARTITION BY random())",
    "SELECT id FROM people ORDER BY id LIMIT random()",
])
def test_what_varies_is_refused_wherever_it_stands(query):
    with pytest.raises(Refused, match="no function that is known"):
        taken(query)


@pytest.mark.parametrize("query", ["SELECT date(opened, 'LOCALTIME') AS d FROM tickets", "SELECT strftime('%Y', opened, 'Utc') AS y FROM tickets"])
def test_what_depends_on_a_zone_is_computed_as_it_is_read_however_that_is_written(query):
    expressions = [each.expression for mirror in taken(query).mirrors for each in mirror.columns]
    assert not any(word in each for each in expressions for word in ("LOCALTIME", "Utc"))


@pytest.mark.parametrize(("shown", "found"), [("min(2, 2.0)", 2.0), ("max(2, 2.0)", 2), ("min(1, 2)", 1), ("max(1, 2)", 2), ("max(1, NULL)", None), ("min(NULL, 1)", None)])
def test_the_lesser_of_two_is_the_one_that_sqlite_takes(shown, found):
    with closing(sqlite3.connect(":memory:")) as database:
        said = tree.printed(Spelled(COLUMNS).query(tree.parsed(f"SELECT {shown} AS x")))
        rows = [database.execute(each).fetchone()[0] for each in (said, f"SELECT {shown} AS x")]
    assert [(type(each), each) for each in rows] == [(type(found), found)] * 2
