"""Tests of views of files of SQLite: of which kinds columns are, what is kept of values and read back, names, affinities, and what a script holds."""

import random
import sqlite3
import struct
from argparse import Namespace
from contextlib import closing

import pytest

from whview.sql.capture.database import SQLiteAsked
from whview.sql.capture.sqlite import LiveSQLite
from whview.sql.capture.turned import Told
from whview.sql.command import complete
from whview.sql.tokens import Unfit
from whview.views import take, tree, written
from whview.views.sqlite.file import TakingStored
from whview.views.sqlite.folded import folded, in_quotes
from whview.views.sqlite.kinds import judged
from whview.views.sqlite.reading import affinity_of
from whview.views.sqlite.stored import StoredWords, affinity, kind_of
from whview.views.sqlite.unnamed import Named
from whview.views.sqlite.whole import whole

TABLES = """
CREATE TABLE People (Id INTEGER PRIMARY KEY, name TEXT NOT NULL, [home town] VARCHAR(20), born DATE, height REAL, nick TEXT COLLATE NOCASE);
CREATE TABLE tickets (id INTEGER PRIMARY KEY, owner INT, hours DECIMAL(6,2), opened DATETIME, epoch INTEGER, free, UNIQUE (owner, opened));
CREATE TABLE counted (a INTEGER);
CREATE VIEW below AS SELECT owner, hours FROM tickets WHERE owner > 1;
"""
TYPES = {"t": {"i": "INTEGER", "n": "DECIMAL(6,2)", "s": "VARCHAR(3)", "r": "DOUBLE", "b": "BLOB"}}


@pytest.fixture
def file(tmp_path):
    """A file with tables."""
    with closing(sqlite3.connect(tmp_path / "live.db")) as database:
        database.executescript(TABLES)
    return tmp_path / "live.db"


def with_view(file, query, name="v"):
    """The file with a view more."""
    with closing(sqlite3.connect(file)) as database:
        database.execute(f"CREATE VIEW {name} AS {query}")
    return file


def taking_of(file, names=("v",)):
    """Its views, taken apart, and what they are taken apart into."""
    taking = TakingStored(SQLiteAsked(str(file), LiveSQLite()), "wh_")
    return taking, taking.taken(taking.chosen(names))


def taken(file, query):
    """What a view is taken apart into."""
    taking, found = taking_of(with_view(file, query))
    assert not taking.refused, taking.refused[0].told()
    return found


def kept_and_read(kind, value, column):
    """What is kept of a value, and what is read of that."""
    how = StoredWords().encoding(judged(kind, True))
    with closing(sqlite3.connect(":memory:")) as database:
        database.execute(f"CREATE TABLE t (x {column})")
        database.execute("INSERT INTO t VALUES (?)", (value,))
        said = tree.printed(tree.expression(how.kept("r.x")))
        (kept,) = database.execute(f"SELECT {said} FROM t AS r").fetchone()
        again = tree.printed(tree.expression(how.read("k.x")))
        return kept, database.execute(f"SELECT {again} FROM (SELECT ? AS x) AS k", (kept,)).fetchone()[0]


def told(declared, digits=None, places=None, is_folded=False, form=None):
    return Told("x", declared, declared, digits, places, True, is_folded, form=form)


@pytest.mark.parametrize(("column", "name", "shown"), [
    (told("BIGINT"), "integer", "integer"), (told("BOOLEAN"), "integer", "integer"), (told("VARCHAR(9)"), "text", "text"), (told("DECIMAL(6,2)", 6, 2), "numeric", "numeric(6,2)"),
    (told("DECIMAL(18,2)", 18, 2), "real", "real"), (told("NUMERIC"), "real", "real"), (told("DOUBLE"), "real", "real"), (told("DATE"), "date", "date"),
    (told("DATETIME", form="0000-00-00 00:00:00"), "timestamp", "timestamp"), (told("DATETIME", form="a number"), "integer", "integer"),
    (told("BLOB"), "BLOB", "BLOB"), (told(""), "no type", "no type"), (told("STRING"), "STRING", "STRING"),
])
def test_kinds_of_columns(column, name, shown):
    assert (kind_of(column).name, kind_of(column).shown) == (name, shown)


def test_a_text_in_a_collation_of_its_own_is_of_no_kind_that_is_kept():
    kind = kind_of(told("TEXT", is_folded=True))
    assert not kind.is_text and StoredWords().encoding(judged(kind, True)) is None


def test_days_are_loose_where_their_column_has_numbers():
    assert kind_of(told("DATE")).is_loose and not kind_of(told("DATE TEXT")).is_loose


@pytest.mark.parametrize(("declared", "found"), [
    ("", ""), ("INT", "INTEGER"), ("POINT", "INTEGER"), ("CHARINT", "INTEGER"), ("VARCHAR(3)", "TEXT"), ("BLOB", ""), ("FLOAT", "REAL"), ("DECIMAL(3,1)", "NUMERIC"), ("DATE", "NUMERIC"),
])
def test_affinities_as_sqlite_has_them(declared, found):
    assert affinity(declared) == found


@pytest.mark.parametrize(("value", "kept"), [(None, -(2**63)), (12.5, 1250), (12, 1200), (-0.07, -7), (0, 0), (0.1 + 0.2, "not of 2 places: 0.3"), (10**14, "beyond 100000000000000"), ("x", "x")])
def test_decimals_are_kept_in_units_and_read_as_they_were(value, kept):
    numeric = kind_of(told("DECIMAL(6,2)", 6, 2))
    found, again = kept_and_read(numeric, value, "DECIMAL(6,2)")
    assert found == kept
    if not isinstance(kept, str):
        assert (type(again), again) == (type(value), value)


@pytest.mark.parametrize(("declared", "value"), [
    ("REAL", 0.1), ("REAL", 2.0), ("REAL", 0.0), ("REAL", -1e-300), ("REAL", 123456789.123456789), ("NUMERIC", 5), ("NUMERIC", 2**60 + 1), ("NUMERIC", 1.25), ("NUMERIC", 1e300), ("REAL", None),
])
def test_numbers_of_any_width_are_read_as_they_were(declared, value):
    _, again = kept_and_read(kind_of(told(declared)), value, declared)
    assert (type(again), again) == (type(value), value)


def test_a_real_is_read_to_the_bit_or_is_kept_as_none():
    source = random.Random(7)
    for value in (struct.unpack("<d", struct.pack("<Q", source.getrandbits(64)))[0] for _ in range(300)):
        kept, again = kept_and_read(kind_of(told("REAL")), value, "REAL")
        assert isinstance(kept, bytes) or value != value or again == value


@pytest.mark.parametrize(("declared", "value"), [("REAL", float("inf")), ("REAL", "x"), ("NUMERIC", b"x")])
def test_what_is_no_number_is_kept_as_none(declared, value):
    kept, _ = kept_and_read(kind_of(told(declared)), value, declared)
    assert isinstance(kept, bytes)


def test_names_are_in_small_letters_and_texts_stay():
    said = tree.printed(folded(tree.parsed("SELECT P.\"Id\", 'Ada' AS \"Who\" FROM \"People\" AS \"P\" JOIN q USING (\"Id\")")))
    assert said == "SELECT p.id, 'Ada' AS who FROM people AS p INNER JOIN q USING (id)"


def test_names_in_brackets_stand_in_quotes_where_they_are_names():
    assert in_quotes("SELECT [a b], `c`, '[x]', \"[y]\" -- [z]\n") == 'SELECT "a b", "c", \'[x]\', "[y]" -- [z]\n'


@pytest.mark.parametrize(("shown", "found"), [
    ("t.i", "INTEGER"), ("t.n", "NUMERIC"), ("t.s", "TEXT"), ("t.b", ""), ("t.i + 1", ""), ("max(t.i)", ""), ("CAST(t.i AS text)", "TEXT"), ("q.x", "REAL"), ("(SELECT t.s FROM main.t AS t)", "TEXT"),
])
def test_affinities_of_outputs(shown, found):
    assert affinity_of(tree.parsed(f"SELECT {shown} FROM main.t AS t, (SELECT u.r AS x FROM main.t AS u) AS q"), 0, TYPES) == found


def test_only_what_is_read_is_mirrored(file):
    found = taken(file, "SELECT owner, count(*) AS n FROM tickets WHERE hours > 2 GROUP BY owner")
    assert [(each.name, [column.name for column in each.columns]) for each in found.mirrors] == [("tickets", ["id", "x1", "owner"])]
    assert [(each.is_summary, each.outputs) for each in found.kept] == [(True, [("g1", "tickets.owner")])]


def test_a_view_over_a_view_is_over_its_tables(file):
    assert [each.name for each in taken(file, "SELECT sum(hours) AS h FROM BELOW").mirrors] == ["tickets"]


def test_a_function_of_time_is_of_no_text_that_means_now(file):
    columns = taken(file, "SELECT date(opened) AS d, count(*) AS n FROM tickets GROUP BY date(opened)").mirrors[0].columns
    assert any("lower(r.opened) = 'now'" in each.expression for each in columns)


def test_conditions_are_computed_as_rows_come_also_over_sums(file):
    (kept,) = taken(file, "SELECT owner, count(*) AS n FROM tickets WHERE owner * 2 + id > 7 GROUP BY owner").kept
    assert kept.where == [["=", "tickets.x1", 1]]


def test_sums_of_decimals_know_whether_one_has_places(file):
    (read,) = taken(file, "SELECT owner, sum(hours) AS h, sum(hours * 1.5) AS m FROM tickets GROUP BY owner").reads
    assert "/ 100.0" in read.query and "/ 1000.0" in read.query and "/ 100)" in read.query.replace("/ 100 ", "/ 100)")


@pytest.mark.parametrize(("query", "why"), [
    ("SELECT nick FROM people", "of which nights keep no values"), ("SELECT CAST(nick AS text) AS n FROM people", "by whose collation"),
    ("SELECT free FROM tickets", "of which nights keep no values"), ("SELECT sum(height) AS h FROM people", "depends on their order"),
    ("SELECT id FROM tickets WHERE opened > '2026'", "looks like a number"), ("SELECT id FROM tickets WHERE opened = free || ''", "cast both to text"),
    ("SELECT id FROM people WHERE born IN (SELECT name FROM people)", "cast both to text"), ("SELECT id FROM people WHERE name IS nick", "the parser says"),
])
def test_what_is_refused(file, query, why):
    taking, _ = taking_of(with_view(file, query))
    assert len(taking.refused) == 1 and why in taking.refused[0].told() and taking.refused[0].told().startswith("v, line 1, column ")


def test_a_fault_of_a_view_below_has_its_place_there(file):
    with_view(file, "SELECT owner,\n  sum(id) OVER (ORDER BY random()) AS r FROM tickets", "strange")
    taking, _ = taking_of(with_view(file, "SELECT r FROM strange"))
    assert taking.refused[0].told().startswith("strange, line 2, column ")


def words(file, folder, **said):
    """The words of a command."""
    return complete(Namespace(**{"engine": "sqlite", "database": str(file), "path": str(folder), **said}))


def carried(file, lines):
    """Has a file carry a script out."""
    with closing(sqlite3.connect(file, isolation_level=None)) as database:
        database.executescript("\n".join(lines))


def test_a_script_makes_what_is_read(file, tmp_path):
    carried(file, ["INSERT INTO tickets (id, owner, hours) VALUES (1, 1, 1.5), (2, 2, 3), (3, 2, 4);"])
    with_view(file, "SELECT owner, sum(hours) AS h, hours FROM tickets GROUP BY owner, hours ORDER BY owner DESC")
    carried(file, take.taken(words(file, tmp_path / "kept", views="V, below")))
    with closing(sqlite3.connect(file)) as database:
        assert database.execute("SELECT * FROM wh_v").fetchall() == [(2, 3, 3), (2, 4, 4), (1, 1.5, 1.5)]
        assert [row[1:3] for row in database.execute("PRAGMA table_info(wh_v)")] == [("owner", "INT"), ("h", ""), ("hours", "DECIMAL(6,2)")]
        assert database.execute("SELECT count(*) FROM wh_below WHERE owner = '2'").fetchone() == (2,)
    assert written.former(tmp_path / "kept", "wh") == ["v", "below"]


@pytest.mark.parametrize(("said", "why"), [
    ({"views": "nobody"}, "there is none in the file"), ({"views": "below", "role": "r"}, "--engine postgresql"), ({"views": "below", "source": "public"}, "--engine postgresql"),
    ({"views": ""}, "--views says which"), ({"views": "below", "engine": "clickhouse"}, "--engine postgresql or sqlite"),
])
def test_words_that_do_not_go_with_a_file(file, tmp_path, said, why):
    with pytest.raises(Unfit, match=why):
        take.taken(words(file, tmp_path / "kept", **said))
    assert not (tmp_path / "kept").exists()


def test_what_others_have_made_stays(file, tmp_path):
    with_view(file, "SELECT 1 AS one", "wh_below")
    with pytest.raises(Unfit, match="did not make: drop it"):
        take.taken(words(file, tmp_path / "kept", views="below"))


@pytest.mark.parametrize(("said", "found"), [
    ("SELECT q.a FROM (SELECT 1 AS a) AS q", "SELECT q.a FROM (SELECT 1 AS a) AS q"),
    ("SELECT q.a FROM (SELECT 1 AS a) AS q, t", "SELECT q.a FROM (SELECT 1 AS a LIMIT -1) AS q, t"),
    ("SELECT q.a FROM t LEFT JOIN (SELECT 1 AS a LIMIT 3) AS q ON q.a = t.a", "SELECT q.a FROM t LEFT JOIN (SELECT 1 AS a LIMIT 3) AS q ON q.a = t.a"),
    ("SELECT 1 FROM t WHERE EXISTS (SELECT 1 FROM (SELECT 1 AS a) AS q WHERE q.a = t.a)", "SELECT 1 FROM t WHERE EXISTS (SELECT 1 FROM (SELECT 1 AS a LIMIT -1) AS q WHERE q.a = t.a)"),
])
def test_what_is_joined_is_carried_out_by_itself(said, found):
    assert tree.printed(whole(tree.parsed(said))) == found


def test_views_that_are_given_in_a_file_are_read_as_their_text_says(file, tmp_path):
    carried(file, ["INSERT INTO tickets (id, owner, hours) VALUES (1, 1, 1.5), (2, 2, 3), (3, 2, 4);"])
    (tmp_path / "more.sql").write_text("-- zwei, für später\nCREATE VIEW Busy AS SELECT owner, count(*) AS n FROM below GROUP BY 1;\nCREATE VIEW most (m) AS SELECT max(n) FROM (SELECT n FROM busy);\nCREATE VIEW Least AS SELECT min(n) AS m FROM busy;\n")
    for _ in range(2):
        carried(file, take.taken(words(file, tmp_path / "kept", views=f"{tmp_path / 'more.sql'},below")))
    with closing(sqlite3.connect(file)) as database:
        assert [database.execute(f"SELECT * FROM wh_{each}").fetchall() for each in ("busy", "most", "least")] == [[(2, 2)], [(2,)], [(2,)]]
        assert [row[1:3] for row in database.execute("PRAGMA table_info(wh_busy)")] == [("owner", "INT"), ("n", "")]


@pytest.mark.parametrize(("content", "why"), [
    ("CREATE VIEW a AS\nSELECT random() AS r FROM tickets;", "a, line 2, column 8: random cannot be kept"), ("CREATE TABLE a (b int);", "CREATE VIEW alone"),
    ("CREATE VIEW a AS SELECT 1 IS 2", "the parser says"), ("CREATE VIEW below AS SELECT 1 AS one", "of this name in the file"), ("CREATE VIEW a AS SELECT nobody FROM tickets", "no such column"),
])
def test_what_is_refused_of_views_that_are_given(file, tmp_path, content, why):
    (tmp_path / "more.sql").write_text(content)
    with pytest.raises(Unfit, match=why):
        take.taken(words(file, tmp_path / "kept", views=str(tmp_path / "more.sql")))


@pytest.mark.parametrize(("said", "found"), [
    ("SELECT n FROM (SELECT 1 AS n) WHERE n IN (1, (SELECT 2))", "SELECT n FROM (SELECT 1 AS n) AS unnamed1_1 WHERE n IN (1, (SELECT 2))"),
    ("SELECT (SELECT 1), 2 FROM t JOIN (SELECT 1 AS id -- ) of them\n) USING (id), (VALUES (1)) LEFT JOIN (SELECT 2) AS b",
     "SELECT (SELECT 1), 2 FROM t JOIN (SELECT 1 AS id -- ) of them\n) AS unnamed1_1 USING (id), (VALUES (1)) AS unnamed1_2 LEFT JOIN (SELECT 2) AS b"),
    ("SELECT * FROM (t JOIN (SELECT 1) ON a IS NOT DISTINCT FROM (SELECT 3)) UNION SELECT * FROM (SELECT unnamed1 FROM (SELECT 1) q) q",
     "SELECT * FROM (t JOIN (SELECT 1) AS unnamed2_1 ON a IS NOT DISTINCT FROM (SELECT 3)) UNION SELECT * FROM (SELECT unnamed1 FROM (SELECT 1) q) q"),
    ("SELECT time(a), CAST(b AS time(3)), TimeStamp (c), time FROM (SELECT 1)", "SELECT \"time\"(a), CAST(b AS time(3)), \"TimeStamp\" (c), time FROM (SELECT 1) AS unnamed1_1"),
])
def test_a_query_without_a_name_gets_one(said, found):
    assert Named(said).text == found


@pytest.mark.parametrize("query", [
    "SELECT id FROM tickets WHERE opened <= CURRENT_TIMESTAMP AND date(opened) <> CURRENT_DATE", "SELECT id, time(opened) AS t FROM tickets",
    "SELECT id FROM tickets WHERE (owner, id) IN (SELECT owner, max(id) FROM tickets GROUP BY owner)",
])
def test_what_people_write_of_moments_and_rows_is_taken(file, query):
    assert taken(file, query).reads


def test_places_behind_a_query_without_a_name_are_those_of_the_text(file):
    text = "SELECT é.n, random() AS r FROM (SELECT count(*) AS n FROM (SELECT id FROM people)) é, (SELECT owner FROM tickets) WHERE random() > 0"
    taking, _ = taking_of(with_view(file, text.replace("random() AS r", "1 AS r")))
    place = taking.texts["v"].text.index("random()")
    assert taking.refused[0].location == place and "random" in taking.refused[0].told()


@pytest.mark.parametrize("query", [
    "WITH a AS (SELECT id FROM tickets), b AS (SELECT id FROM a) SELECT id FROM b", "WITH RECURSIVE a AS (SELECT id FROM tickets) SELECT id FROM a",
])
def test_a_query_with_a_name_that_reads_none_behind_it_is_taken(file, query):
    assert taken(file, query).reads


@pytest.mark.parametrize("query", [
    "WITH tickets AS (SELECT id FROM counted_ones), counted_ones AS (SELECT a AS id FROM counted) SELECT id FROM tickets",
    "WITH r AS (SELECT 1 AS n UNION ALL SELECT n + 1 FROM r WHERE n < 3) SELECT n FROM r",
])
def test_a_query_with_a_name_that_reads_one_behind_it_is_refused(file, query):
    taking, _ = taking_of(with_view(file, query))
    assert "reads itself or one behind it" in taking.refused[0].told()


def test_an_order_may_have_a_collation(file):
    carried(file, ["INSERT INTO people (id, name) VALUES (1, 'b'), (2, 'A'), (3, 'C');"])
    with_view(file, "SELECT upper(name) AS name, id FROM people ORDER BY name COLLATE NOCASE DESC LIMIT 2")
    carried(file, take.taken(words(file, file.parent / "kept", views="v")))
    with closing(sqlite3.connect(file)) as database:
        assert database.execute("SELECT * FROM wh_v").fetchall() == [("C", 3), ("B", 1)]


def test_seconds_of_moments_are_computed_as_rows_come(file):
    columns = taken(file, "SELECT unixepoch(opened) / 3600 AS hour, count(*) AS n FROM tickets GROUP BY 1").mirrors[0].columns
    assert any("unixepoch(r.opened) / 3600" in each.expression and "'now'" in each.expression for each in columns)
