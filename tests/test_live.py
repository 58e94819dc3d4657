"""Tests of what is made of an application's tables without a database: columns that are turned, views that are read, keys that follow."""

import json
import re
import sqlite3
import subprocess
from pathlib import Path
from tempfile import TemporaryDirectory
from types import SimpleNamespace

import pytest

from upkeep.words import ROOT
from whview.catalogue.nulls import left_out, references
from whview.sql.capture.compared import Digest
from whview.sql.capture.database import Table
from whview.sql.capture.log import slot_part
from whview.sql.capture.measured import Step, fitted, measured, steps_of
from whview.sql.capture.merge import MergeScript
from whview.sql.capture.parsed import NotTaken, parsed
from whview.sql.capture.postgresql import LivePostgreSQL
from whview.sql.capture.proposed import Proposed
from whview.sql.capture.selected import Column, Compared, Computed, Every, IsNull, Not, Number, Some, Text
from whview.sql.capture.sizes import Past, within
from whview.sql.capture.sqlite import LiveSQLite
from whview.sql.capture.turned import Told, Unturned, literal_apart, of_postgresql, of_sqlite
from whview.sql.catalogue import Catalogue
from whview.sql.keys import Keys
from whview.sql.shape import Shape
from whview.sql.steps import Steps
from whview.sql.tokens import Unfit

KEYED = """@catalogue
[[view]]
name = "sales"
columns = ["id", "shop", "pieces"]
key = ["id"]
[[view]]
name = "shops"
columns = ["shop", "region:text"]
{}
[[view]]
name = "sold"
over = ["sales", "shops"]
join = [["sales.shop", "shops.shop"]]
keep = [["region", "shops.region"], ["id", "sales.id"]]
[[view]]
name = "by_region"
over = ["sold"]
group = [["region", "sold.region"]]
count = "n"
"""


def keys(of_shops):
    catalogue = Catalogue(KEYED.format(of_shops))
    return Keys(catalogue, Shape(catalogue.views)).found


def test_columns_that_are_not_turned():
    for told in (Told("x", "double precision", "float8", None, None, False), Told("x", "numeric", "numeric", None, None, False),
                 Told("x", "numeric(20,2)", "numeric", 20, 2, False), Told("x", "jsonb", "jsonb", None, None, True)):
        assert isinstance(of_postgresql(told), Unturned)
    for declared in ("REAL", "BLOB", "", "NUMERIC", "DECIMAL(16,2)", "DECIMAL(5,6)"):
        assert isinstance(of_sqlite(Told("x", declared, declared, None, None, False)), Unturned)


def test_kinds():
    kinds = {"int4": "int", "bool": "int", "date": "int", "timestamptz": "int", "text": "text", "uuid": "text", "enum": "text"}
    for type_name, kind in kinds.items():
        assert of_postgresql(Told("x", type_name, type_name, None, None, False)).kind == kind
    assert not of_postgresql(Told("x", "timestamp", "timestamp", None, None, False)).is_apart


def test_no_text_is_taken_for_null():
    wanted = {None: "\\N", "\\N": "\\\\N", "\\\\N": "\\\\\\N", "N": "N", "": "", "\\": "\\", "\\n": "\\n", "\\NN": "\\NN", "x\\N": "x\\N"}
    (said,) = LiveSQLite().written([of_sqlite(Told("x", "TEXT", "TEXT", None, None, True)).said])
    for cell, turned in wanted.items():
        assert sqlite3.connect(":memory:").execute(f"SELECT {said} FROM (SELECT ? AS x) AS r", [cell]).fetchone() == (turned,)
        assert literal_apart(cell or "N") == (turned if cell else "N")


def test_numbers_that_a_real_does_not_have_are_no_numbers():
    (said,) = LiveSQLite().written([of_sqlite(Told("x", "DECIMAL(10,2)", "DECIMAL(10,2)", 10, 2, False)).said])
    wanted = {12.5: 1250, -7: -700, 9999999999999.25: 999999999999925, "abc": "abc", 10**14: None, -1e30: None, float("inf"): None, -(2**63): None}
    for cell, turned in wanted.items():
        found = sqlite3.connect(":memory:").execute(f"SELECT {said} FROM (SELECT ? AS x) AS r", [cell]).fetchone()[0]
        assert (found if turned is not None else found[:7]) == ("beyond " if turned is None else turned)
    for cell in (4.999, 0.1 + 0.2, 1e-9, -0.005):
        found = sqlite3.connect(":memory:").execute(f"SELECT {said} FROM (SELECT ? AS x) AS r", [cell]).fetchone()[0]
        assert str(found).startswith("not of 2 places: ")


def test_days_and_moments_have_the_form_of_the_first_one():
    plain, zoned = "0000-00-00 00:00:00", "0000-00-00T00:00:00.000Z"
    for declared, form, cell, turned in (
        ("DATE", None, "1970-01-02", 1), ("DATE", "0000-00-00", "1969-12-31", -1), ("DATE", None, "1970-01-02 00:00:00", None), ("DATE", None, 5, None),
        ("DATE", "a number", 5, 5), ("DATE", "a number", "1970-01-02", "1970-01-02"), ("DATE", plain, "1970-01-02", 1), ("DATE", None, "1970-02-30", None),
        ("DATETIME", None, "1970-01-01 00:01:00", 60), ("DATETIME", plain, "1970-01-01 00:01:00.75", 60), ("TIMESTAMP", plain, "1970-01-01T00:01:00", None),
        ("DATETIME", zoned, "1970-01-01T00:01:00.750Z", 60), ("DATETIME", zoned, "1970-01-01T00:01:00Z", None), ("DATETIME", None, "1970-01-01 24:00:00", None),
        ("DATETIME", "0000-00-00T00:00:00", "1970-01-01T00:01:00.5", 60), ("DATETIME", None, "1970-01-01 00:01:00.", None), ("DATETIME", None, None, None),
    ):
        (said,) = LiveSQLite().written([of_sqlite(Told("x", declared, declared, None, None, cell is None, False, form=form)).said])
        found = sqlite3.connect(":memory:").execute(f"SELECT {said} FROM (SELECT ? AS x) AS r", [cell]).fetchone()[0]
        if turned is None:
            assert found == -(2**63) if cell is None else found.startswith("not written ")
        else:
            assert found == turned


def test_types_of_postgresql_are_told_by_their_numbers():
    price = of_postgresql(Told("price", "numeric(10,2)", "numeric", 10, 2, False, False, 1700, 1700, 3, "column price of table public.t", 655366))
    colour = of_postgresql(Told("colour", "colour", "enum", None, None, False, False, 16400, 16400, 4, "column colour of table public.t"))
    many = of_postgresql(Told("many", "many", "int4", None, None, False, False, 23, 16401, 5, "column many of table public.t"))
    said, fits = (LivePostgreSQL().written([getattr(column, part) for column in (price, colour, many)]) for part in ("said", "fits"))
    for wanted, found in (("a.atttypid = 1700", fits[0]), ("a.atttypmod = 655366", fits[0]), ("y.typtype = 'e'", fits[1]), ("d.type = 23", fits[2])):
        assert wanted in found
    assert "enum_out" in said[1]
    assert [column.told.is_domain for column in (price, colour, many)] == [False, False, True]


def test_what_is_not_taken_is_told():
    for text, word in {
        "SELECT a.x FROM a LEFT JOIN b ON a.x = b.x": "outer join", "SELECT DISTINCT x FROM a": "DISTINCT", "SELECT x FROM a ORDER BY x": "ORDER BY",
        "SELECT max(x) FROM a": "MAX", "SELECT lower(x) FROM a": "lower", "SELECT x || y FROM a": "||", "SELECT * FROM a": "*",
        "SELECT x FROM (SELECT x FROM b) AS a": "SELECT in its FROM", "SELECT x FROM a WHERE x LIKE 'y'": "LIKE",
        "SELECT CASE WHEN x = 1 THEN 2 END FROM a": "CASE", "SELECT x FROM f(1)": "function f", "SELECT x FROM a UNION SELECT y FROM b": "UNION",
        "SELECT x FROM a WHERE x ~~ 'y'": "it has LIKE", "SELECT x FROM a WHERE NOT x !~~* 'y'": "NOT ILIKE", "SELECT x FROM ONLY s.a": "ONLY a",
        "SELECT x[1] FROM a": "part of an array", "SELECT x FROM a WHERE x IS NOT TRUE": "IS NOT TRUE", "SELECT x::timestamp(0) FROM a": "timestamp(0)",
        "WITH a AS (SELECT 1) SELECT x FROM a": "WITH", "SELECT x FROM a LIMIT 3": "LIMIT", "SELECT x FROM a,": "its end",
    }.items():
        with pytest.raises(NotTaken) as told:
            parsed(text)
        assert word in str(told.value)


def test_numbers_that_are_not_read_are_no_names():
    for text in "SELECT x + 1e3 FROM a", "SELECT x + 0x10 FROM a", "SELECT x FROM a WHERE x > .5", "SELECT x FROM a WHERE x IN (1, NULL)":
        with pytest.raises(NotTaken):
            parsed(text)


def test_the_statement_that_makes_a_view_names_its_columns():
    made = parsed('CREATE VIEW main."a AS b"(c, "d e") AS SELECT x, y FROM main.t;')
    assert [said for _, said in made.shown] == ["c", "d e"]
    assert made.tables == [("main", "t", "t")]
    with pytest.raises(NotTaken):
        parsed("CREATE VIEW v(c) AS SELECT x, y FROM t")


def test_what_is_not_taken_is_told_in_one_line():
    names = "x\n[[view]]\nname = 'y'", "z\u2028"
    found = Proposed(LivePostgreSQL(), {name: Table(name, [], []) for name in names}, {})
    assert [len(line.splitlines()) for line in found.told()] == [1, 1]
    assert [line[0] for line in found.text().splitlines() if line] == ["#", "#"]


def test_columns_named_like_conditions_are_joined():
    tables = {name: Table(name, [Told("all", "int", "int4", None, None, False)], []) for name in ("a", "b")}
    found = Proposed(LivePostgreSQL(), tables, {"v": 'SELECT a."all" FROM public.a JOIN public.b USING ("all")', "w": "SELECT a.x FROM other.a"}, "public")
    assert 'join = [["a.all", "b.all"]]' in found.text()
    assert len(found.told()) == 1
    assert "another schema" in found.told()[0]


def test_conditions_in_brackets():
    where = parsed("SELECT x FROM a WHERE ((x + 1) * 2) > 3 AND (y = 'it''s' OR NOT (z IS NULL))").where
    product = Computed("*", Computed("+", Column(None, "x"), Number(1, 0)), Number(2, 0))
    either = Some((Compared("=", Column(None, "y"), Text("it's")), Not(IsNull(Column(None, "z")))))
    assert where == Every((Compared(">", product, Number(3, 0)), either))


def test_where_no_database_is_read_they_are_refused():
    for engine in "postgresql", "sqlite", "clickhouse":
        for words in ["--database", "live"], ["--from", "there"], ["--measured"], ["--role", "keeper"]:
            asked = [ROOT / "tools/sql", "--night", "--engine", engine, *words, ROOT / "examples/shop"]
            ran = subprocess.run(asked, capture_output=True, text=True)
            assert ran.returncode
            assert re.search("(?m)^whview sql: --database, --from, --role and --measured go with ", ran.stderr)


def refused(*words):
    ran = subprocess.run([ROOT / "tools/sql", *words], capture_output=True, text=True)
    assert ran.returncode
    return ran


def test_the_script_in_its_place_raises_in_sqlite():
    for words in ["--live", "no folder"], ["--night", "no folder"], ["--lvie", ROOT / "examples/live"], ["--capture", ROOT / "examples/live"]:
        ran = refused("--engine", "sqlite", *words)
        with pytest.raises(sqlite3.Error, match="whview sql wrote no script: ") as told:
            sqlite3.connect(":memory:").executescript(ran.stdout)
        assert str(told.value).partition(": ")[2][:20] in ran.stderr


def test_and_in_postgresql():
    for words in ["--live", "no folder"], ["--night", "it's"], ["--lvie", ROOT / "examples/live"]:
        lines = refused(*words).stdout.splitlines()
        assert (lines[0], lines[3:5]) == (r"\set ON_ERROR_STOP on", ["DO $night$", "BEGIN"])
        assert re.search("^  RAISE EXCEPTION USING MESSAGE = '([^']|'')*';$", lines[5])


def test_what_people_read_stays_empty():
    for words in (
        ["--catalogue", "--engine", "sqlite"], ["--sizes", "no folder"], ["--check", "no folder"], ["--history", "no folder"], ["--explain", "no folder"],
    ):
        assert refused(*words).stdout == ""


def test_words_that_go_with_others():
    for words in ["--repair"], ["--in-turn"], ["--line"], ["--changed"], ["--drop"], ["--live"]:
        assert ("go" if words != ["--live"] else "unrecognized") in refused(*words, ROOT / "examples/live", *(["lines"] if words == ["--live"] else [])).stderr


def sql(folder, *words):
    return subprocess.run([ROOT / "tools/sql", "--engine", "sqlite", "--database", folder / "own.db", *words, folder], capture_output=True, text=True)


def test_both_where_it_agrees_and_where_it_does_not():
    formula = "t.b"
    for at in range(31):
        formula = ["+", 1, ["*", "t.b", formula]] if at % 2 else ["-", ["+", formula, 1], "t.b"]
    of_t = f'over = ["t"]\ngroup = [["a", "t.a"]]\ncount = "n"\nsum = [["e", {json.dumps(formula)}]]'
    with TemporaryDirectory() as name:
        folder = Path(name)
        (folder / "catalogue.toml").write_text(f'[[view]]\nname = "t"\ncolumns = ["a", "b"]\n[[view]]\nname = "v"\n{of_t}\n')
        database = sqlite3.connect(folder / "own.db", isolation_level=None)
        database.executescript("CREATE TABLE t (a INT NOT NULL, b INT NOT NULL); INSERT INTO t VALUES (1, 1), (1, 0), (2, 1);")
        database.executescript(sql(folder, "--capture", "--live", "--open").stdout)
        found = [sql(folder, "--check")]
        database.execute("UPDATE wh_v SET e = e + 1 WHERE a = 1")
        found.append(sql(folder, "--check"))
        database.close()
    assert [(ran.returncode, ran.stdout.splitlines()[-1]) for ran in found] == [(0, "all 2 agree"), (1, "1 of 2 differ")]


def digest(rows):
    found = Digest()
    for row in rows:
        found.step(*row)
    return found.finalize()


def test_order_is_nothing_and_counts_are_much():
    rows = [(1, 3, "a"), (2, -1, "b"), (1, -2, "b")]
    assert digest(rows) == digest([*rows[::-1], (0, 7, "c")])
    assert digest(rows) == digest([(1, -1, "b"), *rows, (-1, -1, "b")])
    for other in [rows[1:], [(1, 3, "a"), (3, -1, "b")], [(1, 3, "a"), (1, -1, "b"), (2, -2, "b")], [(1, 3.0, "a"), *rows[1:]], [(1, "3", "a"), *rows[1:]]]:
        assert digest(rows) != digest(other)


def test_a_joined_view_has_the_key_of_its_facts():
    assert keys('key = ["shop"]') == {0: (0,), 1: (0,), 2: (1,), 3: (0,)}


def test_without_a_key_of_the_other_table_rows_may_be_many():
    assert keys("") == {0: (0,), 3: (0,)}
    assert keys('key = ["region"]') == {0: (0,), 1: (1,), 3: (0,)}


def script_of(kept):
    """The script of a joined view of shops that have a name, which it does not keep."""
    catalogue = Catalogue(KEYED.format("").replace('"region:text"]', '"region:text", "name:text"]').replace('["id", "sales.id"]', kept))
    return MergeScript(catalogue, LivePostgreSQL("wh"))


def joined_with_shops_that_change(kept):
    """The rows of it that come of shops which change."""
    script = script_of(kept)
    return script.dialect.written([script.block.fast.term(2, script.steps.terms(2, [1])[0])])[0]


def test_what_a_joined_view_does_not_read_cancels_before_it_is_joined():
    cancelled = '(SELECT c1, c2, sum(n::integer) AS n FROM pg_temp."night~net1" GROUP BY c1, c2 HAVING sum(n::integer) <> 0) AS t2'
    assert cancelled in joined_with_shops_that_change('["id", "sales.id"]')
    # Where all is read there is nothing to cancel, and where an output may have no value each row is looked at.
    assert "HAVING" not in joined_with_shops_that_change('["name", "shops.name"]')
    assert "HAVING" not in joined_with_shops_that_change('["more", ["+", "sales.pieces", "sales.id"]]')


def test_how_many_rows_are_left_is_told_by_a_key_or_by_what_joins():
    analyzed = [script_of('["id", "sales.id"]').block.analyzed(v) for v in (0, 1)]
    assert [each for lines in analyzed for each in LivePostgreSQL("wh").written(lines)] == [
        'ANALYZE pg_temp."night~net0" (n, c1)', 'ANALYZE pg_temp."night~net1" (n, c1)',
    ]
    assert LivePostgreSQL("wh").written(script_of('["more", ["+", "sales.pieces", "sales.id"]]').block.analyzed(1)) == ['ANALYZE pg_temp."night~net1" (n)']


def test_a_key_that_is_none():
    with pytest.raises(Unfit):
        keys('key = ["town"]')


def test_they_are_the_same_whatever_is_asked_for_first():
    names, suffixes = ["x" * 62 + letter for letter in "abc"], ("~key", "~changes", "~capture", "~logged", "~1")
    text = KEYED.format("").replace("sales", names[0]).replace("shops", names[1]).replace("sold", names[2])
    first, then = (MergeScript(Catalogue(text), LivePostgreSQL("wh")).tables for _ in range(2))
    said = {(v, suffix): first.said(v, suffix) for suffix in suffixes for v in (0, 1)}
    for suffix in suffixes:
        then.said(2, suffix)
    assert {(v, suffix): then.said(v, suffix) for v, suffix in reversed(said)} == said
    assert len(set(said.values())) == len(said)


def test_the_slots_of_schemas_have_names_that_the_server_takes():
    schemas = ["wh", "Wh", "w h", 'the "house"', "wh_", "é" * 63, "w" * 63, "w" * 62 + "W"]
    names = [f"whview_4294967295_{slot_part(schema)}" for schema in schemas]
    assert len(set(names)) == len(names)
    for said in names:
        assert re.search("^[a-z0-9_]{1,63}$", said)


def test_costs_are_found_again():
    rows = [{0: 1000, 1: 10}, {0: 10, 1: 1000}, {0: 500, 1: 700}]
    each = fitted(rows, [0.001 + 1e-6 * row[0] + 3e-6 * row[1] for row in rows], 2)
    assert 2 < each[1] / each[0] < 4


def test_without_steps_nothing_is_proposed():
    assert measured([None], [Step("comp", 0, {0: 5}, 0.1)]) is None


def test_a_comp_of_what_did_not_change_is_no_measure():
    catalogue = Catalogue(KEYED.format(""))
    script = SimpleNamespace(catalogue=catalogue, steps=Steps(catalogue.views))
    sizes = [Past(100, 100, 2), Past(10, 10, 0), Past(100, 100, 2), Past(5, 5, 2)]
    listed = [("comp sold from sales", None, 0.5), ("comp sold from shops", None, 0.0)]
    assert [step.seconds for step in steps_of(script, listed, sizes)] == [0.5]


def test_an_inst_that_its_comp_carried_out_is_no_measure():
    catalogue = Catalogue(KEYED.format(""))
    script = SimpleNamespace(catalogue=catalogue, steps=Steps(catalogue.views))
    listed = [("comp by_region from sold", None, 0.5), ("inst sold", None, 0.25), ("inst by_region", None, 0.0)]
    assert [step.kind for step in steps_of(script, listed, [Past(9, 9, 2)] * 4)] == ["comp", "inst"]


def test_sizes_stay_sizes():
    assert within(5, -9, 3) == (2, 3)
    assert within(2, -9, 9) == (0, 9)


def test_what_is_left_out():
    assert left_out(["all", ["<>", "a.x", -(2**63)], ["<>", {"text": "\\N"}, "a.t"]]) == {"a.x", "a.t"}
    assert left_out(["not", ["<>", "a.x", -(2**63)]]) == set()
    assert references(["+", "a.x", ["*", 2, "a.y"]]) == ["a.x", "a.y"]
