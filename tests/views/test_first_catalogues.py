"""Tests of `init --sql`: which kinds cells have, and that what is proposed is a catalogue as it stands."""

import contextlib

import pytest

from tests.folder.shop import carried_out
from whview.folder.declared.proposed import catalogue_text, key_of, kind_of, named_anew
from whview.folder.exports import Column, Export
from whview.views.sqlite.declared import declared
from whview.views.sqlite.reserved import names_in_quotes

ORDERS = "Order Id,day,Sent,total,open,index,note\n1,2026-01-02,2026-01-02 10:00:00,1.5,true,7,a\n2,2026-02-28,,12.25,false,,\n3,,2026-03-01T00:00:00.5,-3,,9,\n"
PEOPLE = "name,code,group\nAda,007,x\nBo,12,x\nCy,,y\n"


def exports(folder, **files):
    """Files as tables."""
    found = []
    for name, text in files.items():
        (folder / f"{name}.csv").write_text(text)
        found.append(Export(folder / f"{name}.csv"))
    return found


@pytest.mark.parametrize(("cells", "kind"), [
    (["1", "-20", ""], "integer"), (["0", "1"], "integer"), (["007", "12"], "text"), (["+5"], "text"), (["9223372036854775807"], "integer"), (["9223372036854775808"], "text"),
    (["1.5", "2", ""], "numeric(5, 1)"), (["12.50", "-0.125"], "numeric(8, 3)"), (["123456789012.345"], "numeric(15, 3)"), (["1234567890123.456"], "text"), (["01.5"], "text"),
    (["1e3"], "text"), (["1,5"], "text"), (["true", "FALSE", ""], "boolean"), (["yes", "no"], "boolean"), (["true", "maybe"], "text"), (["true", "1"], "text"),
    (["2026-01-02", ""], "date"), (["2026-02-30"], "text"), (["20260102"], "integer"), (["2026-01-02 10:00:00", "2026-01-02T10:00:00.25"], "timestamp"),
    (["2026-01-02 10:00"], "text"), (["2026-01-02", "2026-01-02 10:00:00"], "text"), (["", ""], "text"), ([], "text"), (["x"], "text"),
])
def test_kinds_that_cells_have(cells, kind):
    assert kind_of(Column("c", tuple(cells))) == kind


def test_a_key_tells_rows_apart_by_its_name_or_its_place(tmp_path):
    orders, people, lines, counted = exports(tmp_path, orders="n,id\n1,5\n1,6\n", people="name,age\nA,1\nB,2\n", lines="a,b\n1,1\n1,2\n", counted="#,id\n1,1\n1,2\n")
    assert [each and each.name for each in map(key_of, (orders, people, lines, counted))] == ["id", "name", None, None]


def test_what_is_proposed_is_a_catalogue_as_it_stands_and_with_its_views(tmp_path):
    tables = exports(tmp_path, orders=ORDERS, people=PEOPLE)
    named_anew(tables)
    text = catalogue_text(tables)
    orders, people = declared(text).tables
    assert [(each.name, each.kind.shown) for each in orders.columns] == [
        ("order_id", "integer"), ("day", "date"), ("sent", "timestamp"), ("total", "numeric(7,2)"), ("open", "boolean"), ("index", "integer"), ("note", "text"),
    ]
    assert (orders.key, orders.null, people.key) == (("order_id",), "", ("name",))
    assert [each.kind.shown for each in people.columns] == ["text", "text", "text"]
    views = [line.removeprefix("-- ") for line in text.splitlines() if line.startswith("-- CREATE VIEW")]
    assert [each.name for each in declared(text + "\n".join(views)).views] == ["orders_by_note", "people_by_group"]


def test_a_folder_that_is_made_has_its_catalogue_and_is_right(tmp_path):
    exports(tmp_path, orders=ORDERS, people=PEOPLE)
    with contextlib.chdir(tmp_path):
        status, printed, told = carried_out(("init", "folder", "orders.csv", "people.csv", "--sql"))
        assert (status, told) == (0, "") and "orders: 7 columns, 3 rows of orders.csv, told by order_id\n    order_id: integer\n" in printed
        assert not (tmp_path / "folder/catalogue.toml").exists()
        assert carried_out(("lint", "folder"))[::2] == (0, "")
        with open("folder/catalogue.sql", "a") as file:
            file.write('CREATE VIEW v AS SELECT "index", "group", count(*) AS "values", sum(total) AS t FROM orders, people GROUP BY 1, 2;\n')
        assert carried_out(("lint", "folder"))[::2] == (0, "")


def test_names_that_are_too_long_or_stand_twice_are_others(tmp_path):
    tables = exports(tmp_path, **{"t" * 60: f"{'c' * 60}1,{'c' * 60}2\n1,2\n"})
    named_anew(tables)
    (table,) = declared(catalogue_text(tables)).tables
    assert (table.name, table.names) == ("t" * 47, ["c" * 47, "c" * 47 + "_2"])


@pytest.mark.parametrize(("said", "found"), [
    ("SELECT r.index AS values FROM main.t AS r", 'SELECT r."index" AS "values" FROM main.t AS r'), ("'a.index' AS x", "'a.index' AS x"),
    ('r."Order", CAST(r.a AS text)', 'r."Order", CAST(r.a AS text)'),
])
def test_words_of_sql_are_names_in_quotes(said, found):
    assert names_in_quotes(said) == found
