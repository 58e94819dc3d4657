"""Tests of what reads bundles and catalogues, and of the values of views."""

import pytest

from trials.bundles import examples
from whview.bundle import parts_of, pieces
from whview.catalogue.evaluator import Evaluator, Refused, Unbounded, added, difference
from whview.catalogue.from_bundle import views_of
from whview.catalogue.parts import Warehouse
from whview.strategy.rules import broken

CATALOGUE = """[[view]]
name = "a"
columns = ["x", "t:text"]
[[view]]
name = "v"
over = ["a"]
where = ["<>", "a.t", { text = "no" }]
keep = [["twice", ["*", "a.x", 2]], ["t", "a.t"]]
[[view]]
name = "s"
over = ["v"]
group = [["t", "v.t"]]
count = "n"
sum = [["x", "v.twice"]]
"""


def test_parts_that_stand_once_and_those_of_each_night():
    text = "@catalogue \nc\n@changes a\n1\n@@2\n@night\n@strategy\ninst a\n@data a\r\nx\n"
    once, each = parts_of(text)
    assert once == {"catalogue": ["c"], "data a": ["x"]}
    assert each == [{"changes a": ["1", "@2"]}, {"strategy": ["inst a"]}]


def test_pieces_are_the_bytes_of_a_bundle():
    for example in examples():
        if example.bundle.startswith(b"@"):
            assert b"".join(pieces(example.bundle)) == example.bundle


def test_what_is_read_is_written_as_it_was():
    views = views_of(CATALOGUE)
    columns = [[("twice", "int"), ("t", "text")], [("t", "text"), ("n", "int"), ("x", "int")]]
    assert [view.columns for view in views[1:]] == columns
    again = Warehouse(views).catalogue().decode().partition("\n")[2]
    assert [vars(view) for view in views_of(again)] == [vars(view) for view in views]


def test_a_text_of_a_formula_is_its_number_where_texts_have_numbers():
    assert views_of(CATALOGUE, {"no": 7}.get)[1].where[2] == 7


VIEWS = views_of(CATALOGUE)


def contents(rows, by=Evaluator):
    return by().contents(VIEWS, [added(rows), None, None])


def test_a_night_comes_to_the_contents_of_the_new_base():
    old = contents([((3, "so"), 2), ((5, "no"), 1)])
    assert old[1:] == [{(6, "so"): 2}, {("so", 2, 12): 1}]
    new = contents([((3, "so"), 1), ((4, "or"), 1), ((5, "no"), 1)])
    change = difference(new[0], old[0])
    evaluator, tables, changes = Evaluator(), list(old), [change, None, None]
    for v, source in ((1, 0), (2, 1)):
        pending = evaluator.comp(VIEWS[v], (source,), tables, changes)
        changes[v] = evaluator.change(VIEWS[v], pending, tables[v])
        assert changes[v] == difference(new[v], old[v])


def test_what_leaves_64_bits_or_2_to_the_56_rows_has_no_value():
    with pytest.raises(Refused):
        Evaluator().from_scratch(VIEWS[1], [{(2**62, "so"): 1}])
    with pytest.raises(Refused):
        Evaluator().from_scratch(VIEWS[1], [{(1, "so"): 2**56 + 1}])
    assert Unbounded().from_scratch(VIEWS[1], [{(1, "so"): 2**56 + 1}]) == {(2, "so"): 2**56 + 1}


def test_the_strategies_of_a_warehouse_break_no_rule():
    warehouse = Warehouse(VIEWS)
    for strategy in (warehouse.one_way(), warehouse.at_once()):
        assert broken(VIEWS, strategy) is None
        assert broken(VIEWS, strategy[1:])[:9] == "broken S1"
