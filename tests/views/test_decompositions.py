"""Tests of what views are taken apart into."""

from dataclasses import replace

import pytest

from tests.views.desk import AGGREGATES, RELATIONS, Read, judged
from whview.strategy.rules import broken
from whview.sql.catalogue import Catalogue
from whview.views import reading, tree, written
from whview.views.expanded import Item
from whview.views.leaves import Leaves
from whview.views.refused import Refused

BY_OWNER = "SELECT t.owner, count(*) AS n, sum(t.hours) AS hours FROM public.tickets t WHERE t.hours > 1 GROUP BY t.owner"


def test_groups_are_a_summary_over_the_mirror():
    read = Read(BY_OWNER)
    (kept,) = read.kept.values()
    assert (kept.over, kept.is_summary, [name for name, _ in kept.outputs]) == (["tickets"], True, ["g1"])
    flag = next(each for each in read.mirrors["tickets"].columns if "CASE WHEN (r.hours > 1)" in each.expression)
    assert kept.where == [["=", f"tickets.{flag.name}", 1]]
    assert len(kept.sums) == 3 and "wh." + kept.name in read.query


def test_the_first_of_each_group_is_looked_up_in_what_is_kept_in_its_order():
    read = Read("SELECT DISTINCT ON (t.owner) t.owner, t.id FROM public.tickets t ORDER BY t.owner, t.opened DESC, t.id")
    rows, groups = read.kept.values()
    assert [each for _, each in rows.outputs] == ["tickets.owner", "tickets.opened", "tickets.id"] and [each for _, each in groups.outputs] == ["tickets.owner"]
    assert rows.is_summary and groups.is_summary and "DISTINCT" not in read.query and "LIMIT 1" in read.query


def test_for_the_first_in_the_order_of_a_key_nothing_but_groups_is_kept_beside_the_mirrors():
    joined = Read("SELECT DISTINCT ON (v.person) v.person, p.name, v.hours FROM public.visits v JOIN public.people p ON p.id = v.person ORDER BY v.person, v.day DESC")
    assert "DISTINCT" not in joined.query and "max(b.day)" in joined.query and "INNER JOIN wh.people AS d1 ON d1.id = g.person" in joined.query
    alone = Read("SELECT DISTINCT ON (v.person) v.person, v.hours FROM public.visits v ORDER BY v.person, v.day DESC")
    assert [(kept.over, [each for _, each in kept.outputs]) for read in (joined, alone) for kept in read.kept.values()] == [(["visits"], ["visits.person"])] * 2


def test_where_the_first_depends_on_more_than_a_key_its_rows_are_kept():
    filtered = "SELECT DISTINCT ON (v.person) v.person, v.day FROM public.visits v WHERE v.hours > 1 ORDER BY v.person, v.day DESC"
    joined = "SELECT DISTINCT ON (v.person) v.person, p.name FROM public.visits v JOIN public.people p ON p.id = v.day ORDER BY v.person, v.day DESC"
    several = "SELECT DISTINCT ON (v.person) v.person, t.id FROM public.visits v JOIN public.tickets t ON t.owner = v.person ORDER BY v.person, v.day DESC"
    otherwise = "SELECT DISTINCT ON (v.day) v.day, v.person FROM public.visits v ORDER BY v.day, v.person"
    assert [len(Read(each).kept) for each in (filtered, joined, several, otherwise)] == [2, 2, 2, 2]


def test_an_expression_of_a_key_is_computed_as_it_is_read():
    read = Read("SELECT v.person, v.day > 3 AS late, v.hours > 1 AS long FROM public.visits v")
    assert [each.name for each in read.mirrors["visits"].columns] == ["person", "day", "x1"] and "c2 > 3" in read.query


def test_the_first_in_an_order_that_no_index_has_is_computed_as_it_is_read():
    read = Read("SELECT DISTINCT ON (p.town) p.town, p.id FROM public.people p ORDER BY p.town, p.name")
    assert not read.kept and "DISTINCT ON" in read.query


def test_where_null_comes_first_it_is_asked_for_before_the_largest():
    said = Read("SELECT DISTINCT ON (t.id) t.id, t.hours FROM public.tickets t ORDER BY t.id, t.hours DESC").query
    last = Read("SELECT DISTINCT ON (t.id) t.id, t.hours FROM public.tickets t ORDER BY t.id, t.hours DESC NULLS LAST").query
    assert "EXISTS" in said and "EXISTS" not in last


def test_what_is_looked_up_is_looked_up_once_for_a_group():
    said = Read("SELECT DISTINCT ON (t.owner) t.owner, t.id FROM public.tickets t ORDER BY t.owner, t.hours DESC, t.opened, t.id").query
    # A query without a FROM that is not closed off is carried out anew wherever its value is named.
    assert said.count("AS v OFFSET 0") == 2


def test_a_text_is_found_as_it_stands_in_indexes():
    read = Read("SELECT p.town, max(p.id) AS last FROM public.people p GROUP BY p.town")
    assert "sha256" in read.query and "GROUP BY" not in read.query


def test_the_first_of_a_list_is_one_row():
    read = Read("SELECT t.owner, (array_agg(t.id ORDER BY t.opened DESC, t.id))[1] AS last FROM public.tickets t GROUP BY t.owner")
    assert "array_agg" not in read.query and len(read.kept) == 2


def test_only_what_is_needed_is_mirrored():
    read = Read("SELECT p.town FROM public.people p")
    assert [each.name for each in read.mirrors["people"].columns] == ["id", "town"]


def test_a_join_is_kept_with_its_equality_and_without_nulls():
    read = Read("SELECT p.name, t.hours FROM public.people p JOIN public.tickets t ON t.owner = p.id")
    (kept,) = read.kept.values()
    # Of people each row has its key, so that a ticket without an owner finds none.
    assert (kept.join, kept.where, kept.is_summary) == ([("tickets.owner", "people.id")], [], False)


def test_a_join_by_what_may_be_null_leaves_null_out():
    read = Read("SELECT a.name FROM public.people a JOIN public.people b ON a.town = b.town AND a.id = b.id")
    kept = next(each for each in read.kept.values() if each.join)
    assert any(test[0] == "<>" and test[2] == {"text": "\\N"} for test in kept.where)


def test_what_an_outer_join_leaves_empty_is_asked_as_it_is_read():
    read = Read("SELECT p.name, COALESCE(t.opened::text, 'never') AS o FROM public.people p LEFT JOIN public.tickets t ON t.owner = p.id WHERE t.id IS NULL")
    assert "IS NULL" in read.query and "COALESCE" in read.query
    assert not any("IS NULL" in each.expression.replace("IS NOT NULL", "") for each in read.mirrors["tickets"].columns)


def test_groups_over_an_outer_join_read_each_side_by_what_is_alike():
    read = Read("SELECT p.town, count(*) AS n, sum(t.hours) AS h FROM public.people p LEFT JOIN public.tickets t ON t.owner = p.id GROUP BY p.town")
    # Of people each row has its key, and is read from the mirror itself.
    (kept,) = read.kept.values()
    assert (kept.over, kept.is_summary, len(kept.sums)) == (["tickets"], True, 3)
    assert "LEFT JOIN" in read.query and ".n, 1)" in read.query


def test_a_table_that_is_joined_with_itself_has_a_keeping_view():
    read = Read("SELECT a.name FROM public.people a JOIN public.people b ON a.id = b.id")
    again = read.kept["people_again_1"]
    assert (again.over, again.is_summary) == (["people"], False)


def test_least_values_are_kept_by_group_and_value():
    read = Read("SELECT t.owner, max(t.opened) AS last FROM public.tickets t GROUP BY t.owner")
    assert sorted(len(each.outputs) for each in read.kept.values()) == [1, 2]


def test_views_and_named_queries_become_part_of_the_query():
    read = Read("WITH x AS (SELECT t.owner FROM public.tickets t) SELECT l.name FROM public.londoners l JOIN x ON x.owner = l.id")
    (kept,) = read.kept.values()
    assert sorted(kept.over) == ["people", "tickets"] and len(kept.where) == 1


@pytest.mark.parametrize("text", [
    "SELECT v.k, p.name FROM ( VALUES (1,'a'::text), (2,'b'::text)) v(id, k) JOIN public.people p ON p.id = v.id",
    "WITH v(id, k) AS ( VALUES (1,'a'::text), (2,'b'::text)) SELECT v.k, p.name FROM v JOIN public.people p ON p.id = v.id",
    "SELECT q.k, p.name FROM (SELECT v.id, v.k FROM ( VALUES (1,'a'::text), (2,'b'::text)) v(id, k)) q JOIN public.people p ON p.id = q.id",
])
def test_a_list_of_values_stays_as_it_is_written_under_its_names(text):
    read = Read(text)
    assert list(read.mirrors) == ["people"] and "VALUES (1, CAST('a' AS text)), (2, CAST('b' AS text))" in read.query
    assert read.query.startswith("SELECT t1.column2 AS k, w1.c1 AS name FROM ") and "t1.column1" in read.query


@pytest.mark.parametrize("text", [
    "SELECT p.name FROM public.people p WHERE p.id IN ( VALUES (1), (2))", "SELECT p.id FROM public.people p UNION ALL VALUES (1), (2)",
    "SELECT p.id, v.x FROM public.people p CROSS JOIN LATERAL ( VALUES (p.town), (p.name)) v(x)", " VALUES (1), (2)",
])
def test_lists_of_values_stand_wherever_queries_do(text):
    assert "VALUES (" in Read(text).query


def test_an_item_of_a_list_knows_nothing_of_the_items_beside_it():
    with pytest.raises(Refused, match="there is no p in its FROM"):
        Read("SELECT v.x FROM public.people p, ( VALUES (p.town)) v(x)")


@pytest.mark.parametrize(("text", "cause"), [
    ("SELECT k.id FROM public.kept k", "REFRESH"),
    ("SELECT t.id FROM ONLY public.tickets t", "leave ONLY out"),
    ("WITH RECURSIVE r AS (SELECT 1 AS n UNION ALL SELECT r.n + 1 FROM r) SELECT r.n FROM r", "how deep it goes"),
    ("SELECT p.id FROM public.people p FOR UPDATE OF p", "locks nothing"),
    ("SELECT x.a FROM json_to_record('{}'::json) x(a integer)", "take each value out by ->>"),
    ("SELECT p FROM public.people p", "no column|whole row"),
    ("SELECT x.id FROM elsewhere.x", "no such table"),
])
def test_what_is_refused(text, cause):
    with pytest.raises(Refused, match=cause):
        Read(text)


def test_with_recursive_without_recursion_is_a_query_with_a_name():
    assert Read("WITH RECURSIVE r AS (SELECT p.id FROM public.people p) SELECT r.id FROM r").mirrors


def test_a_cast_of_somebodys_own_type_is_no_row_expression():
    leaves = Leaves({"t1": Item(RELATIONS["public", "people"], {"town": "town"})}, AGGREGATES, {
        (RELATIONS["public", "people"], "r.town"): replace(judged("text"), is_own=False),
        (RELATIONS["public", "people"], "CAST(r.town AS text)"): judged("text"),
    })
    assert leaves.leaf(tree.expression("t1.town::text")) is None
    assert leaves.leaf(tree.expression("t1.town")) is not None


@pytest.mark.parametrize(("text", "is_leaf"), [("t1.town = 'x'::public.mood", False), ("t1.town = 'x'::text", True), ("t1.town = 'x'::pg_catalog.text", True)])
def test_no_row_expression_names_a_type_of_somebodys_own(text, is_leaf):
    node = tree.expression(text)
    leaves = Leaves({"t1": Item(RELATIONS["public", "people"], {"town": "town"})}, AGGREGATES, {
        (RELATIONS["public", "people"], tree.printed(tree.with_alias(node, "r"))): judged("bool", ["texteq"]),
    })
    assert (leaves.leaf(node) is not None) == is_leaf


def test_a_refusal_tells_line_and_column():
    refused = Refused("x", "why", "do", 9).located("v", "SELECT\n  x")
    assert refused.told() == "v, line 2, column 3: x cannot be kept: why; do"


def test_the_catalogue_and_the_strategy_are_taken_by_nights(tmp_path):
    decomposition = Read(BY_OWNER + " HAVING max(t.opened) IS NOT NULL").keeping.decomposition
    written.put(tmp_path, decomposition, "wh", reading.made("wh", decomposition.reads, None))
    text = f"@catalogue\n{(tmp_path / 'catalogue.toml').read_text()}\n@strategy\n{(tmp_path / 'strategy.txt').read_text()}"
    catalogue = Catalogue(text)
    assert broken(catalogue.views, catalogue.correct()) is None and len(catalogue.views) == 3
