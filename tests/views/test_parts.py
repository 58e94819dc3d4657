"""Tests of the parts by which views are taken: the tree, how values are kept, what never raises, tokens, and what is refused of a whole view."""

import pytest

from tests.views.desk import RELATIONS, judged
from whview.sql.capture.postgresql import LivePostgreSQL
from whview.sql.postgresql import PostgreSQL
from whview.sql.tokens import Unfit
from whview.views import reading, tree, written
from whview.views.as_tokens import tokens
from whview.views.asked import Called
from whview.views.captured import RowsOf, rows_in, source_of
from whview.views.expanded import Expanded
from whview.views.judging import judge_called, judge_order
from whview.views.kinds import encoding
from whview.views.leaves import Leaves
from whview.views.polynomials import Polynomials
from whview.views.pulled import Pulled
from whview.views.record import Column, Read
from whview.views.refused import Refused
from whview.views.total import is_total


def test_conditions_come_apart_at_and_alone():
    found = tree.conjuncts(tree.parsed("SELECT 1 WHERE a AND (b OR c) AND d").whereClause)
    assert [tree.printed(each) for each in found] == ["a", "b OR c", "d"]


def test_a_changed_tree_leaves_the_old_one():
    old = tree.parsed("SELECT a.x FROM a WHERE a.y = 1")
    assert tree.copied(old) == old and tree.printed(tree.with_alias(old.whereClause, "r")) == "r.y = 1" and tree.printed(old.whereClause) == "a.y = 1"


def test_using_is_an_equality_of_the_first_that_has_the_column():
    query = Expanded(RELATIONS).query(tree.parsed("SELECT p.name FROM public.people p JOIN public.tickets t USING (id)"))
    assert tree.printed(query).endswith("ON t1.id = t2.id")


@pytest.mark.parametrize(("join", "column"), [
    ("people p FULL JOIN public.tickets t USING (id)", "COALESCE(t1.id, t2.id) AS id"), ("people p RIGHT JOIN public.tickets t USING (id)", "t2.id"),
    ("people p LEFT JOIN public.tickets t USING (id)", "t1.id"),
])
def test_a_column_of_both_sides_is_the_one_that_is_there(join, column):
    query = Expanded(RELATIONS).query(tree.parsed(f"SELECT id, p.name FROM public.{join}"))
    assert tree.printed(query).startswith(f"SELECT {column}, t1.name FROM") and tree.printed(query).endswith("ON t1.id = t2.id")


def test_a_column_of_both_sides_is_joined_as_what_it_is():
    query = Expanded(RELATIONS).query(tree.parsed("SELECT id FROM public.people p RIGHT JOIN public.tickets t USING (id) LEFT JOIN public.visits v (id) USING (id)"))
    assert tree.printed(query).endswith("ON t2.id = t3.person") and tree.printed(query).startswith("SELECT t2.id FROM")


def test_a_query_may_have_no_columns():
    text = "SELECT p.id FROM public.people p WHERE EXISTS (SELECT FROM public.tickets t WHERE t.owner = p.id)"
    assert "EXISTS (SELECT FROM public.tickets" in tree.printed(Pulled(frozenset()).query(Expanded(RELATIONS).query(tree.parsed(text)))).replace('"', "")


def test_a_constant_is_not_taken_up_where_it_could_be_a_number_of_an_output():
    text = "SELECT q.k FROM (SELECT 1 AS k, p.id FROM public.people p) AS q GROUP BY q.k"
    assert "GROUP BY t2.k" in tree.printed(Pulled(frozenset()).query(Expanded(RELATIONS).query(tree.parsed(text))))


@pytest.mark.parametrize(("kind", "kept", "family"), [("int4", "int", "whole"), ("text", "text", "text"), ("numeric", "int", "numeric of 2"), ("timestamp", "int", "timestamp")])
def test_values_of_a_type_are_kept(kind, kept, family):
    how = encoding(judged(kind))
    assert (how.kind, how.family) == (kept, family)
    assert how.kept("r.x").startswith("coalesce(") and how.null in how.kept("r.x") and not how.kept("r.x", True).startswith("coalesce(")


@pytest.mark.parametrize(("text", "called", "total"), [
    ("lower(r.a)", ["lower"], True),
    ("r.a / 2", ["int4div"], True),
    ("r.a / 0", ["int4div"], False),
    ("r.a / r.b", ["int4div"], False),
    ("r.a / '-1'::integer", ["int4div"], False),
    ("r.a + r.b", ["int4pl"], False),
    ("r.a ~ '^x'", ["textregexeq"], True),
    ("r.a ~ r.b", ["textregexeq"], False),
    ("r.a LIKE r.b", ["textlike"], False),
    ("substring(r.a, 1, 2)", ["text_substr"], True),
    ("substring(r.a, r.b)", ["text_substr"], False),
])
def test_what_never_raises(text, called, total):
    assert is_total(tree.expression(text), judged("text", called)) is total


def test_what_turns_texts_into_something_may_raise():
    assert not is_total(tree.expression("r.a::integer"), judged("int4", raises=True))


@pytest.mark.parametrize("text", ["CASE WHEN (r.a = 'it''s') THEN 1 ELSE 0 END", 'r."a b" || r.c', "r.a ->> 'k'", "r.a !~ 'x'", "r.a NOT LIKE 'x%'"])
def test_tokens_say_what_the_parser_printed(text):
    said = PostgreSQL().written([tokens(text)])[0]
    assert tree.expression(said) == tree.expression(text)


def test_a_decimal_is_a_numeric():
    assert tree.printed(tree.expression(PostgreSQL().written([tokens("r.a * 1.50")])[0])) == "r.a * CAST('1.50' AS numeric)"


@pytest.mark.parametrize("text", ["r.a; DROP TABLE x", "r.a -- x", "r.a <-> r.b"])
def test_what_no_script_is_made_of(text):
    with pytest.raises(Unfit):
        tokens(text)


@pytest.mark.parametrize(("called", "cause"), [
    (Called("random()", "v", True, "f"), "otherwise each time"),
    (Called("public.twice(integer)", "i", False, "f"), "not one of the server's own"),
    (Called("sum(double precision)", "i", True, "a"), "depends on their order"),
])
def test_what_a_view_may_not_call(called, cause):
    with pytest.raises(Refused, match=cause):
        judge_called(tree.parsed("SELECT random() FROM a"), [called])
    judge_called(tree.parsed("SELECT 1 FROM a"), [Called("max(double precision)", "i", True, "a"), Called("now()", "s", True, "f")])


@pytest.mark.parametrize("text", ["SELECT a.x FROM a LIMIT 3", "SELECT DISTINCT ON (a.x) a.y FROM a", "SELECT array_agg(a.x) FROM a", "SELECT (SELECT b.x FROM b LIMIT 1) FROM a"])
def test_an_order_is_wanted(text):
    with pytest.raises(Refused, match="ORDER BY"):
        judge_order(tree.parsed(text))


def test_what_an_order_leaves_open_is_told():
    assert judge_order(tree.parsed("SELECT a.x FROM a ORDER BY a.x")) == []
    assert "LIMIT" in judge_order(tree.parsed("SELECT a.x FROM a ORDER BY a.x LIMIT 3"))[0]


def test_a_folder_without_row_expressions_has_none(tmp_path):
    assert rows_in(str(tmp_path)) == {}


def test_a_table_is_told_by_its_own_columns():
    from whview.catalogue.views import View
    from whview.sql.capture.database import Table
    from whview.sql.capture.turned import Told
    columns = [Told(name, "text", "text", None, None, True, number=25, own_number=25, place=at, relation=9) for at, name in enumerate(("a", "b"), 1)]
    rows = RowsOf("public", {"x1": ("text", "lower(r.a)", ("a",)), "x2": ("int", "(CASE WHEN r.a = r.b THEN 1 ELSE 0 END)::bigint", ("a", "b"))}, ())
    source = source_of(LivePostgreSQL("wh"), View("t", [("x1", "text"), ("x2", "int")]), Table("t", columns, []), rows)
    assert [told.name for told in source.told] == ["a", "b"] and [column.name for column in source.columns] == ["x1", "x2"]
    assert source.number == 9
    with pytest.raises(Unfit, match="no column c"):
        source_of(LivePostgreSQL("wh"), View("t", [("x1", "text")]), Table("t", columns, []), RowsOf("public", {"x1": ("text", "r.c", ("c",))}, ()))


@pytest.mark.parametrize("text", ["(a OR b) IS FALSE", "(NOT a) IS NULL", "(a IS DISTINCT FROM b) IS TRUE", "((a AND b) IS NULL) IS NOT TRUE"])
def test_a_condition_within_a_test_is_printed_as_it_was(text):
    # A cast to what it is stands for the parentheses that the library leaves out.
    said = tree.printed(tree.expression(text))
    inner = tree.expression(said).arg
    assert tree.kind(inner) == "TypeCast" and tree.kind(tree.expression(text).arg) == tree.kind(inner.arg)


def test_what_is_printed_is_read_as_the_same():
    for text in ("a - (b - c)", "(a + b) * c", "NOT (a = b)", "(a -> 'b') ->> 'c'", "CASE WHEN a THEN b END IS NULL"):
        assert tree.expression(tree.printed(tree.expression(text))) == tree.expression(text)


def test_a_folder_that_take_has_not_written_is_not_written_over(tmp_path):
    assert written.stranger(tmp_path) is None
    (tmp_path / "catalogue.toml").write_text("[[view]]\n")
    assert written.stranger(tmp_path) == tmp_path / "catalogue.toml"
    (tmp_path / "views.sql").write_text("SELECT 1;\n")
    assert written.stranger(tmp_path) is not None
    (tmp_path / "views.sql").write_text(f"{written.MADE_HERE}\n")
    assert written.stranger(tmp_path) is None


def test_a_folder_names_the_views_of_a_schema_that_it_made(tmp_path):
    (tmp_path / "views.sql").write_text('-- view ["wh", "a"]\n-- view ["other", "b"]\nDROP VIEW c;\n-- view ["wh", "d\\"\\n"]\n')
    assert written.former(tmp_path, "wh") == ["a", 'd"\n']


def test_views_are_put_aside_when_a_script_has_judged_all():
    script = reading.beside(["BEGIN;", "judged", "COMMIT;", "BEGIN;", "COMMIT;"], "wh", "public", ["v"])
    assert script[:4] == ["BEGIN;", "judged", "COMMIT;", "DO $take$"] and script[-2:] == ["BEGIN;", "COMMIT;"]
    assert reading.beside(["BEGIN;", "COMMIT;"], "wh", "public", []) == ["BEGIN;", "COMMIT;"]


def test_a_text_in_a_view_does_not_end_the_program_that_makes_it():
    lines = reading.made("wh", [Read("public", "v", "SELECT '$take$'", (Column("x", "text"),))], None)
    assert lines[0] == "DO $take_$" and lines[-1] == "END $take_$;"


@pytest.mark.parametrize(("said", "found"), [("'2'::numeric", (2, 0)), ("1.25", (125, 2)), ("'3'::bigint", (3, 0)), ("1.5::integer", None), ("'1.5'::bigint", None)])
def test_a_number_that_a_cast_rounds_is_none_that_sums_are_made_of(said, found):
    node = tree.expression(said)
    number = Polynomials(Leaves({}, frozenset(), {}), lambda leaf: None, lambda alias, test, reads: 0).of(node)
    assert (number.value, number.places) == found if found else number is None
