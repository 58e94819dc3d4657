"""Scripts that go against one rule each: what compares engines with whview has to notice all of them. Each has of a part, by its name, what stands in
the place of its functions: a function of the part's own, the part, and the words."""

from dataclasses import replace
from typing import NamedTuple

from whview.sql.steps import Comp
from whview.sql.tokens import number, sql


class Spoilt(NamedTuple):
    """What is wrong with a script, and the parts that are spoilt; an engine of which it is one, or all."""

    name: str
    parts: dict
    engines: tuple = ("postgresql", "sqlite")


def nothing(*_):
    return []


def comps_first(own, _, strategy):
    return own([each for each in strategy if each[1] is not None] + [each for each in strategy if each[1] is None])


def no_join(own, it, v, term):
    whole = it.shape.classes
    it.shape.classes = [each[1:] for each in whole]
    try:
        return own(v, term)
    finally:
        it.shape.classes = whole


def equal_rows_leave(own, it, v, more, test):
    return own(v, more, test if it.shape.is_counted(v) else sql("d.pair IS NULL AND d.n < 0"))


def all_come_once(own, it, step):
    return [*own(step), sql("UPDATE {net} SET n = {one} WHERE n > {one}", net=it.dialect.filling(it.tables.working(step.view, "net")), one=number(1))]


# ---- scripts in which an Inst is made in one pass


def absent_rows_pass(own, it, v):
    return [(sql("1 = 2") if told == it.tables.told_absent(v) else test, told) for test, told in own(v)]


def all_equal_rows_leave(own, it, v):
    return own(v) if it.shape.is_counted(v) else sql("CASE WHEN f.n > 0 THEN 3 WHEN f.was > 0 THEN 1 ELSE 0 END")


def sums_stay(own, _, v):
    sets, cells = own(v)
    return [(column, sql("t.{column}", column=column)) for column, _ in sets], cells


def sums_are_the_count(own, _, v):
    sets, cells = own(v)
    return [(column, sql("d.a1")) for column, _ in sets], cells


def one_source(own, _, step):
    return own(replace(step, sources=step.sources[:1]) if isinstance(step, Comp) else step)


STEPWISE, ONE_PASS = ("sqlite",), ("postgresql",)
SPOILT = [
    Spoilt("every Comp reads the old tables", {"steps": {"night": comps_first}}),
    Spoilt("a term is left out", {"comps": {"comp": lambda own, _, step: own(replace(step, terms=step.terms[:-1] or step.terms))}}),
    Spoilt("nothing is judged", {"changes": {"absent": nothing}}, STEPWISE),
    Spoilt("what has no value is taken", {"ranges": {"refused": nothing}}, STEPWISE),
    Spoilt("a filter is left out", {"terms": {"conditions": lambda _, __, v, term, first: [first]}}),
    Spoilt("a join is left out", {"terms": {"rows": no_join}}),
    Spoilt("counts are not multiplied", {"terms": {"count": lambda own, _, term: own(term[:1])}}),
    Spoilt("changes are not used up", {"changes": {"emptied": nothing}}),
    Spoilt("rows that are there count no more", {"insts": {"recounted": nothing, "verified": nothing}}, STEPWISE),
    Spoilt("groups that change stay", {"insts": {"stayed": nothing, "verified": nothing}}, STEPWISE),
    Spoilt("a plain row leaves every time", {"insts": {"placed": equal_rows_leave, "verified": nothing}}, STEPWISE),
    Spoilt("no row leaves", {"insts": {"left": nothing, "verified": nothing}}),
    Spoilt("all rows come once", {"changes": {"net": all_come_once}}),
    Spoilt("absent rows are not refused", {"changes": {"refused": absent_rows_pass}}, ONE_PASS),
    Spoilt("all equal rows leave", {"changes": {"act": all_equal_rows_leave}}, ONE_PASS),
    Spoilt("rows that stay keep their counts", {"insts": {"recounted": lambda own, it, v: own(v) if it.shape.is_summary(v) else []}}, ONE_PASS),
    Spoilt("groups keep their sums", {"groups": {"group_cells": sums_stay}}, ONE_PASS),
    Spoilt("sums become the count", {"groups": {"group_cells": sums_are_the_count}}, ONE_PASS),
    Spoilt("one source is enough", {"worth": {"test": one_source}}, ONE_PASS),
    Spoilt("a count is put as it changes", {"insts": {"count_after": lambda *_: sql("d.n")}}, ONE_PASS),
]
