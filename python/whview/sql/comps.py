"""What a Comp is in SQL: each of its terms a statement, which adds up the combined rows by what they show."""

from __future__ import annotations

from typing import Protocol

from .dialect import summed
from .engine import Engine, StepwiseEngine
from .steps import Comp, Term
from .tables import Part, Tables
from .terms import Terms
from .tokens import Sql, joined, sql, word


class Ranges(Protocol):
    """What is done where an output may have no value, or a sum leaves 64 bits."""

    def refused(self, v: int, query: Sql) -> list[Sql]:
        """A refusal where a query finds such a row."""


class RangesAlone(Part[StepwiseEngine]):
    """Such a night is refused, without a word about the rows that did it."""

    def refused(self, v: int, query: Sql) -> list[Sql]:
        return self.dialect.refuse(self.tables.told_range(v), query)


def comp_tables(tables: Tables[Engine], v: int) -> list[tuple[str, list[Sql]]]:
    """What the Comps make of a view; and of a summary what they make together, and its groups before and after."""
    dialect, shape = tables.dialect, tables.shape
    kinds, whole, free = dialect.kinds, dialect.kinds["int"], dialect.free_number
    groups, sums = shape.groups(v), range(1, shape.sums(v) + 1)
    cells = [sql("{cell} {kind}", cell=cell, kind=kinds[kind]) for cell, kind in zip(tables.cells(v)[:groups], tables.kinds(v))]
    parts = [sql("{part} {free}", part=part, free=free) for place in sums for part in dialect.parts(place)]
    found = [("pending", [*cells, *parts, sql("lost {whole}", whole=whole)])]
    if shape.is_summary(v):
        both_sums = [sql("{sum} {free}", sum=word(letter, place), free=free) for letter in "oa" for place in sums]
        row = sql("id {whole}, part {part}, place {place}", whole=whole, part=dialect.part_kind, place=dialect.place_kind)
        found += [("folded", [*cells, *parts]), ("beside", [row, *cells, *both_sums])]
    return found


def added_by_term(terms: Terms, v: int, term: Term) -> Sql:
    """The statement that adds what a term makes of each row or group to what the others made."""
    tables, shape, dialect = terms.tables, terms.shape, terms.dialect
    groups, sums = tables.cells(v)[: shape.groups(v)], range(2, shape.sums(v) + 1)
    halves = dialect.halves(sql("r.n"))
    for place in sums:
        halves = [*halves, *dialect.times(sql("r.n"), sql("r.{sum}", sum=word("s", place)))]
    shown = tables.cells(v, "r")[: len(groups)]
    return sql(
        "INSERT INTO {pending} ({columns}, lost)\n    SELECT {shown}\n    FROM ({term}) AS r {grouped} HAVING count(*) > 0",
        pending=dialect.filling(tables.working(v, "pending")),
        columns=joined([*groups, *(part for place in (1, *sums) for part in dialect.parts(place))]),
        shown=joined([*shown, *summed([*halves, sql("r.lost")])]), term=terms.term(v, term),
        grouped=sql("GROUP BY {shown}", shown=joined(shown)) if shown else sql(""),
    )


class Comps(Part[StepwiseEngine]):
    """The statements of Comps."""

    def __init__(self, tables: Tables[StepwiseEngine], terms: Terms, ranges: Ranges) -> None:
        super().__init__(tables)
        self.terms, self.ranges = terms, ranges

    def comp(self, step: Comp) -> list[Sql]:
        """All terms, and a word where an output has no value."""
        v, pending, found = step.view, self.tables.working(step.view, "pending"), list[Sql]()
        for term in step.terms:
            made = self.dialect.planned(len(term), self.terms.pairs(v, term), added_by_term(self.terms, v, term), self.tables.told_large(v))
            found += self.dialect.skipped([self.tables.working(operand.view, "net") for operand in term if operand.is_change], made)
        return [*found, *self.exact(v, pending), *self.dialect.filled(pending)]

    def exact(self, v: int, pending: Sql) -> list[Sql]:
        """A word where an output has no value, or where a count or a product left 64 bits and the engine did not say so."""
        count, *sums = (word("s", place) for place in range(1, self.shape.sums(v) + 1))
        found = []
        for test in self.dialect.inexact([sql("d.{count}", count=count)]):
            query = sql("SELECT 1 FROM {pending} AS d WHERE {test}", pending=pending, test=test)
            found += self.dialect.refuse(self.tables.told_large(v), query)
        tests = [sql("d.lost > 0"), *self.dialect.inexact([sql("d.{sum}", sum=each) for each in sums])]
        return found + self.ranges.refused(v, sql("SELECT 1 FROM {pending} AS d WHERE {tests}", pending=pending, tests=joined(tests, "OR")))
