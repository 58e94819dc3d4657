"""Which rows did it, where a night in PostgreSQL is refused since a number leaves 64 bits: groups with the rows that are added to them, or rows whose
outputs have no value."""

from __future__ import annotations

from collections.abc import Callable, Iterable, Sequence

from .block import counter
from .formulas import ALWAYS, Formulas, both
from .postgresql import PostgreSQL
from .steps import Operand, Term
from .tables import Part, Tables
from .terms import Terms
from .tokens import END_OF_STATEMENT, Sql, body, joined, number, sql, statements, text, word

# So many rows are told, of a row without a key so many columns, and of each column so many letters.
SHOWN, WIDEST, LONGEST = 3, 8, 200


# A query for rows in words, with a test of whether it can be asked.
Asked = tuple[Sql, Sql]


class Culprits(Part[PostgreSQL]):
    """The statements that find these rows, which are carried out where a night is refused, and not else. `key` has the places of a view's key, by which its
    rows are told."""

    def __init__(self, tables: Tables[PostgreSQL], terms: Terms, key: Callable[[int], Sequence[int] | None]) -> None:
        super().__init__(tables)
        self.terms, self.key = terms, key

    # ---- rows in words

    def told_row(self, v: int, cells: Sequence[Sql]) -> Sql:
        """The columns of a row by which it is told: its key, or else the first ones."""
        columns = self.views[v].columns
        places = self.key(v) or range(min(len(columns), WIDEST))
        said = [
            sql("left(concat({name}, {cell}), {long})", name=text(f"{columns[place][0]} "), cell=cells[place], long=number(LONGEST)) for place in places
        ]
        return sql("concat_ws({comma}, {said})", comma=text(", "), said=joined(said))

    # ---- what is raised

    def raised_with(self, told: Sql, queries: Iterable[Asked]) -> list[Sql]:
        """A refusal with what the first of some queries finds that finds anything; each has a test of whether it can be asked."""
        found = [sql("finding := NULL")]
        for test, query in queries:
            asked = sql("EXECUTE {query} INTO finding", query=body(query))
            found.append(sql("IF finding IS NULL AND ({test}) THEN BEGIN {asked} EXCEPTION WHEN OTHERS THEN NULL{end} END{end} END IF", test=test,
                             asked=statements([asked], 2), end=END_OF_STATEMENT))
        return [*found, self.dialect.raised(sql("concat_ws({colon}, {told}, finding)", colon=text(": "), told=told))]

    def refused_as_told(self, v: int, queries: Iterable[Asked]) -> list[Sql]:
        """A refusal by what was told of a view where its change was counted."""
        told = counter("told", v)
        return self.dialect.only_where(sql("{told} IS NOT NULL", told=told), self.raised_with(told, queries))

    # ---- what a view's change is made of

    def of_changes(self, v: int, groups: Sql | None) -> list[Asked]:
        """Queries for the rows of each child's change of which a view's change is made: those with the largest numbers, or whose numbers have no
        value, of a summary those of the groups that a query gives; each with a test of whether that child has changed."""
        over = self.views[v].over
        return [(sql("{rows} > 0", rows=counter("rows", u)), self.of_child(v, child, groups)) for child, u in enumerate(over)]

    def from_scratch(self, v: int) -> list[Asked]:
        """The same of a view that is filled, with the groups that leave 64 bits."""
        return [(sql("TRUE"), self.of_child(v, None, None))]

    def of_child(self, v: int, child: int | None, groups: Sql | None) -> Sql:
        """One of these; the view from scratch where no child is a change."""
        term = tuple(Operand(u, at == child) for at, u in enumerate(self.views[v].over))
        formulas = Formulas(self.dialect, self.terms.column(v, term))
        rows, first = self.terms.rows(v, term)
        tests = [test for test in self.terms.conditions(v, term, first) if test != ALWAYS]
        cells = self.tables.outputs(v, formulas)[: self.shape.groups(v)] if self.shape.is_summary(v) else []
        named = [sql("{value} AS {cell}", value=value, cell=cell) for value, cell in zip(cells, self.tables.cells(v))]
        sides = [self.told_side(v, term, at) for at in range(len(term))]
        inner = sql("SELECT {shown} FROM {rows} {where}", rows=rows, where=sql("WHERE {tests}", tests=both(tests)) if tests else sql(""), shown=joined([
            *named, sql("concat_ws({comma}, {sides}) AS said", comma=text(", "), sides=joined(sides)),
            sql("{weight} AS weight", weight=self.weight(v, formulas)),
            *self.added_numbers(v, term, formulas),
        ]))
        if not self.shape.is_summary(v):
            return self.first(inner)
        return self.largest(v, inner, groups or self.groups_beyond_at_first(v, inner))

    def added_numbers(self, v: int, term: Term, formulas: Formulas) -> list[Sql]:
        """What a combined row adds to each sum of its group."""
        count, sums = self.terms.count(term), self.views[v].sums if self.shape.is_summary(v) else ()
        return [
            sql("{count} * {number} AS {name}", count=count, number=formulas.computed(formula), name=word("s", at)) for at, formula in enumerate(sums, 2)
        ]

    def told_side(self, v: int, term: Term, child: int) -> Sql:
        """A child's part of a combined row in words."""
        u, start = term[child].view, sum(self.shape.width(operand.view) for operand in term[:child])
        cells = [self.tables.spot(term, self.shape.spot(v, start + place)) for place in range(self.shape.width(u))]
        return sql("concat({head}, {row}, {tail})", head=text(f"{self.views[u].name} ("), row=self.told_row(u, cells), tail=text(")"))

    def weight(self, v: int, formulas: Formulas) -> Sql:
        """What makes a row the one that is told: its largest number, or that one has no value."""
        if not self.shape.is_summary(v):
            return self.tables.lost(v, formulas)
        numbers = [sql("abs({number})", number=formulas.computed(formula)) for formula in self.views[v].sums]
        return sql("greatest({numbers})", numbers=joined(numbers)) if numbers else number(0)

    def first(self, rows: Sql) -> Sql:
        """The rows that are told of a view that keeps rows."""
        return sql("SELECT string_agg(k.said, {comma}) FROM (SELECT s.said FROM ({rows}) AS s WHERE s.weight > 0 LIMIT {shown}) AS k", comma=text("; "),
                   rows=rows, shown=number(SHOWN))

    def largest(self, v: int, rows: Sql, groups: Sql) -> Sql:
        """The rows that are told of a summary: those of one of the groups, if there are any."""
        cells, names = self.tables.cells(v)[: self.shape.groups(v)], [column for column, _ in self.views[v].columns]
        group = [sql("left(concat({said}, s.{cell}), {long})", said=text(f"{said} "), cell=cell, long=number(LONGEST)) for said, cell in zip(names, cells)]
        told = sql("concat({head}, concat_ws({comma}, {group}), {tail}, s.said)", head=text("in the group ("), comma=text(", "), tail=text(") from "),
                   group=joined(group)) if group else sql("concat({head}, s.said)", head=text("from "))
        same = joined([sql("o.{cell} = s.{cell}", cell=cell) for cell in cells], "AND") if cells else sql("TRUE")
        return sql(
            "WITH o AS MATERIALIZED ({out}) SELECT string_agg(k.said, {comma}) FROM (SELECT {told} AS said FROM ({rows}) AS s WHERE NOT EXISTS"
            " (SELECT 1 FROM o) OR EXISTS (SELECT 1 FROM o WHERE {same}) GROUP BY 1 ORDER BY max(s.weight) DESC LIMIT {shown}) AS k",
            out=groups, comma=text("; "), told=told, rows=rows, same=same,
            shown=number(SHOWN),
        )

    def groups_beyond_at_first(self, v: int, rows: Sql) -> Sql:
        """The groups whose sums leave 64 bits where a view is filled."""
        cells = self.tables.cells(v, "s")[: self.shape.groups(v)]
        beyond = [self.dialect.is_lost(sql("sum(s.{sum})", sum=word("s", at))) for at in range(2, self.shape.sums(v) + 1)]
        return sql("SELECT {shown} FROM ({rows}) AS s {grouped} HAVING {beyond}", shown=joined(cells or [number(1)]), rows=rows,
                   grouped=sql("GROUP BY {cells}", cells=joined(cells)) if cells else sql(""), beyond=joined(beyond or [sql("FALSE")], "OR"))


class CulpritsFromScratch(Culprits):
    """The same where views are filled, of which no view has a change."""

    def of_changes(self, v: int, groups: Sql | None) -> list[Asked]:
        return self.from_scratch(v)


class RangesTold(Part[PostgreSQL]):
    """A refusal of an output without a value, with the rows that did it, for which is asked."""

    def __init__(self, tables: Tables[PostgreSQL], culprits: Culprits, asked: Callable[[int], list[Asked]]) -> None:
        super().__init__(tables)
        self.culprits, self.asked = culprits, asked

    def refused(self, v: int, query: Sql) -> list[Sql]:
        raised = self.culprits.raised_with(text(self.tables.told_range(v)), self.asked(v))
        return self.dialect.only_where(sql("EXISTS ({query})", query=query), raised)
