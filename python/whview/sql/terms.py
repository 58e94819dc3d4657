"""The combined rows of a term: its children joined one by one, what each combined row shows, and how often it counts."""

from __future__ import annotations

from collections.abc import Callable

from .access import RowAccess
from .dialect import COUNT, Arithmetic
from .engine import Engine
from .formulas import ALWAYS, Formulas, both
from .steps import Term
from .tables import Part, Tables
from .tokens import Sql, joined, number, sql, word


class Terms(Part[Engine]):
    """The terms of Comps, whose numbers are computed in an engine's words for them, `arithmetic`: exactly, or in 64 bits, where one that leaves them raises
    (`raises`), so that no output is without a value."""

    def __init__(self, tables: Tables[Engine], access: RowAccess, arithmetic: Arithmetic | None = None) -> None:
        super().__init__(tables)
        self.access, self.arithmetic, self.raises = access, arithmetic or tables.dialect, arithmetic is not None

    # ---- the combined row

    def column(self, v: int, term: Term) -> Callable[[int], Sql]:
        """The SQL of the places in a view's combined row."""
        return lambda place: self.tables.spot(term, self.shape.spot(v, place))

    def count(self, term: Term) -> Sql:
        """How often a combined row counts."""
        counts = []
        for child, operand in enumerate(term, 1):
            if operand.is_change:
                counts.append(sql("{of}.n", of=word("t", child)))
            elif not self.access.counts_once(operand):
                counts.append(self.dialect.read_count(sql("{of}.{count}", of=word("t", child), count=COUNT)))
        return joined(counts, "*") if counts else number(1)

    def rows(self, v: int, term: Term) -> tuple[Sql, Sql]:
        """The children of a term, each joined with those before it, and what the first of them asks of itself."""
        first, *others = ((self.child(v, term, join.child), both([self.access.matched(v, term, pair) for pair in join.pairs]))
                          for join in self.shape.joins(v, term))
        found, asked = first
        for over, test in others:
            found = sql("{found} JOIN {over} ON {test}", found=found, over=over, test=test)
        return found, asked

    def child(self, v: int, term: Term, child: int) -> Sql:
        """What a child is read from."""
        operand = term[child]
        table = self.tables.working(operand.view, "net") if operand.is_change else self.tables.table(operand.view)
        table = self.cancelled(v, child, table) if self.cancels(v, term, child) else table
        return sql("{table} AS {of}", table=table, of=word("t", child + 1))

    def cancels(self, v: int, term: Term, child: int) -> bool:
        """Whether rows of a change that differ only in what a view does not read add up, and opposite ones cancel, before they are joined: where all is computed
        exactly each row is looked at."""
        return self.raises and term[child].is_change and self.shape.reads_less(v, child)

    def cancelled(self, v: int, child: int, change: Sql) -> Sql:
        """A change in the columns that a view reads. Numbers of 32 bits add up to one of 64; where a count has more, all is computed exactly."""
        cells = self.tables.cells(self.views[v].over[child])
        read = [cells[place] for place in self.shape.columns_read(v, child)]
        grouped = sql("GROUP BY {read}", read=joined(read)) if read else sql("")
        return sql("(SELECT {shown} FROM {change} {grouped} HAVING sum(n::integer) <> 0)", shown=joined([*read, sql("sum(n::integer) AS n")]), change=change,
                   grouped=grouped)

    def conditions(self, v: int, term: Term, first: Sql) -> list[Sql]:
        """What a combined row has to pass beside the joins."""
        return [first, Formulas(self.dialect, self.column(v, term)).holds(self.views[v].where)]

    def formulas(self, v: int, term: Term) -> Formulas:
        """What a combined row shows, in the engine's words."""
        return Formulas(self.arithmetic, self.column(v, term))

    def lost(self, v: int, formulas: Formulas) -> Sql:
        """1 where an output has no value."""
        return number(0) if self.raises else self.tables.lost(v, formulas)

    # ---- terms

    def term(self, v: int, term: Term) -> Sql:
        """The combined rows of one term."""
        formulas = self.formulas(v, term)
        names = [*self.tables.cells(v)[: self.shape.groups(v)], *(word("s", place) for place in range(2, self.shape.sums(v) + 1))]
        shown = [sql("{value} AS {name}", value=value, name=name) for value, name in zip(self.tables.outputs(v, formulas), names)]
        shown += [sql("{count} AS n", count=self.count(term)), sql("{lost} AS lost", lost=self.lost(v, formulas))]
        rows, first = self.rows(v, term)
        tests = [test for test in self.conditions(v, term, first) if test != ALWAYS]
        where = sql("WHERE {tests}", tests=both(tests)) if tests else sql("")
        apart = self.dialect.apart(len(term), self.pairs(v, term))
        return sql("SELECT {shown} FROM {rows} {where} {apart}", shown=joined(shown), rows=rows, where=where, apart=apart)

    def pairs(self, v: int, term: Term) -> int:
        """How many equalities join the children of a term."""
        return sum(len(join.pairs) for join in self.shape.joins(v, term))
