"""Opening in PostgreSQL: derived views from scratch, with keys and indexes made when the rows are there."""

from __future__ import annotations

from ..block import Block, counter
from ..postgresql import PostgreSQL
from ..steps import Term
from ..tables import Part, Tables, inserted
from ..terms import Terms
from ..tokens import Sql, joined, number, sql, statements, text, word
from .access import KeyedAccess
from .culprits import CapturedCulprits

# That something is not there which is dropped only if it is there need not be told.
QUIETLY = sql("SET LOCAL client_min_messages = warning")


class Opening(Part[PostgreSQL]):
    """The statements that fill the derived views."""

    def __init__(self, tables: Tables[PostgreSQL], access: KeyedAccess, block: Block, culprits: CapturedCulprits) -> None:
        super().__init__(tables)
        self.access, self.block, self.culprits = access, block, culprits

    def counted_rows(self, v: int) -> Sql | None:
        """How many rows were put into a view each of which counts once, if it is such a view."""
        return counter("rows", v) if self.views[v].over and (self.shape.is_summary(v) or v in self.access.keys) else None

    def filled(self, v: int) -> list[Sql]:
        """A view from scratch: without rows and indexes, then with its rows, then with its indexes."""
        return [
            sql("TRUNCATE {table}", table=self.tables.table(v)),
            *self.access.without_key(v),
            *self.access.unindexed(v),
            self.filling(v, self.steps.whole(v)),
            sql("GET DIAGNOSTICS {rows} = ROW_COUNT", rows=counter("rows", v)),
            *self.access.with_key(v, self.access.key_of(v, {})),
            *self.access.indexes_of(v),
            *self.analyzed_columns(v),
        ]

    def analyzed_columns(self, v: int) -> list[Sql]:
        """Statistics of the columns by which other views are joined with this one; how many rows there are its key told, and all else the
        server finds out in its own time."""
        columns = sorted({column for listed in self.tables.asked_for()[v] for column in listed})
        if any(self.tables.is_text(v, column) for column in columns):
            return [sql("ANALYZE {table}", table=self.tables.table(v))]
        listed = joined([self.tables.users(v)[column] for column in columns])
        return [sql("ANALYZE {table} ({columns})", table=self.tables.table(v), columns=listed)] if columns else []

    def filling(self, v: int, term: Term) -> Sql:
        """What fills a view, in 64 bits, or exactly, with the words for what has no value or leaves them."""
        large = self.tables.told_range(v) if self.shape.is_summary(v) else self.tables.told_large(v)
        queries = self.culprits.from_scratch(v)
        lost, beyond = (self.culprits.raised_with(text(told), queries) for told in (self.tables.told_range(v), large))
        sure = sql(
            "BEGIN {made} EXCEPTION WHEN not_null_violation THEN {lost} WHEN numeric_value_out_of_range THEN {large} END",
            made=statements([self.filled_with(self.block.exact, v, term)], 2), lost=statements(lost, 2), large=statements(beyond, 2),
        )
        return self.block.in_64_bits(lambda terms: self.filled_with(terms, v, term), [sure])

    def filled_with(self, terms: Terms, v: int, term: Term) -> Sql:
        """The rows of a view from scratch; where an output has no value, NULL stands where none may."""
        is_checked, is_apart = self.shape.checked(v) and not terms.raises, v in self.access.keys and not self.shape.is_summary(v)
        groups, sums = self.tables.cells(v, "r")[: self.shape.groups(v)], range(2, self.shape.sums(v) + 1)
        once = terms.count(term) == number(1)
        numbers = [sql("count(*)" if once else "sum(r.n)"), *(sql("sum(r.{sum})" if once else "sum(r.n * r.{sum})", sum=word("s", at)) for at in sums)]
        numbers = [sql("r.n")] if is_apart else numbers
        test = sql("r.lost = 0") if is_apart else sql("sum(r.lost) = 0")
        numbers = [sql("CASE WHEN {test} THEN {each} END", test=test, each=each) for each in numbers] if is_checked else numbers
        grouped = sql("GROUP BY {groups} HAVING count(*) > 0", groups=joined(groups)) if groups else sql("HAVING count(*) > 0")
        cells = [(column, cell) for (column, _), cell in zip(self.tables.cells_put(v), [*groups, *numbers])]
        rows = sql("({term}) AS r {grouped}", term=terms.term(v, term), grouped=sql("") if is_apart else grouped)
        return inserted(self.tables.table(v), cells, rows)
