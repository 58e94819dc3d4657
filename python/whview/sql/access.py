"""How the rows of tables are found: what stands in their indexes and keys, and what of two rows is compared."""

from __future__ import annotations

from collections.abc import Iterable, Mapping
from typing import Protocol

from .engine import Engine
from .shape import Spot
from .steps import Operand, Term
from .tables import WIDEST_INDEX, Part, Tables
from .tokens import Sql, joined, name, sql


class RowAccess(Protocol):
    """How the rows of each table are found."""

    def key_places(self, v: int) -> tuple[int, ...] | None:
        """The places of a view's key, in their order."""

    def same(self, v: int, count: int | None = None) -> Sql:
        """Whether a row t of a view's table is the row d of a working table, or of its group."""

    def group(self, v: int) -> Sql:
        """Whether a row t of a summary's table is that of the group d."""

    def matched(self, v: int, term: Term, pair: tuple[Spot, Spot]) -> Sql:
        """Whether two columns are equal by which a child is joined, the second of which is its own."""

    def counts_once(self, operand: Operand) -> bool:
        """Whether a row of a table counts once, so that its count is not read."""

    def constraint_of(self, v: int, columns: list[Sql]) -> Sql | None:
        """That these columns stand once."""

    def indexes_of(self, u: int) -> list[Sql]:
        """The indexes of a view's table by which others are joined with it, but for what its key serves."""

    def indexes(self) -> list[Sql]:
        """All indexes."""


class ByColumns(Part[Engine]):
    """Rows are found by their columns as they are."""

    def __init__(self, tables: Tables[Engine], keys: Mapping[int, tuple[int, ...]]) -> None:
        super().__init__(tables)
        self.keys = keys

    def key_places(self, v: int) -> tuple[int, ...] | None:
        return self.keys.get(v)

    def same(self, v: int, count: int | None = None) -> Sql:
        pairs = list(zip(self.tables.read(v), self.tables.cells(v, "d")))[:count]
        return joined([sql("{left} = {right}", left=left, right=right) for left, right in pairs], "AND") if pairs else sql("1 = 1")

    def group(self, v: int) -> Sql:
        return self.same(v, self.shape.groups(v))

    def matched(self, v: int, term: Term, pair: tuple[Spot, Spot]) -> Sql:
        return sql("{a} = {b}", a=self.tables.spot(term, pair[0]), b=self.tables.spot(term, pair[1]))

    def counts_once(self, operand: Operand) -> bool:
        return not self.shape.is_counted(operand.view)

    def constraint_of(self, v: int, columns: list[Sql]) -> Sql | None:
        if not 0 < len(columns) <= WIDEST_INDEX:
            return None
        return sql("CONSTRAINT {key} UNIQUE ({columns})", key=name(self.tables.said(v, "~key")), columns=joined(columns))

    def indexes(self) -> list[Sql]:
        return [index for u in range(len(self.views)) for index in self.indexes_of(u)]

    def indexes_of(self, u: int) -> list[Sql]:
        found = []
        for at, columns in enumerate(self.tables.asked_for()[u], 1):
            index, table = self.dialect.index(self.tables.said(u, f"~{at}")), self.dialect.indexed(self.tables.said(u))
            made = sql("CREATE INDEX {index} ON {table} ({listed})", index=index, table=table, listed=self.listed(u, columns))
            found += [] if columns == self.key_places(u) else [made]
        return found

    def listed(self, v: int, places: Iterable[int]) -> Sql:
        """Columns as they stand in an index."""
        return joined([self.tables.users(v)[place] for place in places])
