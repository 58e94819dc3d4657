"""Insts of nights over mirrors in PostgreSQL: one MERGE, which goes to each place once and has to touch as many rows as were counted."""

from __future__ import annotations

from collections.abc import Sequence

from ..block import Block, counter, once
from ..dialect import COUNT
from ..groups import Groups
from ..postgresql import PostgreSQL
from ..tables import Cell, Part, Tables, assigned
from ..tokens import Sql, joined, sql, statements
from .access import KeyedAccess
from .merge_changes import without


class MergeInsts(Part[PostgreSQL]):
    """The statements of such Insts."""

    def __init__(self, tables: Tables[PostgreSQL], access: KeyedAccess, block: Block, groups: Groups) -> None:
        super().__init__(tables)
        self.access, self.block, self.groups = access, block, groups

    def inst(self, v: int) -> list[Sql]:
        """A change is put into the table by one statement, which has to touch as many rows as were counted."""
        put = self.put_in_order(v) if self.access.is_told_by_key(v) else self.fitting(v, self.rows_put(v))
        torn = sql("touched <> {many}", many=joined([counter(kind, v) for kind in ("gone", "stay", "come")], "+"))
        put = without([*put, sql("GET DIAGNOSTICS touched = ROW_COUNT")], "hashjoin")
        return [*put, self.block.refused_where(torn, self.tables.told_torn(v))]

    def fitting(self, v: int, statement: Sql) -> list[Sql]:
        """A statement that writes numbers, with the words for one that does not fit its column."""
        return self.dialect.counted(self.tables.told_unfit(v), [once(statement)])

    def put_in_order(self, v: int) -> list[Sql]:
        """Rows are put as they come; where a unique index of one's own keeps one out, those that leave go first, and those that come last."""
        put = self.groups_put if self.shape.is_summary(v) else self.rows_put
        tried, ordered = (self.fitting(v, put(v, order)) for order in ((), ("ORDER BY {leaves} DESC, d.place",)))
        return [sql("BEGIN {tried} EXCEPTION WHEN unique_violation OR exclusion_violation THEN {ordered} END", tried=statements(tried, 2),
                    ordered=statements(ordered, 2))]

    def merged(self, v: int, change: Sql, leaves: str, sets: list[Cell], comes: str, cells: list[Cell], order: Sequence[str] = ()) -> Sql:
        """The statement by which the rows d of a change leave the table, change or come, each at its place."""
        return sql(
            "MERGE INTO {table} AS t USING (SELECT * FROM {change} {order}) AS d ON t.ctid = d.place WHEN MATCHED AND {leaves} THEN DELETE"
            " WHEN MATCHED THEN UPDATE SET {sets} WHEN NOT MATCHED AND {comes} THEN INSERT ({columns}) VALUES ({cells})", table=self.tables.table(v),
            change=change, order=joined([sql(each, leaves=sql(leaves)) for each in order]), leaves=sql(leaves),
            sets=assigned(sets), comes=sql(comes),
            columns=joined([column for column, _ in cells]), cells=joined([cell for _, cell in cells]),
        )

    def rows_put(self, v: int, order: Sequence[str] = ()) -> Sql:
        """Of two rows with one key the one that comes says it all. Without one those that leave go first: the table that is mirrored may have one."""
        net, cells = self.tables.working(v, "net"), self.tables.cells_put(v)
        if not self.access.is_keyed(v):
            change = sql("{net} AS d", net=net)
            return self.merged(v, change, "d.was + d.n = 0", [(COUNT, sql("d.was + d.n"))], "d.n > 0", cells, ("ORDER BY d.was + d.n",))
        change = sql("{net} AS d WHERE d.n > 0 OR d.pair = 1", net=net)
        changed = [each for place, each in enumerate(cells[:-1]) if place not in self.access.keys[v]]
        return self.merged(v, change, "d.n < 0", changed, "d.n > 0", cells, order)

    def groups_put(self, v: int, order: Sequence[str] = ()) -> Sql:
        """Groups are put."""
        sets, cells = self.groups.group_cells(v)
        return self.merged(v, sql("{beside} AS d", beside=self.tables.working(v, "beside")), "d.a1 = 0", sets, "d.a1 > 0", cells, order)
