"""Summaries in nights over tables of one's own: what is looked at beside what all nights do with their groups."""

from __future__ import annotations

from .groups import GONE, STAY, Groups
from .tables import is_other
from .tokens import Sql, joined, number, sql


class OnePassGroups(Groups):
    """The groups of a table that others may refer to, and whose triggers may change what is put."""

    def groups_lost(self, v: int) -> Sql:
        """The groups, or the rows, to which something without a value was added."""
        cells = joined(self.tables.cells(v, "d")[: self.shape.groups(v)] or [number(1)])
        return sql("SELECT {cells} FROM {pending} AS d WHERE d.lost > 0", cells=cells, pending=self.tables.working(v, "pending"))

    def moved_groups(self, v: int) -> tuple[Sql, Sql]:
        """Queries for groups that leave, and for those of which one column of a reference r is another one after the night."""
        beside, groups = self.tables.working(v, "beside"), self.shape.groups(v)
        changed = is_other(zip(self.tables.summed_columns(v, "o", "d"), self.tables.summed_columns(v, "a", "d")), groups + 1)
        moved = sql("SELECT 1 FROM {beside} AS d WHERE {stay} AND {changed}", beside=beside, stay=STAY, changed=changed)
        return sql("SELECT 1 FROM {beside} AS d WHERE {gone}", beside=beside, gone=GONE), moved

    def wrong_groups(self, v: int) -> Sql:
        """A query for groups that do not stand in the table as they have to."""
        groups = self.shape.groups(v)
        sums = zip(self.tables.read(v)[groups:], self.tables.summed_columns(v, "a", "d"))
        return sql(
            "SELECT 1 FROM {beside} AS d LEFT JOIN {table} AS t ON {same} GROUP BY d.id, d.a1 HAVING count(t.ctid) <> CASE WHEN d.a1 > 0 THEN 1 ELSE 0 END"
            " OR count(CASE WHEN {equal} THEN 1 END) <> count(t.ctid)",
            beside=self.tables.working(v, "beside"), table=self.tables.table(v), same=self.access.group(v),
            equal=joined([sql("{held} = {sum}", held=held, sum=each) for held, each in sums], "AND"),
        )
