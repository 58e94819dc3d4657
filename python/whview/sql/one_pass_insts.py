"""Insts of nights over tables of one's own in PostgreSQL: the DELETE, the UPDATE and the INSERT go to the places that were found, and have to touch as many
rows as were counted. What was installed is looked at where somebody else's trigger could have changed it, and whether other rows were touched in any
case."""

from __future__ import annotations

from collections.abc import Iterable, Sequence

from .access import RowAccess
from .acts import CHANGED, COMES, LEAVES, RECOUNTED, becomes
from .block import LARGE, Block, counter, joins, once
from .dialect import COUNT
from .one_pass_changes import OnePassChanges
from .one_pass_checks import OnePassChecks
from .one_pass_groups import OnePassGroups
from .postgresql import PostgreSQL
from .tables import Cell, Part, Tables, assigned, inserted
from .tokens import Sql, joined, number, sql, text, word

BY_PLACE = joins(hashjoin="off", mergejoin="off")
AS_EVER = sql("PERFORM set_config({hash}, hashed, TRUE), set_config({merge}, merged, TRUE)", hash=text("enable_hashjoin"), merge=text("enable_mergejoin"))
# A view, what is told where other rows of its table are touched than these, and how many are written and removed.
Touched = tuple[int, str, Sql, Sql]


class OnePassInsts(Part[PostgreSQL]):
    """The statements of such Insts."""

    def __init__(self, tables: Tables[PostgreSQL], access: RowAccess, block: Block, checked: OnePassChecks, groups: OnePassGroups,
                 changes: OnePassChanges) -> None:
        super().__init__(tables)
        self.access, self.block, self.checked, self.groups, self.changes = access, block, checked, groups, changes

    def inst(self, v: int) -> list[Sql]:
        """A view's change is put; that of a base view was judged before any was put."""
        return [*(self.changes.taken(v) if self.views[v].over else []), *self.gone_to(v)]

    def gone_to(self, v: int) -> list[Sql]:
        """The statements that go to the rows found. Of many rows of a table without parts each is gone to."""
        one = sql("(SELECT count(*) FROM {parts} AS p WHERE p.number = {v}) = 1", parts=self.checked.parts["parts"], v=number(v))
        is_large = sql("{rows} > {large} AND {one}", rows=counter("rows", v), large=number(LARGE), one=one)
        put = [*self.left(v), *self.stayed(v), *self.recounted(v), *self.came(v)]
        return [*self.block.then(is_large, [BY_PLACE]), *put, *self.block.then(is_large, [AS_EVER])]

    def put(self, v: int, statement: Sql, many: Sql) -> list[Sql]:
        """A statement that has to touch as many rows as were counted, where there are any."""
        torn = self.block.refused_where(sql("touched <> {many}", many=many), self.tables.told_torn(v))
        return self.block.then(sql("{many} > 0", many=many), self.dialect.counted(self.tables.told_unfit(v), [statement, sql("GET DIAGNOSTICS touched = ROW_COUNT"), torn]))

    def change(self, v: int) -> Sql:
        return self.tables.working(v, "beside" if self.shape.is_summary(v) else "net")

    def placed(self, v: int, more: list[Sql], act: int) -> Sql:
        """The places of rows of a change of which one thing becomes, with more about them."""
        shown = joined([sql("d.part, d.place"), *more])
        return sql("SELECT {shown} FROM {change} AS d WHERE {act}", shown=shown, change=self.change(v), act=becomes(act))

    def left(self, v: int) -> list[Sql]:
        gone = self.groups.leaves(v, self.change(v)) if self.shape.is_summary(v) else self.dialect.delete(self.tables.said(v), self.placed(v, [], LEAVES))
        return self.put(v, once(gone), counter("gone", v))

    def update_of(self, v: int, cells: Sequence[Cell], act: int) -> Sql:
        """An update of columns of rows of which one thing becomes, each to what it gets."""
        rows = self.placed(v, [sql("{cell} AS {name}", cell=cell, name=word("x", at)) for at, (_, cell) in enumerate(cells)], act)
        sets = assigned([(column, sql("g.{name}", name=word("x", at))) for at, (column, _) in enumerate(cells)])
        return self.dialect.update(self.tables.said(v), sets, rows)

    def stayed(self, v: int) -> list[Sql]:
        """Rows that change and stay the same rows: their columns that the catalogue does not have stay as they are."""
        if not self.changes.has_pairs(v):
            return []
        return self.put(v, once(self.update_of(v, self.tables.cells_put(v), CHANGED)), counter("other", v))

    def recounted(self, v: int) -> list[Sql]:
        """Rows that stand more or less often than before, or groups with other sums."""
        if not self.shape.is_summary(v) and not self.shape.is_counted(v):
            return []
        stay = self.groups.stays(v, self.change(v)) if self.shape.is_summary(v) else self.update_of(v, [(COUNT, self.count_after())], RECOUNTED)
        return self.put(v, once(stay), counter("stay", v))

    def count_after(self) -> Sql:
        return sql("d.was + d.n")

    def rows_come(self, v: int) -> Sql:
        """Rows come: in a table without counts each is a row of its own."""
        rows = sql("{change} AS d", change=self.change(v)) if self.shape.is_counted(v) else self.dialect.copies(self.change(v))
        return inserted(self.tables.table(v), self.tables.cells_put(v), sql("{rows} WHERE {comes}", rows=rows, comes=becomes(COMES)))

    def came(self, v: int) -> list[Sql]:
        come = self.groups.comes(v, self.change(v)) if self.shape.is_summary(v) else self.rows_come(v)
        return self.put(v, once(come), counter("come", v))

    # ---- a look afterwards

    def verified(self, v: int) -> list[Sql]:
        """Each row of a change has to stand in the table as often as before and by its change more or less: looked at where somebody else's
        trigger could have changed it, or the server does not count what is touched."""
        if self.shape.is_summary(v):
            query = self.groups.wrong_groups(v)
        else:
            query = sql(
                "SELECT 1 FROM {net} AS d LEFT JOIN {table} AS t ON {same} WHERE d.n <> 0 GROUP BY d.ctid, d.was, d.n"
                " HAVING coalesce(sum({held}) FILTER (WHERE t.ctid IS NOT NULL), 0) <> d.was + d.n",
                net=self.tables.working(v, "net"), table=self.tables.table(v), same=self.access.same(v), held=self.changes.held(v),
            )
        return self.block.then(sql("watched AND {rows} > 0", rows=counter("rows", v)), self.dialect.refuse(self.tables.told_torn(v), query))

    def untouched(self, v: int) -> Touched:
        """How many rows of a table are written and removed, and what is told where others are."""
        return v, self.tables.told_touched(v), self.sum_of(v, ("come", "stay", "other")), self.sum_of(v, ("gone", "stay", "other"))

    def sum_of(self, v: int, kinds: Iterable[str]) -> Sql:
        return joined([sql("coalesce({kind}, 0)", kind=counter(kind, v)) for kind in kinds], "+")
