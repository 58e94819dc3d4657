"""What an Inst is in SQL: the rows that leave, change and come, and a look whether the table holds then what it has to."""

from __future__ import annotations

from collections.abc import Callable

from .access import RowAccess
from .changes import COMES, LEAVES, Changes
from .checks import Checks
from .dialect import COUNT
from .engine import Engine, StepwiseEngine
from .steps import Inst
from .tables import Part, Tables, assigned, inserted
from .tokens import Sql, joined, sql, word


class Insts(Part[StepwiseEngine]):
    """The statements that put a change into its view's table."""

    def __init__(self, tables: Tables[StepwiseEngine], access: RowAccess, changes: Changes, checked: Checks) -> None:
        super().__init__(tables)
        self.access, self.changes, self.checked = access, changes, checked

    def inst(self, step: Inst) -> list[Sql]:
        """A view's change is put into its table. Whether it stands there is looked at once, when all is installed: by then no row was
        touched by anybody else, so that what is right there was right all the time."""
        v = step.view
        judged = [*self.changes.spared(v), *self.changes.cascades(v)] if self.views[v].over else []
        return [*judged, *self.left(v), *self.stayed(v), *self.recounted(v), *self.came(v)]

    def put(self, v: int, statement: Sql, rows: Sql) -> list[Sql]:
        """A statement that has to touch these rows, and no others."""
        count = sql("SELECT count(*) FROM ({rows}) AS g", rows=rows)
        return self.dialect.counted(self.tables.told_unfit(v), [statement, *self.dialect.touched(self.tables.told_torn(v), count)])

    def placed(self, v: int, more: list[Sql], test: Sql) -> Sql:
        """The places of rows of a change that pass a test, with more about them."""
        shown = joined([sql("f.part, f.place"), *more])
        net, found = self.tables.working(v, "net"), self.tables.working(v, "found")
        return sql("SELECT {shown} FROM {found} AS f JOIN {net} AS d ON d.id = f.id WHERE {test}", shown=shown, found=found, net=net, test=test)

    def left(self, v: int) -> list[Sql]:
        """Rows leave: of equal ones in a table without counts as many as the change says."""
        gone = self.placed(v, [], LEAVES if self.shape.is_counted(v) else sql("d.pair IS NULL AND d.n < 0 AND f.nth <= - d.n"))
        return self.put(v, self.dialect.delete(self.tables.said(v), gone), gone)

    def stayed(self, v: int) -> list[Sql]:
        """Rows that change and stay the same rows: their columns that the catalogue does not have stay as they are."""
        if self.shape.width(v) < 2 and not self.shape.is_summary(v):
            return []
        rows = sql("SELECT f.part, f.place, {shown} FROM {found} AS f JOIN {net} AS o ON o.id = f.id JOIN {net} AS w ON w.id = o.pair WHERE o.n < 0",
                   shown=joined([cell for _, cell in self.tables.cells_put(v, "w")]), found=self.tables.working(v, "found"), net=self.tables.working(v, "net"))
        update = self.dialect.update(self.tables.said(v), assigned(self.tables.cells_put(v, "g")), rows)
        return self.dialect.only_where(self.has_pair(v), self.put(v, update, rows))

    def has_pair(self, v: int) -> Sql:
        return sql("EXISTS (SELECT 1 FROM {net} AS d WHERE d.pair IS NOT NULL)", net=self.tables.working(v, "net"))

    def recounted(self, v: int) -> list[Sql]:
        """Rows that stand more or less often than before."""
        if not self.shape.is_counted(v):
            return []
        rows = self.placed(v, [sql("d.was + d.n AS n")], sql("d.was > 0 AND d.was + d.n > 0"))
        return self.put(v, self.dialect.update(self.tables.said(v), sql("{count} = g.n", count=COUNT), rows), rows)

    def came(self, v: int) -> list[Sql]:
        """Rows come: in a table without counts each is a row of its own."""
        cells, net = self.tables.cells_put(v), self.tables.working(v, "net")
        rows = self.dialect.copies(net) if v in self.shape.plain else sql("{net} AS d", net=net)
        coming = sql("{rows} WHERE {comes}", rows=rows, comes=self.changes.comes(v))
        counted = joined([sql("{cell} AS {own}", cell=cell, own=word("x", at)) for at, (_, cell) in enumerate(cells)])
        insert = inserted(self.dialect.target(self.tables.said(v)), cells, coming)
        return self.put(v, insert, sql("SELECT {counted} FROM {coming}", counted=counted, coming=coming))

    def verified(self, v: int) -> list[Sql]:
        """Each row of the change has to stand in the table as often as before and by its change more or less."""
        counted = self.shape.is_counted(v)
        once = sql("CASE WHEN t.{column} IS NULL THEN 0 ELSE 1 END", column=self.tables.users(v)[0])
        held = self.dialect.read_count(sql("t.{count}", count=COUNT)) if counted else once
        query = sql(
            "SELECT 1 FROM {net} AS d LEFT JOIN {table} AS t ON {same} GROUP BY d.id, d.was, d.n"
            " HAVING coalesce(sum({held}), 0) <> d.was + d.n",
            net=self.tables.working(v, "net"), table=self.tables.table(v), same=self.access.same(v), held=held,
        )
        return self.dialect.refuse(self.tables.told_torn(v), query)

    def written_and_removed(self, v: int) -> list[Sql]:
        """How many rows an Inst writes, and how many rows as they were it removes: a row that changes is both."""
        net = self.tables.working(v, "net")
        if self.shape.is_counted(v):
            stays = "WHEN d.pair IS NOT NULL AND d.n {sign} 0 OR d.was > 0 AND d.was + d.n > 0 THEN 1"
            numbers = [
                sql("CASE WHEN {alone} THEN 1 " + stays + " ELSE 0 END", alone=alone, sign=word(sign)) for alone, sign in ((COMES, ">"), (LEAVES, "<"))
            ]
        else:
            numbers = [sql("CASE WHEN d.n > 0 THEN d.n ELSE 0 END"), sql("CASE WHEN d.n < 0 THEN - d.n ELSE 0 END")]
        return [sql("(SELECT coalesce(sum({number}), 0) FROM {net} AS d)", number=number, net=net) for number in numbers]

    def untouched(self, v: int) -> list[Sql]:
        """No other rows of a table were touched than those of its change."""
        return self.checked.untouched(v, self.tables.told_touched(v), *self.written_and_removed(v))


def cleared(tables: Tables[Engine], cascades: Callable[[int, Sql, Sql], list[Sql]], v: int) -> list[Sql]:
    """All rows of a derived view leave, before it is filled from scratch."""
    there = sql("SELECT 1 FROM {table} AS t", table=tables.table(v))
    delete = sql("DELETE FROM {target}", target=tables.dialect.target(tables.said(v)))
    return [*cascades(v, there, sql("SELECT 1 WHERE 1 = 0")), delete, *tables.dialect.refuse(tables.told_torn(v), there)]
