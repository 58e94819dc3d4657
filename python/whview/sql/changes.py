"""What a view's change is: the rows that come and go, where each stands in its table, and what of it is one row that stays."""

from __future__ import annotations

from collections.abc import Sequence

from .access import RowAccess
from .checks import Checks
from .comps import Ranges
from .dialect import COUNT, MOST, summed
from .engine import Engine, StepwiseEngine
from .steps import Finish, Judge, Net
from .tables import Part, Tables, is_other
from .tokens import Sql, joined, name, number, sql, word

# A row that leaves for good, one that comes, and one whose count changes, among the rows d of a counted change.
LEAVES, COMES = sql("d.pair IS NULL AND d.n < 0 AND d.was + d.n = 0"), sql("d.pair IS NULL AND d.n > 0 AND d.was = 0")
LEAVES_ONCE, COMES_ONCE = sql("d.pair IS NULL AND d.n < 0"), sql("d.pair IS NULL AND d.n > 0")


class Changes(Part[StepwiseEngine]):
    """The statements that make changes, judge them and find their rows; `cure` is told behind a cell of another kind."""

    def __init__(self, tables: Tables[StepwiseEngine], access: RowAccess, ranges: Ranges, checked: Checks, cure: str = "") -> None:
        super().__init__(tables)
        self.access, self.ranges, self.checked, self.cure = access, ranges, checked, cure

    def change_tables(self, v: int) -> list[tuple[str, list[Sql]]]:
        """The change: rows d with their numbers, counts, how often each was there, and the other row of a pair; and the places of rows."""
        kinds, whole = self.dialect.kinds, self.dialect.kinds["int"]
        cells = [sql("{cell} {kind} NOT NULL", cell=cell, kind=kinds[kind]) for cell, kind in zip(self.tables.cells(v), self.tables.kinds(v))]
        net = [sql("id {kind}", kind=self.dialect.id_kind), *cells, sql("n {kind}", kind=self.dialect.count_number)]
        net += [sql("was {whole} NOT NULL DEFAULT 0", whole=whole), sql("pair {whole}", whole=whole)]
        part, place = self.dialect.part_kind, self.dialect.place_kind
        found = sql("id {whole}, part {part}, place {place}, held {whole}, nth {whole}", whole=whole, part=part, place=place)
        return [("net", net), ("found", [found])]

    # ---- base views

    def net(self, step: Net) -> list[Sql]:
        """Equal rows of the changes add up, and opposite ones cancel."""
        v = step.view
        table, counts = self.tables.changes(v), self.dialect.halves(self.dialect.read_count(sql("t.{count}", count=COUNT)))
        wrong = self.dialect.wrong_cells(self.tables.read(v), self.tables.kinds(v), sql("t.{count}", count=COUNT))
        told = f"table {self.views[v].name}~changes does not fit: a cell or a count of it is of another kind than its column{self.cure}"
        judged = self.dialect.refuse(told, sql("SELECT 1 FROM {table} AS t WHERE {wrong}", table=table, wrong=wrong)) if wrong else []
        return judged + self.added_up(v, sql("{table} AS t", table=table), self.tables.read(v), counts)

    def added_up(self, v: int, rows: Sql, cells: Sequence[Sql], halves: list[Sql]) -> list[Sql]:
        """The change of a view whose rows are told by their cells: of those these counts, added up."""
        net = self.tables.working(v, "net")
        too_large = sql("SELECT 1 FROM {net} AS d WHERE {lost}", net=net, lost=self.dialect.is_lost(sql("d.n")))
        lost = self.dialect.exact(self.tables.told_large(v), too_large)
        return [*self.dialect.counted(self.tables.told_large(v), [self.netted(v, rows, cells, halves)]), *lost, *self.dialect.filled(net)]

    def netted(self, v: int, rows: Sql, cells: Sequence[Sql], halves: list[Sql]) -> Sql:
        count = self.dialect.whole_of(summed(halves))
        return sql(
            "INSERT INTO {net} (id, {columns}, n) SELECT row_number() OVER (), {cells}, {count} FROM {rows} GROUP BY {cells}"
            " HAVING {count} <> 0",
            net=self.dialect.filling(self.tables.working(v, "net")), columns=joined(self.tables.cells(v)), cells=joined(cells), count=count, rows=rows,
        )

    def judge(self, step: Judge) -> list[Sql]:
        """A change that takes away what is not there, or that would take more with it than it says."""
        v = step.view
        return [*self.located(v), *self.absent(v), *self.large(v), *self.paired(v), *self.spared(v), *self.cascades(v)]

    def absent(self, v: int) -> list[Sql]:
        net = self.tables.working(v, "net")
        query = sql("SELECT 1 FROM {net} AS d WHERE d.n < 0 AND d.n < - d.was", net=net)
        return self.dialect.refuse(self.tables.told_absent(v), query)

    def large(self, v: int) -> list[Sql]:
        """A count that would leave 64 bits."""
        net, most = self.tables.working(v, "net"), self.dialect.whole(MOST)
        query = sql("SELECT 1 FROM {net} AS d WHERE d.n > 0 AND d.n > {most} - d.was", net=net, most=most)
        return self.dialect.refuse(self.tables.told_large(v), query) if self.shape.is_counted(v) else []

    # ---- places

    def located(self, v: int) -> list[Sql]:
        """Where the rows of a change stand in the view's table, and how often each was there."""
        net, found, counted = self.tables.working(v, "net"), self.tables.working(v, "found"), self.shape.is_counted(v)
        held = self.dialect.read_count(sql("t.{count}", count=COUNT)) if counted else number(1)
        insert = sql(
            "INSERT INTO {filling} (id, part, place, held, nth) SELECT d.id, {here}, {held}, row_number() OVER (PARTITION BY d.id)"
            " FROM {net} AS d {table}",
            filling=self.dialect.filling(found), here=self.dialect.here(word("t")), held=held, net=net,
            table=self.dialect.found_in(sql("{table} AS t", table=self.tables.table(v)), self.access.same(v)),
        )
        return [insert, *self.dialect.filled(found), *self.twice(v), *self.counted_before(v)]

    def twice(self, v: int) -> list[Sql]:
        """A table of counts in which a row stands twice."""
        if not self.shape.is_counted(v):
            return []
        return self.dialect.refuse(self.tables.told_twice(v), sql("SELECT 1 FROM {found} AS f WHERE f.nth > 1", found=self.tables.working(v, "found")))

    def counted_before(self, v: int) -> list[Sql]:
        net = name(self.tables.working_name(v, "net"))
        return [
            sql(
                "UPDATE {target} SET was = g.held FROM (SELECT f.id, sum(f.held) AS held FROM {found} AS f GROUP BY f.id) AS g"
                " WHERE g.id = {net}.id",
                target=self.dialect.filling(self.tables.working(v, "net")), net=net, found=self.tables.working(v, "found"),
            )
        ]

    # ---- pairs

    def is_key(self, v: int, place: int) -> Sql:
        return sql("EXISTS (SELECT 1 FROM {keys} AS k WHERE k.view = {view} AND k.place = {place})", keys=self.dialect.working("night~keys"),
                   view=number(v), place=number(place))

    def has_key(self, v: int) -> Sql:
        return sql("EXISTS (SELECT 1 FROM {keys} AS k WHERE k.view = {view})", keys=self.dialect.working("night~keys"), view=number(v))

    def paired(self, v: int) -> list[Sql]:
        """A row that leaves and one that comes with the same key are one row, which changes."""
        if self.shape.width(v) < 2:
            return []
        keys = [word("k", place) for place in range(1, self.shape.width(v) + 1)]
        shown = [
            sql("CASE WHEN {test} THEN d.{cell} END AS {key}", test=self.is_key(v, place), cell=cell, key=key)
            for place, (cell, key) in enumerate(zip(self.tables.cells(v), keys), 1)
        ]
        leaves, comes = (LEAVES, COMES) if self.shape.is_counted(v) else (sql("d.n = -1"), sql("d.n = 1 AND d.was = 0"))
        pairs = sql(
            "SELECT min(CASE WHEN e.leaves = 1 THEN e.id END) AS old, min(CASE WHEN e.comes = 1 THEN e.id END) AS new FROM (SELECT d.id,"
            " CASE WHEN {leaves} THEN 1 ELSE 0 END AS leaves, CASE WHEN {comes} THEN 1 ELSE 0 END AS comes, {shown} FROM {net} AS d"
            " WHERE {has}) AS e GROUP BY {keys} HAVING count(*) = 2 AND sum(e.leaves) = 1 AND sum(e.comes) = 1",
            leaves=leaves, comes=comes, shown=joined(shown), net=self.tables.working(v, "net"), has=self.has_key(v),
            keys=joined([sql("e.{key}", key=key) for key in keys]),
        )
        return self.dialect.only_where(self.has_key(v), self.pair_statements(v, pairs))

    def pair_statements(self, v: int, pairs: Sql) -> list[Sql]:
        """Each row of a pair learns of the other."""
        target, net = self.dialect.filling(self.tables.working(v, "net")), name(self.tables.working_name(v, "net"))
        first = sql("UPDATE {target} SET pair = g.new FROM ({pairs}) AS g WHERE {net}.id = g.old", target=target, net=net, pairs=pairs)
        back = sql(
            "UPDATE {target} SET pair = d.id FROM {from_net} AS d WHERE d.pair = {net}.id",
            target=target, net=net, from_net=self.tables.working(v, "net"),
        )
        return [first, back]

    # ---- what a change would take with it

    def comes(self, v: int) -> Sql:
        return COMES if self.shape.is_counted(v) else COMES_ONCE

    def leaves(self, v: int) -> Sql:
        return LEAVES if self.shape.is_counted(v) else LEAVES_ONCE

    def spared(self, v: int) -> list[Sql]:
        """A new row where the table has a column that nothing gives it a value for."""
        return self.checked.spared(v, sql("SELECT 1 FROM {net} AS d WHERE {comes}", net=self.tables.working(v, "net"), comes=self.comes(v)))

    def cascades(self, v: int) -> list[Sql]:
        """Rows whose going, or whose change of a key, would change other rows."""
        net = self.tables.working(v, "net")
        gone = sql("SELECT 1 FROM {net} AS d WHERE {leaves}", net=net, leaves=self.leaves(v))
        changed = is_other(zip(self.tables.cells(v, "o"), self.tables.cells(v, "w")))
        moved = sql("SELECT 1 FROM {net} AS o JOIN {net} AS w ON w.id = o.pair WHERE o.n < 0 AND {changed}", net=net, changed=changed)
        return self.checked.cascades(v, gone, moved)

    # ---- derived views

    def finish(self, step: Finish) -> list[Sql]:
        """What was computed of a view becomes its change."""
        return self.summary_change(step.view) if self.shape.is_summary(step.view) else self.joined_change(step.view)

    def joined_change(self, v: int) -> list[Sql]:
        halves = [sql("d.{part}", part=part) for part in self.dialect.parts(1)]
        rows = sql("{pending} AS d", pending=self.tables.working(v, "pending"))
        return [*self.added_up(v, rows, self.tables.cells(v, "d"), halves), *self.located(v), *self.absent(v), *self.large(v)]

    def summary_change(self, v: int) -> list[Sql]:
        """The rows before leave, and the rows after come; a group without rows has none."""
        return [*self.folded(v), *self.beside(v), *self.group_rows(v)]

    def folded(self, v: int) -> list[Sql]:
        """What all Comps of a view added to its groups; those that nothing was added to are left out."""
        groups = self.tables.cells(v, "d")[: self.shape.groups(v)]
        parts = [self.dialect.parts(place) for place in range(1, self.shape.sums(v) + 1)]
        added = [summed([sql("d.{part}", part=part) for part in each]) for each in parts]
        changed = joined([sql("{whole} <> 0", whole=self.dialect.whole_of(each)) for each in added], "OR")
        return [
            sql(
                "INSERT INTO {folded} ({columns}) SELECT {shown} FROM {pending} AS d {grouped} HAVING {changed}",
                folded=self.dialect.filling(self.tables.working(v, "folded")), pending=self.tables.working(v, "pending"), changed=changed,
                columns=joined([*self.tables.cells(v)[: len(groups)], *sum(parts, [])]), shown=joined([*groups, *sum(added, [])]),
                grouped=sql("GROUP BY {groups}", groups=joined(groups)) if groups else sql(""),
            ),
            *self.dialect.filled(self.tables.working(v, "folded")),
        ]

    def beside(self, v: int) -> list[Sql]:
        """Each such group with its row before, if there is one, its place, and its sums after."""
        groups, beside, folded = self.shape.groups(v), self.tables.working(v, "beside"), self.tables.working(v, "folded")
        read = self.tables.read(v)[groups:]
        after = [self.after(column, place) for place, column in enumerate(read, 1)]
        columns = [*self.tables.cells(v)[:groups], *self.tables.summed_columns(v, "o"), *self.tables.summed_columns(v, "a")]
        insert = sql(
            "INSERT INTO {filling} (id, part, place, {columns}) SELECT row_number() OVER (), {here}, {shown}"
            " FROM {folded} AS d LEFT {table}",
            filling=self.dialect.filling(beside), columns=joined(columns), here=self.dialect.here(word("t")), folded=folded,
            shown=joined([*self.tables.cells(v, "d")[:groups], *read, *after]),
            table=sql("JOIN {table} AS t ON {same}", table=self.tables.table(v), same=self.access.same(v, groups)),
        )
        lost = joined([self.dialect.is_lost(each) for each in self.tables.summed_columns(v, "a", "b")], "OR")
        query = sql("SELECT 1 WHERE (SELECT count(*) FROM {beside}) <> (SELECT count(*) FROM {folded})", beside=beside, folded=folded)
        return [
            insert,
            *self.dialect.filled(beside),
            *self.dialect.refuse(self.tables.told_group_twice(v), query),
            *self.ranges.refused(v, sql("SELECT 1 FROM {beside} AS b WHERE {lost}", beside=beside, lost=lost)),
        ]

    def after(self, column: Sql, place: int) -> Sql:
        """A group's sum after the night, from its row before, t, and from what is added to it, d."""
        before = self.dialect.halves(self.dialect.cell(sql("coalesce({column}, 0)", column=column)))
        added = zip(before, self.dialect.parts(place))
        return self.dialect.whole_of([sql("{before} + d.{part}", before=half, part=part) for half, part in added])

    def group_rows(self, v: int) -> list[Sql]:
        """The change of a summary: a group that stays is a pair."""
        groups, net, beside = self.shape.groups(v), self.tables.working(v, "net"), self.tables.working(v, "beside")
        columns, keys = joined(self.tables.cells(v)), self.tables.cells(v, "b")[:groups]
        rows = (
            ("b.id * 2", "b.id * 2 + 1", "-1", "1", "o", "b.place IS NOT NULL", "b.a1 <> 0"),
            ("b.id * 2 + 1", "b.id * 2", "1", "0", "a", "b.a1 <> 0", "b.place IS NOT NULL"),
        )
        found = []
        for one, other, n, was, sums, here, there in rows:
            found.append(
                sql(
                    "INSERT INTO {filling} (id, {columns}, n, was, pair) SELECT {one}, {cells}, {n}, {was},"
                    " CASE WHEN {there} THEN {other} END FROM {beside} AS b WHERE {here}",
                    filling=self.dialect.filling(net), columns=columns, one=sql(one), other=sql(other), n=sql(n), was=sql(was), here=sql(here),
                    there=sql(there), beside=beside, cells=joined([*keys, *self.tables.summed_columns(v, sums, "b")]),
                )
            )
        places = sql(
            "INSERT INTO {filling} (id, part, place, held, nth) SELECT b.id * 2, b.part, b.place, 1, 1 FROM {beside} AS b"
            " WHERE b.place IS NOT NULL",
            filling=self.dialect.filling(self.tables.working(v, "found")), beside=beside,
        )
        return [*found, places, *self.dialect.filled(net), *self.dialect.filled(self.tables.working(v, "found"))]

    def emptied(self) -> list[Sql]:
        """The changes are used up."""
        return [each for v in self.steps.base() for each in emptied_of(self.tables, v)]


def emptied_of(tables: Tables[Engine], v: int) -> list[Sql]:
    """The changes of a base view are used up, and none stays."""
    told = f"refused torn {tables.views[v].name}: rows of its changes stayed in their table"
    return [sql("DELETE FROM {table}", table=tables.dialect.target(tables.said(v, "~changes"))),
            *tables.dialect.refuse(told, sql("SELECT 1 FROM {table}", table=tables.changes(v)))]
