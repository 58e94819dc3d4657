"""What puts right a table that a check found to differ, and nothing else: only the rows that differ are written."""

from __future__ import annotations

from collections.abc import Iterable, Mapping
from typing import TYPE_CHECKING

from ..dialect import COUNT
from ..tokens import Sql, joined, sql, text, word
from .history import SIZES

if TYPE_CHECKING:
    from .live import LiveDialect, LiveScript, Session
    from .sources import Source

DRIFT = "night~drift"


class Repair:
    """The statements for one table, in the transaction of the check. Its rows are put right; views over a mirror are compared afterwards. Where
    the changes of a mirror are wrong, and not the mirror, what they lack is added to them for the next night."""

    def __init__(self, script: LiveScript, sources: Mapping[int, Source]) -> None:
        self.script, self.dialect, self.sources = script, script.dialect, sources

    @staticmethod
    def kept_rows(dialect: LiveDialect, of: str = "d") -> Sql:
        """These rows, as they are read."""
        return sql("{drift} AS {of}", drift=dialect.working(DRIFT), of=word(of))

    def kept(self, difference: Sql) -> list[Sql]:
        """The rows that differ, as a table of this transaction."""
        drift = self.dialect.working(DRIFT)
        gone = sql("DROP TABLE IF EXISTS {drift}", drift=drift)
        return [gone, sql("CREATE TABLE {drift} AS {rows}", drift=drift, rows=difference)]

    def put_right(self, session: Session, v: int) -> bool:
        """The rows are put right, or where they cannot be, the changes; whether any are changes."""
        if self.script.views[v].over:
            session.carried_out(self.rows_put_right(v))
            return False
        late = self.late(v)
        is_late = bool(session.rows("1", "FROM {drift} WHERE {late}", drift=self.kept_rows(self.dialect), late=late))
        gone = sql("DELETE FROM {drift} WHERE {late}", drift=self.kept_rows(self.dialect), late=late)
        session.carried_out([*([self.changed(v, late), gone] if is_late else []), *self.rows_put_right(v)])
        return is_late

    def late(self, v: int) -> Sql:
        """A test of rows d by which a mirror would have less of them than none, or two with one key."""
        drift, left, cells, read = self.kept_rows(self.dialect), sql("d.held + d.n"), self.script.tables.cells(v, "d"), self.script.tables.read(v)
        names, said = [said for said, _ in self.script.views[v].columns], self.script.access.key_of(v, self.sources)
        places = [names.index(each) for each in said] or range(len(cells))
        key = joined([cells[place] for place in places])
        wrong = [sql("SELECT {key} FROM {drift} WHERE {left} < 0", key=key, drift=drift, left=left)]
        if said:
            twice = "SELECT {key} FROM {drift} WHERE {left} > 0 GROUP BY {key} HAVING sum({left}) > 1"
            beside = "SELECT {key} FROM {drift} JOIN {table} AS t ON {on} WHERE {left} > 0 AND NOT EXISTS (SELECT 1 FROM {others} WHERE {same})"
            wrong += [
                sql(twice, key=key, drift=drift, left=left),
                sql(beside, key=key, drift=drift, left=left, table=self.script.tables.table(v), others=self.kept_rows(self.dialect, "e"),
                    on=equal([read[place] for place in places], [cells[place] for place in places]), same=equal(read, self.script.tables.cells(v, "e"))),
            ]
        return sql("({key}) IN ({wrong})", key=key, wrong=joined(wrong, "UNION ALL"))

    def changed(self, v: int, test: Sql) -> Sql:
        """What changes lack, or have too much, is added to them for the next night."""
        columns = joined([*self.script.tables.users(v), COUNT])
        added = "INSERT INTO {changes} ({columns}) SELECT {cells}, d.n FROM {drift} WHERE {test}"
        return sql(added, test=test, changes=self.script.tables.table(v, "~changes"), columns=columns, cells=joined(self.script.tables.cells(v, "d")),
                   drift=self.kept_rows(self.dialect))

    def rows_put_right(self, v: int) -> list[Sql]:
        """The rows that differ leave, and come as often as they should."""
        script, table, drift = self.script, self.script.tables.table(v), self.kept_rows(self.dialect)
        columns = [*script.tables.users(v), *([COUNT] if script.shape.is_counted(v) else [])]
        cells = [*script.tables.cells(v, "d"), *([sql("d.held + d.n")] if script.shape.is_counted(v) else [])]
        come = sql("INSERT INTO {table} ({columns}) SELECT {cells} FROM {drift} WHERE d.held + d.n > 0", table=table, columns=joined(columns),
                   cells=joined(cells), drift=drift)
        return [self.dialect.delete_like(table, drift, script.access.same(v)), come, self.sized(v)]

    def sized(self, v: int) -> Sql:
        """The history says how many rows there are now."""
        _, now = self.script.history.before(v)
        sizes, view = self.script.tables.own(SIZES), text(self.script.views[v].name)
        last = sql("(SELECT max(s.night) FROM {sizes} AS s WHERE s.view = {view})", sizes=sizes, view=view)
        return sql("UPDATE {sizes} SET post = {now} WHERE view = {view} AND night = {last}", sizes=sizes, now=now, view=view, last=last)


def equal(some: Iterable[Sql], others: Iterable[Sql]) -> Sql:
    """Whether columns are equal, one by one."""
    return joined([sql("{a} = {b}", a=a, b=b) for a, b in zip(some, others)], "AND")
