"""The tables of a script as `--create` makes them: those of the views, those of changes, and their indexes."""

from __future__ import annotations

from .access import RowAccess
from .engine import Engine
from .tables import Part, Tables
from .tokens import Sql, joined, name, sql


def declared_columns(tables: Tables[Engine], v: int) -> list[Sql]:
    """The columns of a view's table, and what holds of each row by itself."""
    found, dialect = tables.typed(v), tables.dialect
    if tables.shape.is_counted(v):
        found.append(sql("{count} {kind} NOT NULL DEFAULT 1 CHECK ({check})", count=name("#"), kind=dialect.kinds["int"], check=dialect.holds_count))
    elif tables.shape.is_summary(v):
        found.append(sql("CHECK ({count} > 0)", count=tables.users(v)[tables.shape.groups(v)]))
    return found


class Creation(Part[Engine]):
    """The statements that make the tables and indexes that do not pass with a night."""

    def __init__(self, tables: Tables[Engine], access: RowAccess) -> None:
        super().__init__(tables)
        self.access = access

    def program(self) -> list[Sql]:
        """The transaction of all of them."""
        found = []
        for v, view in enumerate(self.views):
            room, table = self.dialect.room(self.shape.is_summary(v)), self.tables.table(v)
            found.append(sql("CREATE TABLE {table} ({columns}) {room}", table=table, columns=joined(self.declared(v)), room=room))
            if not view.over:
                count = sql("{count} {kind} NOT NULL CHECK ({count} <> 0)", count=name("#"), kind=self.dialect.kinds["int"])
                columns = joined([*self.tables.typed(v), count])
                found.append(sql("CREATE TABLE {table} ({columns})", table=self.tables.changes(v), columns=columns))
        return self.dialect.creation(found + self.access.indexes())

    def declared(self, v: int) -> list[Sql]:
        """The columns of a view's table, and that each key, group or row stands once; a table without counts may have a row twice."""
        constraint = self.once(v)
        return [*declared_columns(self.tables, v), *([constraint] if constraint else [])]

    def once(self, v: int) -> Sql | None:
        """What sees to it that a key, a group or a row stands once."""
        places = () if self.shape.is_summary(v) else self.tables.said_keys.get(v, ())
        columns = [self.tables.users(v)[place] for place in places] or self.tables.users(v)[: self.shape.groups(v)]
        return self.access.constraint_of(v, columns) if places or v not in self.shape.plain else None
