"""Which table of the application each base view mirrors, and how its columns are turned."""

from __future__ import annotations

from collections.abc import Mapping, Sequence
from typing import TYPE_CHECKING, NamedTuple

from ...views.captured import RowsOf, source_of
from ..tokens import Sql, Unfit, joined, name, sql
from . import turned

if TYPE_CHECKING:
    from ...catalogue.views import View
    from .database import Table
    from .live import Database, LiveDialect, LiveScript
    from .turned import OfPostgreSQL, Told, Turned, Unturned


class Source(NamedTuple):
    """A table of the application: its schema and name, its columns as they are turned, in the view's order, what of them is a key, whether it is
    partitioned, and whether the server's log tells its rows by this key. Where its columns are computed, `read` has those of the table's own that they
    are computed from; else these are one."""

    schema: str
    table: str
    columns: list[Turned]
    key: list[str]
    is_parted: bool = False
    is_identified: bool = False
    read: Sequence[Turned] = ()

    @property
    def own(self) -> Sequence[Turned]:
        """The columns of the table's own, by which is told whether it is what it was."""
        return self.read or self.columns

    @property
    def said(self) -> Sql:
        return sql("{schema}.{table}", schema=name(self.schema), table=name(self.table))

    @property
    def shown(self) -> Sql:
        """The columns of a row r of the table, as they are turned."""
        return joined([column.said for column in self.columns])

    @property
    def of_postgresql(self) -> list[OfPostgreSQL]:
        """What PostgreSQL knows of each column."""
        return [column.of_postgresql for column in self.columns]

    @property
    def told(self) -> list[Told]:
        """What PostgreSQL says of each column."""
        return [column.told for column in self.own]

    @property
    def fits(self) -> Sql:
        """Whether a row a of the server's attributes is one of the columns."""
        return joined([sql("({fits})", fits=column.fits) for column in self.own], "OR")

    @property
    def number(self) -> int:
        """The number by which the server knows the table."""
        found = self.own[0].told.relation
        if found is None:
            raise Unfit(f"the server has told no number of the table {self.table}")
        return found

    @property
    def null_columns(self) -> list[Turned]:
        """The columns that may be NULL."""
        return [column for column in self.columns if column.may_be_null]


def turned_by(dialect: LiveDialect, table: Table) -> dict[str, Turned | Unturned]:
    """The columns of a table, each turned or not, by their names."""
    return {told.name: turned_one(dialect, told) for told in table.columns}


def turned_one(dialect: LiveDialect, told: Told) -> Turned | Unturned:
    """A column as it is turned; one whose name cannot be written, such as one of two lines, hinders nobody who leaves it out."""
    try:
        return dialect.turned(told)
    except Unfit as fault:
        return turned.Unturned(told.name, f"its column has a name that cannot be written: {fault}")


def source(dialect: LiveDialect, view: View, schema: str, table: Table, wanted: Sequence[str] = ()) -> Source:
    """The table that a base view mirrors, where its columns are turned as the view has them and a key is one that is wanted."""
    if table.unfit:
        raise Unfit(f"{view.name} cannot be captured: {table.unfit}")
    there = turned_by(dialect, table)
    columns = [column_of(view, table, there, said, kind) for said, kind in view.columns]
    apart = {column.name for column in columns if column.is_apart and not column.may_be_null}
    keys = [key for key in table.keys if apart.issuperset(key)]
    if wanted and not any(set(key) <= set(wanted) for key in keys):
        raise Unfit(f"{view.name}: the catalogue has the key {', '.join(wanted)}, and the table {table.name} has no unique key of these columns")
    return Source(schema, table.name, columns, keys[0] if keys else [], table.is_parted)


def column_of(view: View, table: Table, there: Mapping[str, Turned | Unturned], said: str, kind: str) -> Turned:
    """A column of a view as it is turned from its table, into what the view has it to be."""
    found = there.get(said)
    if found is None:
        raise Unfit(f"{view.name}: the table {table.name} has no column {said}; it has {', '.join(there)}")
    if isinstance(found, turned.Unturned):
        raise Unfit(f"{view.name} cannot be captured: {found.why}")
    if found.kind != kind:
        into, wanted = ("a whole number", said) if found.kind == "int" else ("a text", f"{said}:text")
        raise Unfit(f"{view.name}: {said} is turned into {into}; write it as {wanted!r} in the catalogue")
    return found


def sources(script: LiveScript, asked: Database, schema: str, base: Sequence[int] | None = None) -> dict[int, Source]:
    """The tables of the base views, or of these of them, by the views' numbers."""
    base = script.steps.base() if base is None else base
    tables = asked.tables(schema, [script.views[v].name for v in base])
    computed: Mapping[str, RowsOf] = getattr(script.catalogue, "rows", {})
    found = {}
    for v in base:
        view = script.views[v]
        if view.name in tables and view.name in computed:
            found[v] = source_of(script.dialect, view, tables[view.name], computed[view.name])
            continue
        if view.name not in tables:
            raise Unfit(f"{view.name}: there is no table {view.name} in {schema}; name the schema of the tables by --from")
        wanted = [view.columns[place][0] for place in script.access.keys.get(v, ())]
        found[v] = source(script.dialect, view, schema, tables[view.name], wanted)
    return found
