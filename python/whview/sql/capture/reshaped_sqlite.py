"""Tables of the nights in SQLite that get other columns, within the transaction that captures: each is made anew with the rows that it had."""

from __future__ import annotations

from collections.abc import Mapping, Sequence
from typing import TYPE_CHECKING

from ..dialect import COUNT
from ..tokens import Sql, joined, name, sql, text
from .captured_sqlite import REPLACED
from .reshaped import UNKNOWN

if TYPE_CHECKING:
    from .existing import NewColumns
    from .script import MirrorScript
    from .sources import Source


class Reshaped:
    """The statements before the tables are made that are not there, and those after it, which fill mirrors with the rows as of the last night."""

    def __init__(self, script: MirrorScript, sources: Mapping[int, Source], mirrors: Mapping[int, NewColumns], derived: Mapping[int, NewColumns]) -> None:
        self.script, self.dialect, self.captures, self.sources = script, script.dialect, script.captures, sources
        self.mirrors, self.derived = mirrors, derived

    def gone(self) -> list[str]:
        """The names of the tables that are made anew."""
        mirrors = [self.script.tables.said(v, suffix) for v in self.mirrors for suffix in ("", "~changes", REPLACED)]
        return [*mirrors, *(self.script.tables.said(v) for v in self.derived)]

    def before(self) -> list[Sql]:
        """What mirrors had is kept, and the tables go."""
        kept = [sql("CREATE TABLE {kept} AS SELECT * FROM {table}", kept=self.kept(v), table=self.script.tables.table(v)) for v in self.mirrors]
        dropped = [sql("DROP TABLE IF EXISTS {table}", table=self.captures.named(said)) for said in self.gone()]
        unfilled = [sql("UPDATE {state} SET source = {none} WHERE view = {view}", state=self.captures.state, none=text(""),
                        view=text(self.script.views[v].name)) for v in self.derived]
        return [*self.without_kept(), *kept, *dropped, *unfilled]

    def kept(self, v: int) -> Sql:
        """The table of what a mirror had."""
        return self.dialect.working(f"night~kept{v}")

    def without_kept(self) -> list[Sql]:
        """These tables go."""
        return [sql("DROP TABLE IF EXISTS {kept}", kept=self.kept(v)) for v in self.mirrors]

    def after(self) -> list[Sql]:
        """Mirrors get what they had."""
        return [*(self.contents(v) for v in self.mirrors), *self.without_kept()]

    def contents(self, v: int) -> Sql:
        """The rows as of the last night. A new column has what the application's table says of the same row, where it has one value for it."""
        kinds = dict(self.script.tables.expected()[v].columns[:-1])
        names, come = list(kinds), self.mirrors[v].come
        new, old = ([place for place, said in enumerate(names) if (said in come) == wanted] for wanted in (True, False))
        cells = [self.new(cell, kinds[said], bool(old)) if said in come else sql("k.{said}", said=name(said))
                 for said, cell in zip(names, self.script.tables.cells(v))]
        rows = sql("{kept} AS k", kept=self.kept(v))
        if new and old:
            same = [sql("k.{said} = g.{cell}", said=name(names[place]), cell=self.script.tables.cells(v)[place]) for place in old]
            on = joined([*same, sql("k.{count} = g.n", count=COUNT)], "AND")
            rows = sql("{rows} LEFT JOIN ({told}) AS g ON {on}", rows=rows, told=self.told(v, old, new), on=on)
        return sql(
            "INSERT INTO {table} ({columns}) SELECT {cells}, sum(k.{count}) FROM {rows} GROUP BY {cells}", table=self.script.tables.table(v),
            columns=joined([*self.script.tables.users(v), COUNT]), cells=joined(cells), count=COUNT, rows=rows,
        )

    def new(self, cell: Sql, kind: str, is_told: bool) -> Sql:
        """What stands in a new column."""
        return sql("coalesce(g.{cell}, {unknown})", cell=cell, unknown=UNKNOWN[kind]) if is_told else UNKNOWN[kind]

    def told(self, v: int, old: Sequence[int], new: Sequence[int]) -> Sql:
        """The old columns of the application's rows with the new ones, where these have one value."""
        columns, cells = self.script.tables.cells(v), self.script.tables.cells(v, "s")
        shown = joined([sql("{said} AS {column}", said=column.said, column=cell) for column, cell in zip(self.sources[v].columns, columns)])
        kept = [sql("{cell} AS {column}", cell=cells[place], column=columns[place]) for place in old]
        least = [sql("min({cell}) AS {column}", cell=cells[place], column=columns[place]) for place in new]
        grouped = sql("GROUP BY {cells}", cells=joined([cells[place] for place in old]))
        one = joined([sql("min({cell}) IS max({cell})", cell=cells[place]) for place in new], "AND")
        return sql("SELECT {shown}, count(*) AS n FROM (SELECT {rows} FROM {source} AS r) AS s {grouped} HAVING {one}", shown=joined([*kept, *least]),
                   rows=shown, source=name(self.sources[v].table), grouped=grouped, one=one)
