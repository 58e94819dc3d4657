"""Tables of the nights in PostgreSQL that get other columns beside running writers: a mirror keeps its rows as of the last night, so that the views
over it stay what they are; what its table has now beside these is in its changes, for the next night."""

from __future__ import annotations

from collections.abc import Iterable, Mapping, Sequence
from typing import TYPE_CHECKING

from ..creation import declared_columns
from ..dialect import COUNT
from ..postgresql import PATH
from ..tokens import END_OF_STATEMENT, Sql, body, joined, name, name_of, number, sql, statements, text
from .opening import QUIETLY
from .postgresql import RESHAPED
from .triggers import BUSY, PAUSE, TRIES

if TYPE_CHECKING:
    from .existing import NewColumns
    from .merge import MergeScript
    from .sources import Source

# What stands in a new column of a row of which the application's table does not tell it: the next night takes such rows away, or changes them.
UNKNOWN = {"int": sql("0"), "text": text("")}


class Reshaped:
    """The statements that give tables their columns, before they are captured anew."""

    def __init__(self, script: MergeScript, sources: Mapping[int, Source], mirrors: Mapping[int, NewColumns], derived: Mapping[int, NewColumns],
                 marked: Iterable[int] = ()) -> None:
        self.script, self.dialect, self.captures, self.sources = script, script.dialect, script.captures, sources
        self.mirrors, self.derived, self.marked = mirrors, derived, marked
        self.marks = script.tables.own(RESHAPED)

    def statements(self) -> list[Sql]:
        """The views, each mirror at a moment when nobody is writing to its table, and then the contents of all."""
        views = [each for v, reshaped in self.derived.items() for each in self.view(v, reshaped)]
        filled = sorted({*self.mirrors, *self.marked})
        found = self.captures.judged_before({v: self.sources[v] for v in filled}) if filled else []
        found += self.dialect.creation([QUIETLY, *views]) if views else []
        if self.mirrors:
            is_missing = sql("to_regclass({marks}) IS NULL", marks=self.captures.written(self.marks))
            made = sql("CREATE TABLE {marks} (view text PRIMARY KEY)", marks=self.marks)
            found += self.dialect.creation([*self.dialect.only_where(is_missing, [made]), *self.captures.torn_made()])
            found += [self.alone(v) for v in self.mirrors]
        return found + (self.contents(filled) if filled else [])

    # ---- columns

    def declared(self, v: int) -> dict[str, Sql]:
        """How the columns of a view's table are declared, by their names."""
        names = [column for column, _ in self.script.tables.expected()[v].columns]
        return dict(zip(names, declared_columns(self.script.tables, v)))

    def columns_changed(self, v: int, suffix: str, reshaped: NewColumns) -> list[Sql]:
        """The statements that change the columns of a table."""
        table, declared = self.script.tables.table(v, suffix), self.declared(v)
        parts = [sql("DROP COLUMN IF EXISTS {column}", column=name(column)) for column in reshaped.go]
        found = [sql("ALTER TABLE {table} {parts}", table=table, parts=joined(parts))] if parts else []
        for column in reshaped.come:
            unknown = sql("DEFAULT {unknown}", unknown=UNKNOWN[self.kind(v, column)]) if column != "#" else sql("")
            found.append(sql("ALTER TABLE {table} ADD COLUMN {declared} {unknown}", table=table, declared=declared[column], unknown=unknown))
            found += [sql("ALTER TABLE {table} ALTER COLUMN {column} DROP DEFAULT", table=table, column=name(column))] if column != "#" else []
        return found

    def kind(self, v: int, column: str) -> str:
        """What stands in a column of a view's table."""
        return dict(self.script.tables.expected()[v].columns)[column]

    def alone(self, v: int) -> Sql:
        """A program that tries again and again until nobody is writing to the table: whoever has begun has noted all by then, and whoever begins
        afterwards notes it by the new columns."""
        script, table, changes = self.script, self.script.tables.table(v), self.script.tables.table(v, "~changes")
        made = [
            sql("LOCK TABLE {source} IN SHARE ROW EXCLUSIVE MODE NOWAIT", source=self.sources[v].said),
            *self.dialect.owner.taken_on(),
            sql("LOCK TABLE {table}, {changes} IN ACCESS EXCLUSIVE MODE NOWAIT", table=table, changes=changes),
            sql("INSERT INTO {marks} VALUES ({view}) ON CONFLICT DO NOTHING", marks=self.marks, view=self.captures.view(v)),
            *script.access.without_key(v),
            *(each for suffix in ("", "~changes") for each in self.columns_changed(v, suffix, self.mirrors[v])),
            *self.captures.captured_by(v, self.sources[v]),
            self.captures.query(v, "UPDATE {state} SET filled = FALSE WHERE view = {view}"),
            sql("EXIT"),
        ]
        told = self.dialect.raised(sql("format({busy}, {said}::text)", busy=text(BUSY), said=self.captures.written(self.sources[v].said)))
        busy = self.dialect.where(sql("tries > {most}", most=number(TRIES)), told)
        program = sql(
            "\nDECLARE tries pg_catalog.int4{end}\nfinding pg_catalog.text{end}\nBEGIN\nPERFORM pg_catalog.set_config({key}, {path}, TRUE){end}\n{quietly}{end}\n"
            "tries := 0{end}\nLOOP\nBEGIN{made}\nEXCEPTION WHEN lock_not_available THEN\ntries := tries + 1{end}\n{busy}{end}\n"
            "PERFORM pg_sleep({pause} / 1000.0){end}\nEND{end}\nEND LOOP{end}\nEND{end}", key=text("search_path"), path=text(PATH), made=statements(made, 2),
            busy=busy, pause=number(PAUSE), quietly=QUIETLY, end=END_OF_STATEMENT,
        )
        return sql("DO {program}{end}", program=body(program), end=END_OF_STATEMENT)

    # ---- contents

    def contents(self, filled: Sequence[int]) -> list[Sql]:
        """By one snapshot, after all of them have their columns."""
        mirrors = joined([self.script.tables.table(v) for v in filled])
        made = [each for v in filled for each in self.dialect.only_where(self.is_marked(v), self.contents_of(v))]
        return [
            sql("BEGIN ISOLATION LEVEL REPEATABLE READ READ WRITE{end}", end=END_OF_STATEMENT),
            *self.captures.held({v: self.sources[v] for v in filled}),
            sql("LOCK TABLE {mirrors} IN EXCLUSIVE MODE{end}", mirrors=mirrors, end=END_OF_STATEMENT),
            self.dialect.block_apart([QUIETLY, *made]),
            sql("COMMIT{end}", end=END_OF_STATEMENT),
        ]

    def is_marked(self, v: int) -> Sql:
        """Whether a mirror got its columns, and not its contents yet."""
        return sql("EXISTS (SELECT 1 FROM {marks} AS m WHERE m.view = {view})", marks=self.marks, view=self.captures.view(v))

    def contents_of(self, v: int) -> list[Sql]:
        """A mirror keeps its rows, and what its table has beside these is in its changes."""
        return [
            *self.captures.read(v, self.sources[v]),
            *self.guessed(v),
            *self.merged(v),
            *self.script.access.without_key(v),
            *self.script.access.with_key(v, self.script.access.key_of(v, self.sources)),
            *self.script.access.indexed(v),
            sql("DELETE FROM {changes}", changes=self.script.tables.table(v, "~changes")),
            self.captures.difference(v, self.sources[v]),
            *self.captures.since(v),
            self.captures.query(v, "UPDATE {state} SET filled = TRUE WHERE view = {view}"),
            sql("DELETE FROM {marks} WHERE view = {view}", marks=self.marks, view=self.captures.view(v)),
        ]

    def guessed(self, v: int) -> list[Sql]:
        """New columns of rows that stand in the application's table as they stood after the last night, where it has one value for them."""
        come = self.mirrors[v].come if v in self.mirrors else []
        names = [said for said, _ in self.script.tables.expected()[v].columns][:-1]
        new, old = ([place for place, said in enumerate(names) if (said in come) == wanted] for wanted in (True, False))
        if not new or not old:
            return []
        cells, read, users = self.script.tables.cells(v, "s"), self.script.tables.read(v), self.script.tables.users(v)
        shown = joined([sql("{cell} AS {column}", cell=cell, column=column) for cell, column in zip(
            [column.said for column in self.sources[v].columns], self.script.tables.cells(v))])
        least = [sql("min({cell}) AS {column}", cell=cells[place], column=self.script.tables.cells(v)[place]) for place in new]
        one = [sql("min({cell}) = max({cell})", cell=cells[place]) for place in new]
        kept = [cells[place] for place in old]
        rows = sql(
            "SELECT {told}, count(*) AS n FROM (SELECT {shown} FROM {source} AS r) AS s GROUP BY {kept} HAVING {one}",
            told=joined([*kept, *least]), shown=shown, source=self.sources[v].said, one=joined(one, "AND"), kept=joined(kept),
        )
        same = [sql("{a} = {b}", a=read[place], b=self.script.tables.cells(v, "g")[place]) for place in old]
        return [sql(
            "UPDATE {table} AS t SET {sets} FROM ({rows}) AS g WHERE {same}", table=self.script.tables.table(v), rows=rows,
            sets=joined([sql("{column} = {cell}", column=users[place], cell=self.script.tables.cells(v, "g")[place]) for place in new]),
            same=joined([*same, sql("t.{count} = g.n", count=COUNT)], "AND"),
        )]

    def merged(self, v: int) -> list[Sql]:
        """Rows that differed by a column which went are one."""
        table, cells, kept = self.script.tables.table(v), self.script.tables.cells(v, "d"), self.dialect.working(f"night~merged{v}")
        shown = joined([sql("{cell} AS {column}", cell=cell, column=column) for cell, column in zip(self.script.tables.read(v), self.script.tables.cells(v))])
        made = sql(
            "CREATE TEMPORARY TABLE {kept} ON COMMIT DROP AS SELECT {shown}, sum(t.{count})::bigint AS n FROM {table} AS t GROUP BY {cells}"
            " HAVING count(*) > 1", kept=name(f"night~merged{v}"), shown=shown, count=COUNT, table=table, cells=joined(self.script.tables.read(v)),
        )
        return [
            made,
            sql("DELETE FROM {table} AS t USING {kept} AS d WHERE {same}", table=table, kept=kept, same=self.script.access.same(v)),
            sql("INSERT INTO {table} ({columns}) SELECT {cells}, d.n FROM {kept} AS d", table=table, columns=joined([*self.script.tables.users(v), COUNT]),
                cells=joined(cells), kept=kept),
        ]

    # ---- views

    def view(self, v: int, reshaped: NewColumns) -> list[Sql]:
        """A view's table with other columns is empty until it is filled, and no night takes it for filled."""
        table, columns = self.script.tables.table(v), self.captures.columns
        check = list[Sql]()
        if self.script.shape.is_summary(v):
            count = self.script.tables.users(v)[self.script.shape.groups(v)]
            check = [sql("ALTER TABLE {table} ADD CHECK ({count} > 0)", table=table, count=count)] if name_of(count) in reshaped.come else []
        return [
            sql("TRUNCATE {table}", table=table),
            *self.script.access.without_key(v),
            *self.columns_changed(v, "", reshaped),
            *check,
            sql("UPDATE {columns} SET type = {none} WHERE view = {view} AND name = {none}", columns=columns, none=text(""), view=self.captures.view(v)),
        ]
