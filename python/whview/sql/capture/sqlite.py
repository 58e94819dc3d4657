"""SQLite as tables are captured there: by triggers row by row, in the same file, where one writes at a time."""

from __future__ import annotations

from collections.abc import Mapping, Sequence
from typing import TYPE_CHECKING, NamedTuple

from ...catalogue.nulls import NULL_NUMBER
from ...views.captured import computed_in_sqlite, plain_in_sqlite, small
from ..dialect import COUNT
from ..sqlite import SQLite
from ..tokens import Sql, Unfit, joined, name, number, sql, text
from .bounded import Ends, bounds_of_sqlite
from .captured_sqlite import CAPTURED, REPLACED
from .definitions import definitions, told_unopened
from .history import SIZES
from .live import LiveDialect
from .sqlite_seen import Seen
from .sqlite_triggers import Triggers
from .turned import MOST_DIGITS_OF_REALS, Told, Turned, Unturned, of_sqlite

if TYPE_CHECKING:
    from .database import SQLiteAsked
    from .live import Database
    from .reshaped_sqlite import Reshaped
    from .script import MirrorScript
    from .sources import Source


class LiveSQLite(SQLite, LiveDialect):
    """Nights find nobody else writing, and so take all changes. How long a step takes nothing tells while a statement runs, but a function
    of the process that runs it."""

    is_exact, most_digits = False, MOST_DIGITS_OF_REALS
    moment = sql("strftime({form}, {now})", form=text("%Y-%m-%d %H:%M:%f"), now=text("now"))
    history_kinds = {"whole": sql("INTEGER"), "text": sql("TEXT"), "moment": sql("TEXT"), "seconds": sql("REAL")}

    def __init__(self, schema: str | None = None, is_timed: bool = False) -> None:
        super().__init__(schema)
        self.now = sql("moment()") if is_timed else sql("NULL")

    def captures(self, script: MirrorScript) -> Captures:
        return Captures(script)

    # ---- the application's tables, as they are turned

    def turned(self, told: Told) -> Turned | Unturned:
        return of_sqlite(told)

    def bounds(self, told: Told) -> Ends:
        return bounds_of_sqlite(told)

    def computed(self, said: str, kind: str, shown: str, read: Sequence[Told]) -> Turned:
        return computed_in_sqlite(said, kind, shown)

    def plain(self, told: Told) -> Turned:
        return plain_in_sqlite(told)

    # ---- what is asked, compared and put right

    def answered(self, columns: Sql) -> Sql:
        return columns

    def epoch(self, moment: Sql) -> Sql:
        return sql("unixepoch({moment})", moment=moment)

    def size(self, table: Sql, cells: Sequence[Sql]) -> Sql:
        """The file tells no table's bytes, so that those of the cells are counted."""
        lengths = joined([sql("length(CAST({cell} AS BLOB))", cell=cell) for cell in cells], "+")
        return sql("coalesce(sum({lengths}), 0)", lengths=lengths)

    def typed(self, cell: Sql, kind: str) -> Sql:
        return cell

    def exactly(self, cells: Sequence[Sql]) -> list[Sql]:
        """A number and a text, or a whole number and a real, are not the same cell, also where they compare as equal."""
        return [sql("typeof({cell})", cell=cell) for cell in cells]

    def digest(self, cells: Sql) -> Sql:
        """A function of the process that asks, which a session gives to the file."""
        return sql("digest(d.n, {cells})", cells=cells)

    def delete_like(self, table: Sql, rows: Sql, same: Sql) -> Sql:
        by_number = "DELETE FROM {table} WHERE _rowid_ IN (SELECT t._rowid_ FROM {table} AS t JOIN {rows} ON {same})"
        return sql(by_number, table=table, rows=rows, same=same)

    def made_where_missing(self, table: Sql, columns: Sql) -> list[Sql]:
        return [sql("CREATE TABLE IF NOT EXISTS {table} ({columns})", table=table, columns=columns)]


def is_computed_from(column: Turned, own: Turned) -> bool:
    """Whether a column of the application's stands in what another is computed from."""
    return any(isinstance(token.said, str) and small(token.said) == small(own.name) for token in column.said.tokens)


class NewTable(NamedTuple):
    """A table that is made: its columns, and what follows when it is made."""

    columns: Sql
    more: Sequence[Sql] = ()


class Captures(Triggers, Seen):
    """The statements that capture the tables of base views, that look whether they are still captured, and that let them go."""

    def log_of(self, database: Database) -> None:
        """A file has no log of what was written."""

    def refusals(self, sources: Mapping[int, Source]) -> list[Sql]:
        """Refusals of tables that are not captured as they were; whether rows changed unnoticed a check finds out by itself."""
        return self.stands([*sources]) if sources else []

    # ---- what is noted of views, in one table with other things

    def captured_in(self, database: Database) -> list[str]:
        """The names of the base views that are captured."""
        return [view for view, in database.rows(sql("SELECT c.view FROM {state} AS c WHERE c.filled = 1", state=self.state))[0]]

    def marked_in(self, database: Database) -> list[str]:
        """A capture is one transaction: no mirror is without its contents."""
        return []

    def filled_in(self, database: Database) -> list[str]:
        """The names of the views that were filled."""
        query = sql("SELECT DISTINCT c.view FROM {state} AS c JOIN {sizes} AS s ON s.view = c.view WHERE c.filled = 0", state=self.state,
                    sizes=self.script.tables.own(SIZES))
        return [view for view, in database.rows(query)[0]]

    def tables(self, sources: Mapping[int, Source]) -> dict[str, NewTable]:
        """All tables by their names."""
        script, found = self.script, dict[str, NewTable]()
        found[f"{script.tables.prefix}{CAPTURED}"] = NewTable(sql("view TEXT PRIMARY KEY, source TEXT NOT NULL, filled INTEGER NOT NULL"))
        for said, columns in script.history.listed_tables():
            found[f"{script.tables.prefix}{said}"] = NewTable(columns)
        for v in range(len(script.views)):
            listed = joined(script.access.columns_with_key(v, script.access.key_of(v, sources)))
            found[script.tables.said(v)] = NewTable(listed, script.access.indexes_of(v))
        for v in sources:
            counted = joined([*script.tables.typed(v), sql("{count} INTEGER NOT NULL", count=COUNT)])
            found[script.tables.said(v, "~changes")] = NewTable(counted)
            found[script.tables.said(v, REPLACED)] = NewTable(joined([sql("place INTEGER PRIMARY KEY"), *script.tables.cells(v)]))
        return found

    # ---- what was read of the file

    def judge(self, sources: Mapping[int, Source], database: SQLiteAsked) -> set[str]:
        """Refuses tables that cannot be captured: what is there of their names, what they are, and what is in them."""
        state, there = f"{self.script.tables.prefix}{CAPTURED}", database.names()
        taken = [said for said in self.tables(sources) if said.lower() in there]
        if taken and state not in there:
            raise Unfit(f"there is a table {taken[0]} already, which is none of --capture's: name another word by --schema")
        for v, source in sources.items():
            for column in source.columns:
                kind = "integer" if column.kind == "int" else "text"
                test = sql("typeof({said}) <> {kind}", said=column.said, kind=text(kind))
                self.judge_column(v, source, column, f"a cell that is turned into no {kind}", test, database)
            for column in source.own:
                test = sql("{cell} = {null} AND typeof({cell}) = {kind}", cell=self.cell(column), null=number(NULL_NUMBER), kind=text("integer"))
                self.judge_column(v, source, column, f"{NULL_NUMBER}, which stands for NULL", test, database)
        return there

    def cell(self, column: Turned) -> Sql:
        """A column of a row r of the application's."""
        return sql("r.{column}", column=name(column.name))

    def judge_column(self, v: int, source: Source, column: Turned, why: str, test: Sql, database: SQLiteAsked) -> None:
        """Refuses a column with a cell that passes a test, which says why; of one that is computed is told what that is computed from."""
        is_computed = bool(source.read) and column in source.columns
        told = ([each for each in source.read if is_computed_from(column, each)] or source.read) if is_computed else [column]
        heads = [f"{', ' if at else ''}{each.name} " if source.read else "" for at, each in enumerate(told)]
        cells = joined([sql("{said} || quote({cell})", said=text(head), cell=self.cell(each)) for head, each in zip(heads, told)], "||")
        query = sql("SELECT r._rowid_, {cells} FROM {source} AS r WHERE {test} LIMIT 1", cells=cells, source=name(source.table), test=test)
        for place, found in database.rows(query)[0]:
            raise Unfit(f"{self.script.views[v].name} cannot be captured: in its column {column.name} stands {why}: {found}, in the row of rowid {place}")

    # ---- contents

    def filled(self, v: int, source: Source) -> list[Sql]:
        """The mirror gets what its table has; where it was filled before, its changes get what it lacks."""
        script, view = self.script, text(self.script.views[v].name)
        is_filled = sql("EXISTS (SELECT 1 FROM {state} AS c WHERE c.view = {view} AND c.filled = 1)", state=self.state, view=view)
        cells = joined([column.said for column in source.columns])
        difference = sql(
            "INSERT INTO {changes} ({columns}) SELECT {own}, sum(g.n) FROM (SELECT {shown}, 1 AS n FROM {source} AS r UNION ALL"
            " SELECT {mirrored}, - t.{count} FROM {mirror} AS t) AS g WHERE {filled} GROUP BY {own} HAVING sum(g.n) <> 0",
            changes=script.tables.table(v, "~changes"), columns=joined([*script.tables.users(v), COUNT]), own=joined(script.tables.cells(v, "g")), count=COUNT,
            shown=joined([sql("{said} AS {cell}", said=column.said, cell=cell) for column, cell in zip(source.columns, script.tables.cells(v))]),
            source=name(source.table), mirrored=joined(script.tables.read(v)), mirror=script.tables.table(v), filled=is_filled,
        )
        return [
            sql("DELETE FROM {changes}", changes=script.tables.table(v, "~changes")),
            sql("INSERT INTO {mirror} ({columns}) SELECT {cells}, count(*) FROM {source} AS r WHERE NOT {filled} GROUP BY {cells}",
                mirror=script.tables.table(v), columns=joined([*script.tables.users(v), COUNT]), cells=cells, source=name(source.table), filled=is_filled),
            difference,
            sql("INSERT OR REPLACE INTO {state} VALUES ({view}, {source}, 1)", state=self.state, view=view, source=text(source.table)),
            sql("DELETE FROM {replaced}", replaced=script.tables.table(v, REPLACED)),
            *self.noted_of(v),
        ]

    # ---- scripts

    def capture(self, sources: Mapping[int, Source], database: SQLiteAsked, reshaped: Reshaped | None = None) -> list[Sql]:
        """The tables that are not there, the triggers, and the contents."""
        there, made, filled = self.judge(sources, database), list[Sql](), list[Sql]()
        if reshaped:
            there, made, filled = there - {said.lower() for said in reshaped.gone()}, reshaped.before(), reshaped.after()
        for said, new in self.tables(sources).items():
            if said.lower() not in there:
                made += [sql("CREATE TABLE {table} ({columns})", table=self.named(said), columns=new.columns), *new.more]
        made += self.without_triggers(sources)
        made += [each for v, source in sources.items() for each in self.fired(v, source, database)]
        filled += [each for v, source in sources.items() for each in self.filled(v, source)]
        is_all = f"{self.script.tables.prefix}{CAPTURED}" not in there or set(sources) == set(self.script.steps.base())
        return self.dialect.creation([*made, *filled, self.schema_noted()] if is_all else self.schema_changed([*made, *filled]))

    def uncapture(self, database: SQLiteAsked) -> list[Sql]:
        """What was not made by --capture stays as it is."""
        there = database.names()
        if f"{self.script.tables.prefix}{CAPTURED}" not in there:
            return self.dialect.creation(self.without_triggers())
        self.judge_own(database, there)
        gone = [sql("DROP TABLE IF EXISTS {table}", table=self.named(said)) for said in self.made()]
        return self.dialect.creation([*self.without_triggers(), *gone])

    def made(self) -> list[str]:
        """The names of all tables that a capture makes."""
        script = self.script
        tables = [script.tables.said(v) for v in range(len(script.views))]
        tables += [script.tables.said(v, suffix) for v in script.steps.base() for suffix in ("~changes", REPLACED)]
        return [*tables, *(f"{script.tables.prefix}{said}" for said in (CAPTURED, *(said for said, _ in script.history.listed_tables())))]

    def judge_own(self, database: SQLiteAsked, there: set[str]) -> None:
        """Refuses tables that have the night's names and were not made for it, and to let go less than is captured."""
        for each in self.script.tables.expected():
            columns = database.columns(each.said) if each.said.lower() in there else None
            if columns is not None and [said.lower() for said in columns] != [said.lower() for said, _ in each.columns]:
                raise Unfit(f"there is a table {each.said}, which is none of --capture's: name another word by --schema")
        views = [self.script.views[v].name for v in self.script.steps.base()]
        for said, in database.rows(sql("SELECT c.view FROM {state} AS c WHERE c.filled = 1", state=self.state))[0]:
            if said not in views:
                raise Unfit(f"{said} is captured too, and is not in this catalogue: a catalogue with all that is captured lets it go")

    # ---- by what definitions the views were filled

    def others_unfilled(self) -> list[Sql]:
        """Views that are filled and not in this catalogue are filled no more: its nights take changes of which they learn nothing."""
        views = joined([text(view.name) for view in self.script.views])
        return [sql("UPDATE {state} SET source = {none} WHERE filled = 0 AND source <> {none} AND view NOT IN ({views}) AND view IN (SELECT s.view FROM {sizes}"
                    " AS s)", state=self.dialect.target(f"{self.script.tables.prefix}{CAPTURED}"), none=text(""), views=views, sizes=self.script.tables.own(SIZES))]

    def opened(self) -> list[Sql]:
        """Refusals of views that were never filled, or by another definition."""
        found = []
        for v, said in definitions(self.script.tables).items():
            query = sql(
                "SELECT 1 WHERE EXISTS (SELECT 1 FROM {state} AS c WHERE c.view = {view} AND c.source <> {print}) OR NOT EXISTS (SELECT 1 FROM {state}"
                " AS c WHERE c.view = {view}) AND NOT EXISTS (SELECT 1 FROM {sizes} AS s WHERE s.view = {view})",
                state=self.state, view=text(self.script.views[v].name), print=text(said), sizes=self.script.tables.own(SIZES),
            )
            found += self.dialect.refuse(told_unopened(self.script.views[v].name), query)
        return found
