"""What a night looks at of SQLite's captured tables before it takes their changes: whether they are captured as they were.

Each change of the file's schema has a number. While it stays, triggers, indexes and tables are those that were captured. Where it is another
one, something may have been away for a while, and rows may have changed unnoticed: then each table is compared with its mirror and its changes,
if the script knows how its columns are turned, as it does where it was made with the database at hand."""

from __future__ import annotations

from collections.abc import Mapping, Sequence
from typing import TYPE_CHECKING

from ..dialect import COUNT, LEAST, MOST
from ..tokens import Sql, joined, name, number, sql, text
from .captured_sqlite import CAPTURED, CapturedTables
from .computed import computed_with

if TYPE_CHECKING:
    from .sources import Source

# What is noted of a table beside its name: its unique indexes, the application's triggers, and the triggers of whview; and of the file.
OF_UNIQUE, OF_OTHERS, OF_TRIGGERS, OF_SCHEMA = "~unique", "~others", "~made", "~schema"
# So many letters of a cell are printed.
LONGEST = 200
# The unique indexes s of a table by the statements that made them; and an application's triggers that may be fired before a row changes.
UNIQUE = "{schema}.sqlite_master AS s WHERE s.type = {index} AND s.tbl_name = {source} COLLATE NOCASE AND s.sql LIKE {unique}"
HEAD = "upper(substr(s.sql, 1, instr(upper(s.sql), {begin})))"
OTHERS = (
    "{schema}.sqlite_master AS s WHERE s.type = {trigger} AND s.tbl_name = {source} COLLATE NOCASE AND s.name NOT IN ({own})"
    " AND (instr(" + HEAD + ", {after}) = 0 OR instr(" + HEAD + ", {before}) > 0)"
)
MADE = (
    "(SELECT group_concat(m.said, {end}) FROM (SELECT lower(s.tbl_name) || {end} || s.sql AS said FROM {schema}.sqlite_master AS s WHERE s.type = {trigger}"
    " AND s.name IN ({own}) ORDER BY s.name) AS m)"
)
VERSION = sql("(SELECT CAST(p.schema_version AS TEXT) FROM pragma_schema_version AS p)")


class Seen(CapturedTables):
    """The refusals of tables that are not captured as they were, and what is noted for them."""

    # How the tables are turned, where that is known.
    sources: Mapping[int, Source] | None = None

    def parts(self, v: int) -> dict[str, Sql]:
        """What the queries about a view's source have."""
        words = {"index": "index", "trigger": "trigger", "unique": "CREATE UNIQUE INDEX%", "end": ";", "none": "", "begin": "BEGIN", "after": "AFTER",
                 "before": "BEFORE", "unique_suffix": OF_UNIQUE, "others_suffix": OF_OTHERS, "triggers_suffix": OF_TRIGGERS}
        view = text(self.script.views[v].name)
        source = sql("(SELECT c.source FROM {state} AS c WHERE c.view = {view} AND c.filled = 1)", state=self.state, view=view)
        own = joined([text(said) for said in self.trigger_names(v)])
        return {"schema": name(self.dialect.schema), "state": self.state, "view": view, "source": source, "own": own,
                **{word: text(said) for word, said in words.items()}}

    def noted_of(self, v: int) -> list[Sql]:
        """The statements that note what a table is captured with; and once more, when all are captured, the number of the schema."""
        listed = "SELECT coalesce(group_concat(s.sql, {end}), {none}) FROM "
        kinds = ((OF_UNIQUE, listed + UNIQUE), (OF_OTHERS, listed + OTHERS), (OF_TRIGGERS, "SELECT coalesce(" + MADE + ", {none})"))
        insert = "INSERT OR REPLACE INTO {state} SELECT {view} || {suffix}, ("
        return [sql(insert + query + "), 0", suffix=text(suffix), **self.parts(v)) for suffix, query in kinds]

    def schema_noted(self) -> Sql:
        """The statement that notes the number of the schema."""
        state = self.dialect.target(f"{self.script.tables.prefix}{CAPTURED}")
        return sql("INSERT OR REPLACE INTO {state} SELECT {schema}, {version}, 0", state=state, schema=text(OF_SCHEMA), version=VERSION)

    def schema_changed(self, made: Sequence[Sql]) -> list[Sql]:
        """Statements that change the schema themselves and do not look at all tables: the next night compares these, if it would have without them."""
        state = self.dialect.target(f"{self.script.tables.prefix}{CAPTURED}")
        parts = {"state": state, "schema": text(OF_SCHEMA), "version": VERSION}
        forgotten = sql("DELETE FROM {state} WHERE view = {schema} AND source IS NOT {version}", **parts)
        return [forgotten, *made, sql("UPDATE {state} SET source = {version} WHERE view = {schema}", **parts)] if made else []

    def told(self, v: int, why: str) -> str:
        """Why a night is refused."""
        return f"table {self.script.views[v].name} is not captured as it was: {why}; run whview sql capture"

    def stands(self, base: Sequence[int] | None = None) -> list[Sql]:
        """Refusals of tables, of all or of these, whose triggers or indexes are others, as they are where a table was made anew."""
        found = []
        for v in self.script.steps.base() if base is None else base:
            parts = self.parts(v)
            is_made = sql(MADE + " = (SELECT c.source FROM {state} AS c WHERE c.view = {view} || {triggers_suffix})", **parts)
            is_its_own = sql(
                "NOT EXISTS (SELECT 1 FROM {schema}.sqlite_master AS s WHERE s.type = {trigger} AND s.name IN ({own})"
                " AND s.tbl_name <> {source} COLLATE NOCASE)", **parts,
            )
            is_other = sql("SELECT 1 WHERE NOT coalesce({made} AND {own_table}, 0)", made=is_made, own_table=is_its_own)
            tests = [
                ("its triggers are gone, or stand on another table", is_other),
                ("it has a unique index more", self.more(UNIQUE, "{unique_suffix}", parts)),
                ("it has a trigger more that may be fired before a row changes", self.more(OTHERS, "{others_suffix}", parts)),
            ]
            found += [each for why, query in tests for each in self.dialect.refuse(self.told(v, why), query)]
        return found

    def more(self, there: str, suffix: str, parts: Mapping[str, Sql]) -> Sql:
        """A query for what is there and was not noted."""
        return sql("SELECT 1 FROM {state} AS u JOIN " + there + " AND instr(u.source, s.sql) = 0 AND u.view = {view} || " + suffix, **parts)

    def is_another_schema(self) -> Sql:
        """Whether the schema has another number than was noted."""
        noted = sql("(SELECT c.source FROM {state} AS c WHERE c.view = {said})", state=self.state, said=text(OF_SCHEMA))
        return sql("{version} IS NOT {noted}", version=VERSION, noted=noted)

    def whole(self) -> list[Sql]:
        """Refusals of tables that may have changed unnoticed; notes of what stayed are dropped."""
        found = []
        for v in self.script.steps.base():
            unlike = sql("SELECT 1 WHERE {other}", other=self.is_another_schema())
            why = "the schema of its file changed, and this script was made without --database, by which a table is compared"
            if self.sources:
                unlike = sql("SELECT 1 WHERE {other} AND EXISTS ({unlike})", other=self.is_another_schema(), unlike=self.unlike(v, self.sources[v]))
                why = "rows of it changed unnoticed while the schema did"
            found += [*self.dialect.refuse(self.told(v, why), unlike), sql("DELETE FROM {replaced}", replaced=self.replaced(v))]
        return [*found, self.schema_noted()]

    def unlike(self, v: int, source: Source) -> Sql:
        """A query for a row of which a table has not as many as its mirror and its changes say."""
        script, cells = self.script, self.script.tables.cells(v)
        columns = joined(cells)
        shown = joined([sql("{said} AS {cell}", said=column.said, cell=cell) for column, cell in zip(source.columns, cells)])
        return sql(
            "SELECT 1 FROM (SELECT {shown}, 1 AS n FROM {schema}.{source} AS r UNION ALL SELECT {read}, - t.{count} FROM {mirror} AS t UNION ALL"
            " SELECT {read}, - t.{count} FROM {changes} AS t) AS g GROUP BY {columns} HAVING sum(g.n) <> 0",
            shown=shown, schema=name(self.dialect.schema), source=name(source.table), read=joined(script.tables.read(v)), count=COUNT, mirror=script.tables.table(v),
            changes=script.tables.table(v, "~changes"), columns=columns,
        )

    # ---- rows that are refused

    def refused_rows(self) -> list[Sql]:
        """Queries that a client prints, since a refusal of SQLite's cannot name rows: those of the changes with a cell that is turned into no number
        or text, and those that come with a number by which a sum or a product may leave 64 bits."""
        found = []
        for v in self.script.steps.base():
            read, kinds = self.script.tables.read(v), self.script.tables.kinds(v)
            said, wrong = self.script.views[v].name, self.dialect.wrong_cells(read, kinds, sql("t.{count}", count=COUNT))
            found += [self.shown_rows(v, f"refused row of {said}:", wrong)] if wrong is not None else []
            near = [sql("abs({cell} / 2) > {most}", cell=read[place], most=number(MOST // 4)) for place in computed_with(self.script.tables).get(v, ())]
            real = [sql("{cell} <> {null}", cell=read[place], null=number(LEAST)) for place in computed_with(self.script.tables).get(v, ())]
            for test in [joined([sql("({real} AND {near})", real=each, near=far) for each, far in zip(real, near)], "OR")] if near else []:
                come = sql("{test} GROUP BY {columns} HAVING sum(t.{count}) > 0", test=test, columns=joined(read), count=COUNT)
                found.append(self.shown_rows(v, f"row of {said} with a number near the end of 64 bits, with which views compute:", come))
        return found

    def shown_rows(self, v: int, head: str, test: Sql) -> Sql:
        """A query for a line about each of the first rows of the changes that pass a test."""
        names = [column for column, _ in self.script.views[v].columns]
        cells = [
            sql("{said} || substr(quote({cell}), 1, {long})", said=text(f"{', ' if at else ' '}{said} "), cell=cell, long=number(LONGEST))
            for at, (said, cell) in enumerate(zip(names, self.script.tables.read(v)))
        ]
        return sql("SELECT {head} || {cells} FROM {changes} AS t WHERE {test} LIMIT 5", head=text(head), cells=joined(cells, "||"),
                   changes=self.script.tables.table(v, "~changes"), test=test)
