"""The triggers by which SQLite's tables are captured, row by row.

A row that REPLACE takes away fires no trigger by itself. What might be replaced is noted by its place before a row comes or changes; what of it
is gone afterwards was replaced. A note of a row that stayed does no harm: it changes and leaves with that row. Where an application's own
triggers are fired BEFORE a row changes, they may change it once more, and SQLite tells the row of before them: there each row is noted."""

from __future__ import annotations

import re
from collections.abc import Iterable
from typing import TYPE_CHECKING, NamedTuple

from ..dialect import COUNT
from ..tokens import END_OF_STATEMENT, Sql, Unfit, joined, name, number, sql, statements, text, word
from .captured_sqlite import CapturedTables
from .turned import again

if TYPE_CHECKING:
    from .database import SQLiteAsked, UniqueColumn
    from .sources import Source

# Whether a row r and the one that comes have the same in a column of a unique index; or, of a NULL that REPLACE fills, may have.
SAME = "r.{column} = new.{column} COLLATE {by}"
SAME_OR_FILLED = f"(new.{{column}} IS NULL OR {SAME})"
NOTHING = sql("")


def is_before(made: str) -> bool:
    """Whether a trigger may be fired before its row changes, by the statement that makes it: as it is where it says neither."""
    head = re.split(r"\bBEGIN\b", made, maxsplit=1, flags=re.IGNORECASE)[0]
    said = {word for word in ("BEFORE", "AFTER") if re.search(rf"\b{word}\b", head, re.IGNORECASE)}
    return said != {"AFTER"}


class Fired(NamedTuple):
    """What a trigger does, and when it is fired."""

    when: str
    made: list[Sql]


class Triggers(CapturedTables):
    """The statements that make them."""

    def alike(self, source: Source, database: SQLiteAsked) -> Sql:
        """Whether a row r of the table and the row that comes cannot both stay."""
        found = [sql("r._rowid_ = new._rowid_")]
        for columns in database.unique(source.table):
            pairs = [self.alike_in(source, column) for column in columns]
            found.append(sql("({pairs})", pairs=joined(pairs, "AND")))
        return joined(found, "OR")

    def alike_in(self, source: Source, column: UniqueColumn) -> Sql:
        """Whether these rows have the same in a column of a unique index."""
        if column.name is None:
            raise Unfit(f"{source.table} cannot be captured: it has a unique index over an expression, by which REPLACE takes rows away")
        return sql(SAME_OR_FILLED if column.is_filled else SAME, column=name(column.name), by=word(column.collation))

    def others(self, source: Source, database: SQLiteAsked) -> list[str]:
        """The statements of an application's own triggers on its table that may be fired before a row changes."""
        own = joined([text(said) for v in self.script.steps.base() for said in self.trigger_names(v)])
        query = sql(
            "SELECT s.sql FROM sqlite_master AS s WHERE s.type = {trigger} AND s.tbl_name = {table} COLLATE NOCASE AND s.name NOT IN ({own})"
            " ORDER BY s.name", trigger=text("trigger"), table=text(source.table), own=own,
        )
        return [made for made, in database.rows(query)[0] if is_before(made)]

    # ---- what is noted

    def changes(self, v: int) -> Sql:
        """The beginning of what notes changes."""
        return sql("INSERT INTO {changes} ({columns})", changes=self.table(v, "~changes"), columns=joined([*self.script.tables.users(v), COUNT]))

    def cells_of(self, source: Source, row: str) -> list[Sql]:
        """The cells of a row `old` or `new`, as they are turned."""
        return [again(column.said, word(row)) for column in source.columns]

    def added(self, v: int, source: Source, row: str, sign: int, test: Sql | None = None) -> Sql:
        """The statement that notes a row that came or left."""
        where = sql("WHERE {test}", test=test) if test else NOTHING
        return sql("{insert} SELECT {cells}, {sign} {where}", insert=self.changes(v), cells=joined(self.cells_of(source, row)), sign=number(sign),
                   where=where)

    def left(self, v: int, source: Source) -> Sql:
        """The statement that notes a row that left, as its note has it, or else as SQLite tells it."""
        return sql(
            "{insert} SELECT {noted}, -1 FROM {replaced} AS f WHERE f.place = old._rowid_ UNION ALL SELECT {old}, -1 WHERE NOT EXISTS"
            " (SELECT 1 FROM {replaced} AS f WHERE f.place = old._rowid_)",
            insert=self.changes(v), noted=joined(self.script.tables.cells(v, "f")), replaced=self.replaced(v), old=joined(self.cells_of(source, "old")),
        )

    def gone(self, v: int, source: Source, test: Sql) -> list[Sql]:
        """The statements that note what was replaced: of the rows that pass a test, those that are there no more or in whose place another
        one came."""
        is_gone = sql("{test} (f.place = new._rowid_ OR NOT EXISTS (SELECT 1 FROM {source} AS r WHERE r._rowid_ = f.place))",
                      test=test, source=name(source.table))
        replaced = self.replaced(v)
        return [
            sql("{insert} SELECT {cells}, -1 FROM {replaced} AS f WHERE {gone}", insert=self.changes(v), cells=joined(self.script.tables.cells(v, "f")),
                replaced=replaced, gone=is_gone),
            sql("DELETE FROM {replaced} WHERE place IN (SELECT f.place FROM {replaced} AS f WHERE {gone})", replaced=replaced, gone=is_gone),
        ]

    def noted(self, v: int, source: Source, test: Sql) -> Sql:
        """The statement that notes rows as they are in their table. OR REPLACE would turn into what a statement of an application's says of
        conflicts, by which its own would fail."""
        sets = joined([sql("{cell} = excluded.{cell}", cell=cell) for cell in self.script.tables.cells(v)])
        return sql(
            "INSERT INTO {replaced} SELECT r._rowid_, {cells} FROM {source} AS r WHERE {test} ON CONFLICT (place) DO UPDATE SET {sets}",
            replaced=self.replaced(v), cells=source.shown, source=name(source.table), test=test, sets=sets,
        )

    def kept(self, v: int, source: Source, row: str) -> Sql:
        """The statement that notes a row itself."""
        return self.noted(v, source, sql("r._rowid_ = {row}._rowid_", row=word(row)))

    def renoted(self, v: int, source: Source) -> Sql:
        """The statement by which the note of a row changes with it."""
        cells = zip(self.script.tables.cells(v), self.cells_of(source, "new"))
        sets = joined([sql("{cell} = {said}", cell=cell, said=said) for cell, said in cells])
        return sql("UPDATE {replaced} SET place = new._rowid_, {sets} WHERE place = old._rowid_", replaced=self.replaced(v), sets=sets)

    # ---- what is fired

    def triggers(self, v: int, source: Source, database: SQLiteAsked) -> dict[str, Fired]:
        """What is fired, by its name."""
        is_held, alike = bool(self.others(source, database)), self.alike(source, database)
        changed = joined([sql("old.{column} IS NOT new.{column}", column=name(column.name)) for column in source.own], "OR")
        forgotten = sql("DELETE FROM {replaced} WHERE place = old._rowid_", replaced=self.replaced(v))
        meant = self.noted(v, source, sql("({alike}) AND r._rowid_ <> old._rowid_", alike=alike))
        before, after = self.added(v, source, "old", -1, changed), self.added(v, source, "new", 1, changed)
        old, itself = self.added(v, source, "old", -1), self.kept(v, source, "old")
        if is_held:
            before, after, old = self.left(v, source), self.added(v, source, "new", 1), self.left(v, source)
        come = [*self.gone(v, source, NOTHING), self.added(v, source, "new", 1)]
        found = {
            "~before": Fired("BEFORE INSERT", [self.noted(v, source, alike)]),
            "~insert": Fired("AFTER INSERT", [*come, *([self.kept(v, source, "new")] if is_held else [])]),
            "~meant": Fired("BEFORE UPDATE", [meant, *([itself] if is_held else [])]),
            "~update": Fired("AFTER UPDATE", [before, after, *self.gone(v, source, sql("f.place <> old._rowid_ AND")), self.renoted(v, source)]),
            "~delete": Fired("AFTER DELETE", [old, forgotten]),
        }
        return {**found, **({"~parting": Fired("BEFORE DELETE", [itself])} if is_held else {})}

    def fired(self, v: int, source: Source, database: SQLiteAsked) -> list[Sql]:
        """The statements that make a table's triggers."""
        return [
            sql("CREATE TRIGGER {said} {when} ON {source} FOR EACH ROW BEGIN{made}\nEND{end}", said=self.named(self.script.tables.said(v, suffix)),
                when=sql(when), source=name(source.table), made=statements(made, 1), end=END_OF_STATEMENT)
            for suffix, (when, made) in self.triggers(v, source, database).items()
        ]

    def without_triggers(self, base: Iterable[int] | None = None) -> list[Sql]:
        """The triggers of these views' tables go, or of all."""
        said = [said for v in (self.script.steps.base() if base is None else base) for said in self.trigger_names(v)]
        return [sql("DROP TRIGGER IF EXISTS {said}", said=self.named(each)) for each in said]
