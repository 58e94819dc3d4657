"""What of a catalogue stands in the database already, and how that differs from what the catalogue wants."""

from __future__ import annotations

from typing import TYPE_CHECKING, NamedTuple

from ..tokens import Sql, name_of
from .database import Indexed

if TYPE_CHECKING:
    from .live import Database, LiveScript, Session

KINDS = {"bigint": "int", "integer": "int", "text": "text"}


class NewColumns(NamedTuple):
    """The columns of a table that come and those that go, each by its name."""

    come: list[str]
    go: list[str]


class Strangers(NamedTuple):
    """The names of views that are captured or were filled, and are not in the catalogue: base ones, and derived ones."""

    base: list[str]
    derived: list[str]


class Existing:
    """What was captured and filled before, as the database tells it."""

    def __init__(self, script: LiveScript, database: Database) -> None:
        self.script, self.dialect, self.database = script, script.dialect, database
        self.is_captured = database.is_there(script.captures.state)
        self.captured: set[str] = set(script.captures.captured_in(database)) if self.is_captured else set()
        self.columns: dict[str, dict[str, str]] = self.standing_columns() if self.is_captured else {}

    def standing_columns(self) -> dict[str, dict[str, str]]:
        """The columns of each of the night's tables that is there, with their kinds, by the tables' names."""
        found: dict[str, dict[str, str]] = {}
        for standing in self.database.standing_columns([each.said for each in self.script.tables.expected()]):
            found.setdefault(standing.table, {})[standing.column] = KINDS.get(standing.type.lower(), standing.type)
        return found

    def standing_indexes(self) -> dict[str, list[Indexed]]:
        """The columns of each index of the night's tables, by the indexes' names."""
        found: dict[str, list[Indexed]] = {}
        for indexed in self.database.standing_indexes([self.script.tables.said(v) for v in range(len(self.script.views))]):
            found.setdefault(indexed.said, []).append(indexed)
        return found

    def wanted_in_index(self, v: int, suffix: str, places: tuple[int, ...]) -> list[Indexed]:
        """The columns of an index as they are to stand in it."""
        tables, access = self.script.tables, self.script.access
        return [Indexed(tables.said(v, suffix), name_of(tables.users(v)[place]), access.is_digested(v, place)) for place in places]

    def indexed_anew(self) -> list[Sql]:
        """The indexes of tables that stand with their columns, and want others."""
        reshaped = {*self.mirrors(), *self.derived()}
        return [each for v in self.unindexed() if v not in reshaped for each in self.script.access.indexed(v)]

    # ---- how it differs

    def unindexed(self) -> list[int]:
        """The views that other views are joined with by other columns than before, so that their tables want other indexes."""
        there, found = self.standing_indexes() if self.is_captured else {}, list[int]()
        for v, listed in enumerate(self.script.tables.asked_for()):
            asked = [(f"~{at}", columns) for at, columns in enumerate(listed, 1) if columns != self.script.access.key_places(v)]
            wanted = {self.script.tables.said(v, suffix): self.wanted_in_index(v, suffix, columns) for suffix, columns in asked}
            is_there = self.columns.get(self.script.tables.said(v)) is not None
            found += [v] if is_there and any(there.get(index) != columns for index, columns in wanted.items()) else []
        return found

    def reshaped(self, v: int, suffix: str = "") -> NewColumns | None:
        """The columns of a table of a view's that come and go, or None where it stands as it is wanted, or not at all."""
        said = self.script.tables.said(v, suffix)
        there = self.columns.get(said)
        if there is None:
            return None
        wanted = {column: "int" if kind == "count" else kind for column, kind in next(each for each in self.script.tables.expected() if each.said == said).columns}
        come = [column for column, kind in wanted.items() if there.get(column) != kind]
        go = [column for column in there if there[column] != wanted.get(column)]
        return NewColumns(come, go) if come or go else None

    def mirrors(self) -> dict[int, NewColumns]:
        """The base views whose mirrors or changes have other columns than are wanted."""
        captured = [v for v in self.script.steps.base() if self.script.views[v].name in self.captured]
        return {v: found for v in captured if (found := self.reshaped(v) or self.reshaped(v, "~changes"))}

    def derived(self) -> dict[int, NewColumns]:
        """The derived views whose tables have other columns than are wanted."""
        return {v: found for v in self.script.steps.derived() if (found := self.reshaped(v))}

    def new(self) -> list[int]:
        """The base views that are not captured."""
        return [v for v in self.script.steps.base() if self.script.views[v].name not in self.captured]

    def marked(self) -> list[int]:
        """The base views whose mirrors got their columns, and not their contents yet, since a capture was stopped."""
        names = self.script.catalogue.names
        return [names[view] for view in self.script.captures.marked_in(self.database) if view in names]

    def unlike(self, session: Session) -> list[int]:
        """The derived views that were not filled by the definitions of the catalogue."""
        noted = self.script.noted().read(session)
        return [v for v in self.script.steps.derived() if noted.unlike(v)]

    def strangers(self) -> Strangers:
        """The names of views that are captured or were filled, and are not in the catalogue: base ones, and derived ones."""
        if not self.is_captured:
            return Strangers([], [])
        known = {view.name for view in self.script.views}
        filled = set(self.script.captures.filled_in(self.database))
        return Strangers(sorted(self.captured - known), sorted(filled - known - self.captured))
