"""What is captured or was filled, and stands in the catalogue no more, is let go, and all else stays."""

from __future__ import annotations

import json
from abc import ABC, abstractmethod
from collections.abc import Callable, Sequence
from typing import TYPE_CHECKING, Generic, TypeVar

from ..catalogue import Catalogue
from ..tokens import Sql, joined, sql, text
from .captured_sqlite import REPLACED
from .checks import CHECKS
from .merge import MergeScript
from .noted import OF_VIEW
from .script import MirrorScript
from .sqlite_seen import OF_OTHERS, OF_TRIGGERS, OF_UNIQUE

if TYPE_CHECKING:
    from .existing import Strangers
    from .live import LiveScript

S = TypeVar("S", bound="LiveScript")


class LeftOut(ABC, Generic[S]):
    """The statements for base and derived views of these names. `script_of` makes the script of a catalogue."""

    def __init__(self, script: S, script_of: Callable[[Catalogue], S], names: Strangers) -> None:
        self.script = script
        self.base, self.derived = ([script_of(Catalogue(self.catalogue(said))) for said in listed] for listed in names)
        self.names = [*names.base, *names.derived]

    def catalogue(self, said: str) -> str:
        """A catalogue with nothing else than a view of this name."""
        return f"@catalogue\n[[view]]\nname = {json.dumps(said)}\ncolumns = [\"left_out\"]\n"

    def statements(self) -> list[Sql]:
        """What lets all of them go."""
        if not self.names:
            return []
        tables = [each.tables.table(0) for each in [*self.base, *self.derived]] + [each.tables.table(0, "~changes") for each in self.base]
        return self.gone(tables)

    def forgotten(self, *tables: Sql) -> list[Sql]:
        """What is noted of these views; the history of past nights stays."""
        views = joined([text(said) for said in self.names])
        return [sql("DELETE FROM {table} WHERE view IN ({views})", table=table, views=views) for table in tables]

    @abstractmethod
    def gone(self, tables: Sequence[Sql]) -> list[Sql]:
        """These tables go, what captures those of base views, and what is noted of all."""


class LeftOutOfPostgreSQL(LeftOut[MergeScript]):
    """Triggers first, so that no writer meets a table that is gone; nothing goes where something else depends on it."""

    def gone(self, tables: Sequence[Sql]) -> list[Sql]:
        dialect, captures, base = self.script.dialect, self.script.captures, [each.captures for each in self.base]
        gone = [gone for each in base for gone in each.functions_gone(0)]
        gone += [sql("DROP TABLE IF EXISTS {table}", table=table) for table in tables]
        judged = dialect.creation(captures.no_readers(tables))
        noted = self.forgotten(captures.state, captures.columns, captures.parts)
        for table in (self.script.tables.own(CHECKS), captures.torn_table, captures.log.table):
            is_there = sql("to_regclass({table}) IS NOT NULL", table=captures.written(table))
            noted += dialect.only_where(is_there, self.forgotten(table))
        return [*judged, *(each.let_go(0) for each in base), *dialect.creation([*gone, *noted])]


class LeftOutOfSQLite(LeftOut[MirrorScript]):
    """Triggers and tables, and what is noted beside a table."""

    def gone(self, tables: Sequence[Sql]) -> list[Sql]:
        captures, base = self.script.captures, [each.captures for each in self.base]
        triggers = [each for captured in base for each in captured.without_triggers()]
        tables = [*tables, *(each.tables.table(0, REPLACED) for each in self.base)]
        gone = [sql("DROP TABLE IF EXISTS {table}", table=table) for table in tables]
        beside = joined([text(said + suffix) for said in self.names for suffix in (OF_VIEW, OF_UNIQUE, OF_OTHERS, OF_TRIGGERS)])
        noted = sql("DELETE FROM {state} WHERE view IN ({beside})", state=captures.state, beside=beside)
        return self.script.dialect.creation(captures.schema_changed([*triggers, *gone, *self.forgotten(captures.state), noted]))
