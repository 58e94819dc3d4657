"""SQLite as the commands have it where tables are captured."""

from __future__ import annotations

import sys
from pathlib import Path
from typing import TYPE_CHECKING

from ...views.as_tokens import as_real, tokens
from ...views.written import former, gone
from ..tokens import Sql, Unfit
from .database import SQLiteAsked
from .left_out import LeftOutOfSQLite
from .live import Live
from .live_postgresql import SCHEMA
from .reshaped_sqlite import Reshaped
from .script import MirrorScript
from .sources import sources
from .sqlite import LiveSQLite

if TYPE_CHECKING:
    from ..catalogue import Catalogue
    from .existing import Existing, Strangers
    from .sources import Source


class LiveInSQLite(Live[MirrorScript]):
    """Tables are captured by triggers, in their own file."""

    def script(self, catalogue: Catalogue) -> MirrorScript:
        return MirrorScript(catalogue, LiveSQLite(is_timed=self.words.dry), f"{self.words.schema or SCHEMA}_")

    def database(self, script: MirrorScript | None = None) -> SQLiteAsked:
        return SQLiteAsked(self.words.database, script.dialect if script else LiveSQLite())

    # ---- what captures

    def captured(self, script: MirrorScript, existing: Existing, sources: dict[int, Source]) -> list[Sql]:
        unindexed, captures = existing.indexed_anew(), script.captures
        indexed = script.dialect.creation(captures.schema_changed(unindexed)) if unindexed else []
        mirrors, derived = existing.mirrors(), existing.derived()
        reshaped = Reshaped(script, sources, mirrors, derived) if mirrors or derived else None
        return [*indexed, *captures.capture(sources, self.database(script), reshaped)]

    def uncaptured(self, script: MirrorScript) -> list[Sql]:
        """Views that `take` has made go first, since they are over what goes."""
        names = former(Path(self.words.path), self.words.schema or SCHEMA)
        views = script.dialect.creation([tokens(line, as_real) for line in gone(names, script.tables.prefix)]) if names else []
        return [*views, *script.captures.uncapture(self.database(script))]

    def let_go(self, script: MirrorScript, names: Strangers) -> list[Sql]:
        return LeftOutOfSQLite(script, self.script, names).statements()

    # ---- nights

    def before_night(self, script: MirrorScript) -> None:
        """A night compares tables with their mirrors where the schema has changed, if it is known how they are turned."""
        if not self.words.database:
            return
        try:
            database = self.database(script)
            script.captures.sources = sources(script, database, self.words.source or database.own_schema)
        except Unfit as why:
            print(f"whview sql: the night does not compare tables where the schema changes: {why}", file=sys.stderr)
