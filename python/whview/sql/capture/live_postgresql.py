"""PostgreSQL as the commands have it where tables are captured."""

from __future__ import annotations

import sys
from collections.abc import Sequence
from typing import TYPE_CHECKING

from ..tokens import Sql, Unfit, sql
from .database import PostgreSQLAsked
from .from_log import FromLog, identified, tables_read, unlimited
from .left_out import LeftOutOfPostgreSQL
from .live import Live
from .merge import MergeScript
from .opening import QUIETLY
from .postgresql import LivePostgreSQL
from .reshaped import Reshaped

if TYPE_CHECKING:
    from ..catalogue import Catalogue
    from .existing import Existing, Strangers
    from .sources import Source

SCHEMA = "wh"
CAPTURED_FROM = (
    "SELECT to_json(s.nspname) FROM {state} AS c JOIN pg_class AS k ON k.oid = c.source JOIN pg_namespace AS s ON s.oid = k.relnamespace"
    " ORDER BY c.view LIMIT 1"
)


class LiveInPostgreSQL(Live[MergeScript]):
    """Tables are captured by triggers, or from the server's log."""

    def judge_words(self) -> None:
        words = self.words
        if (words.role or words.without_role) and not words.capture:
            raise Unfit("--role and --without-role go with `capture` and --engine postgresql")
        if words.role and words.without_role:
            raise Unfit("--role and --without-role do not go together")

    def script(self, catalogue: Catalogue) -> MergeScript:
        words = self.words
        return MergeScript(catalogue, LivePostgreSQL(words.schema or SCHEMA, words.role, words.without_role, FromLog if words.from_log else None))

    def kept_way(self, catalogue: Catalogue) -> MergeScript:
        """What is captured from the log stays so until it is let go."""
        script = self.script(catalogue)
        database = self.database(script)
        is_used = script.captures.log.is_used(database)
        if self.words.capture and (self.words.from_log or is_used) and (told := unlimited(database)):
            print(f"whview sql: {told}", file=sys.stderr)
        self.words.from_log = is_used or self.words.from_log
        return self.script(catalogue)

    def database(self, script: MergeScript | None = None) -> PostgreSQLAsked:
        return PostgreSQLAsked(self.words.database, script.dialect if script else LivePostgreSQL())

    def schema(self, script: MergeScript) -> str:
        database = self.database(script)
        # Each row is the one name.
        found = database.rows(sql(CAPTURED_FROM, state=script.captures.state))[0]
        return str(found[0]) if found else database.own_schema

    # ---- what captures

    def takes_some(self, script: MergeScript) -> bool:
        """A role that is to own what another one does has rights on all tables, and not on some."""
        return self.words.role is None or self.database(script).is_of(self.words.role)

    def identified(self, script: MergeScript, schema: str, sources: dict[int, Source], left_out: Sequence[str]) -> dict[int, Source]:
        """The log tells rows by their keys, or whole."""
        captures, database = script.captures, self.database(script)
        if not isinstance(captures, FromLog):
            return sources
        found = identified(database, script, sources)
        captures.read_tables = tables_read(database, script, schema, left_out)
        return found

    def captured(self, script: MergeScript, existing: Existing, sources: dict[int, Source]) -> list[Sql]:
        unindexed, captures, words = existing.indexed_anew(), script.captures, self.words
        captures.opens_all = bool(words.open and not words.changed and not words.names)
        indexed = script.dialect.creation([QUIETLY, *unindexed]) if unindexed else []
        made = Reshaped(script, sources, existing.mirrors(), existing.derived(), existing.marked()).statements()
        return [*indexed, *made, *(captures.capture(sources) if sources else captures.made(sources))]

    def uncaptured(self, script: MergeScript) -> list[Sql]:
        return script.captures.uncapture()

    def let_go(self, script: MergeScript, names: Strangers) -> list[Sql]:
        return LeftOutOfPostgreSQL(script, self.script, names).statements()

    # ---- nights

    def carried(self, script: MergeScript, made: list[Sql]) -> list[Sql]:
        """What the log has is on the disk before a night reads it, and is let go behind it."""
        return [script.captures.log.flushed_before(), *made, script.captures.log.moved()]
