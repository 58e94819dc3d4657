"""What all statements about captured tables of SQLite have in common: the table where it is noted what is captured, and the names of triggers."""

from __future__ import annotations

from typing import TYPE_CHECKING

from ..tokens import Sql, name, sql

if TYPE_CHECKING:
    from .script import MirrorScript

CAPTURED = "~captured"
SUFFIXES = ("~before", "~insert", "~meant", "~update", "~parting", "~delete")
REPLACED = "~replaced"


class CapturedTables:
    """The tables of a script's captures."""

    state: Sql

    def __init__(self, script: MirrorScript) -> None:
        self.script, self.dialect, self.state = script, script.dialect, script.tables.own(CAPTURED)

    def named(self, said: str) -> Sql:
        """What is made in the file, by its name."""
        return sql("{schema}.{said}", schema=name(self.dialect.schema), said=name(said))

    def table(self, v: int, suffix: str) -> Sql:
        """A table as a trigger names it where it writes there."""
        return self.dialect.target(self.script.tables.said(v, suffix))

    def replaced(self, v: int) -> Sql:
        """The table of rows that may be replaced."""
        return self.table(v, REPLACED)

    def trigger_names(self, v: int) -> list[str]:
        """The triggers on a view's table."""
        return [self.script.tables.said(v, suffix) for suffix in SUFFIXES]
