"""What is asked of the server about a night's tables, before anything is changed and while steps run."""

from __future__ import annotations

from typing import Protocol

from .tokens import Sql


class Checks(Protocol):
    """The statements that find out about a script's tables and refuse what does not fit."""

    def working_tables(self) -> list[tuple[str, list[Sql]]]:
        """The working tables of the checks, by their names, with their columns."""

    def statements(self, locked: list[Sql]) -> list[Sql]:
        """All that is judged before a night; these tables are locked."""

    def watchers(self) -> dict[str, Sql]:
        """Triggers that count what rows are touched, by their names."""

    def spared(self, v: int, coming: Sql) -> list[Sql]:
        """A refusal of a row that comes where a column has no value for it."""

    def cascades(self, v: int, gone: Sql, moved: Sql) -> list[Sql]:
        """A refusal of a foreign key that would change other rows by what the night does."""

    def untouched(self, v: int, told: str, written: Sql, removed: Sql) -> list[Sql]:
        """A refusal where other rows were written or removed than so many."""
