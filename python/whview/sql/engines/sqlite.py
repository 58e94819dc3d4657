"""SQLite: an Inst of one's own tables is a statement for each thing that is done, and tables of applications are captured by triggers."""

from __future__ import annotations

from ..capture.live_sqlite import LiveInSQLite
from ..sqlite import SQLite
from ..stepwise import StepwiseParts
from .transactional import Transactional


class SQLiteEntry(Transactional):
    """SQLite, as the commands have it."""

    name, said, dialect, live = SQLite.engine, "SQLite", SQLite, LiveInSQLite

    def parts(self) -> StepwiseParts:
        return StepwiseParts()
