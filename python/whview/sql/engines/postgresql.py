"""PostgreSQL: an Inst of one's own tables is made in one pass, and tables of applications are captured by triggers or from the log."""

from __future__ import annotations

from ..capture.live_postgresql import LiveInPostgreSQL
from ..one_pass import OnePassParts
from ..postgresql import PostgreSQL
from .transactional import Transactional


class PostgreSQLEntry(Transactional):
    """PostgreSQL, as the commands have it."""

    name, said, dialect, live = PostgreSQL.engine, "PostgreSQL", PostgreSQL, LiveInPostgreSQL

    def parts(self) -> OnePassParts:
        return OnePassParts()
