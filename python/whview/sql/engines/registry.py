"""The engines that SQL is written for, of which the first is meant where none is said. A line here and a module are what an engine takes."""

from __future__ import annotations

from collections.abc import Mapping
from typing import Any

from ..capture.live import Live
from .clickhouse import ClickHouseEntry
from .entry import EngineEntry
from .postgresql import PostgreSQLEntry
from .sqlite import SQLiteEntry

ENTRIES = (
    PostgreSQLEntry(),
    SQLiteEntry(),
    ClickHouseEntry(),
)
ENGINES: Mapping[str, EngineEntry] = {each.name: each for each in ENTRIES}
# The name of the engine that is meant where none is said.
USUAL = ENTRIES[0].name
# What captures tables of applications, by the names of engines that do.
LIVE: Mapping[str, type[Live[Any]]] = {each.name: each.live for each in ENTRIES if each.live is not None}
