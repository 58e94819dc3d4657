"""The engines of SQL: what differs by engine is a function of its own, and no file asks which one it is."""

import re

from upkeep.words import ROOT
from whview.sql.engines.registry import ENGINES, LIVE, USUAL

ASKS = re.compile(r"""isinstance\([^)]*\b(?:PostgreSQL|SQLite|ClickHouse)|(?:==|!=|\bin) \(?["'](?:postgresql|sqlite|clickhouse)["']|\.takes\b""")


def test_no_file_asks_which_engine_it_is():
    files = sorted((ROOT / "python/whview/sql").rglob("*.py"))
    asking = [f"{file.name}: {line.strip()}" for file in files for line in file.read_text().splitlines() if ASKS.search(line)]
    assert files
    assert asking == []


def test_each_engine_is_found_by_its_name():
    assert [name for name, entry in ENGINES.items() if entry.name != name] == []
    assert USUAL in LIVE
    assert set(LIVE) < set(ENGINES)
