"""When each table and view was checked last, and what was found."""

from __future__ import annotations

import sys
from collections.abc import Sequence
from typing import TYPE_CHECKING, NamedTuple

from ..tokens import Sql, Unfit, joined, name, number, sql, text

if TYPE_CHECKING:
    from .check import Found
    from .live import Database, LiveDialect, LiveScript

CHECKS = "~checks"


class LastCheck(NamedTuple):
    """When a table or view was checked, in seconds since 1970, how many rows and keys that differ there were, and what was told."""

    ran: float
    rows: int
    keys: int
    told: str


class Checks:
    """The table of checks, with a row for each table or view."""

    def __init__(self, script: LiveScript) -> None:
        self.script, self.dialect, self.table = script, script.dialect, script.tables.own(CHECKS)

    def made(self) -> list[Sql]:
        """The statements that make the table where a capture from before there was one did not."""
        return self.dialect.made_where_missing(self.table, columns(self.dialect))

    def last(self, database: Database) -> dict[str, LastCheck]:
        """The last check of each table and view, by their names."""
        if not database.is_there(self.table):
            return {}
        listed = joined([sql("c.view"), self.dialect.epoch(sql("c.ran")), sql("c.{rows}", rows=name("rows")), sql("c.keys"), sql("c.told")])
        found = database.rows(sql("SELECT {listed} FROM {table} AS c", listed=self.dialect.answered(listed), table=self.table))[0]
        return {view: LastCheck(float(ran), int(rows), int(keys), told) for view, ran, rows, keys, told in found}

    def in_turn(self, database: Database, views: Sequence[int]) -> list[int]:
        """Of these views the one that was checked the longest ago, or never."""
        last = self.last(database)
        return [min(views, key=lambda v: (last[said].ran if (said := self.script.views[v].name) in last else -1, v))]

    def noted(self, database: Database, found: Sequence[Found]) -> None:
        """What was found is noted, by a transaction of its own, since one that only reads cannot; where it may not be, that is told."""
        rows = joined([sql("({view}, {moment}, {rows}, {keys}, {said})", view=text(each.view), moment=self.dialect.moment, rows=number(each.rows),
                           keys=number(each.keys), said=self.dialect.text("; ".join(each.told))) for each in found])
        put = sql(
            "INSERT INTO {table} ({columns}) VALUES {rows} ON CONFLICT (view) DO UPDATE SET ran = excluded.ran, {many} = excluded.{many},"
            " keys = excluded.keys, told = excluded.told", table=self.table, rows=rows, many=name("rows"),
            columns=joined([sql("view"), sql("ran"), name("rows"), sql("keys"), sql("told")]),
        )
        try:
            database.put(self.dialect.creation([*self.made(), put]))
        except Unfit as fault:
            print(f"whview sql: the check could not be noted: {fault}", file=sys.stderr)


def columns(dialect: LiveDialect) -> Sql:
    """The columns of the table."""
    return sql("view {text} PRIMARY KEY, ran {moment} NOT NULL, {rows} {whole} NOT NULL, keys {whole} NOT NULL, told {text} NOT NULL",
               rows=name("rows"), **{kind: dialect.history_kinds[kind] for kind in ("text", "moment", "whole")})
