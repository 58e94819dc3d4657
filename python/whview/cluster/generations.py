"""The tables of generations: which of them a version or an attempt needs, and how those go that none does.

A fold makes tables of its own, and the nights behind it put their rows there. Those of before are needed while a version is kept that lists
a slot in them, or whose nights go there, and while an attempt lives that puts rows into them. Then no statement begins to read their rows,
but one may have begun before. A table that is dropped or gets another name holds up whoever reads it and whoever comes behind them. So it
is looked whether anybody has been at work since then; where somebody has, a later sweep tries again. What nobody reads gets a name by which
no statement reads it, and a later sweep drops it: who was about to read it, and found nothing for them there, is not told an error.
"""

from __future__ import annotations

import re
import time
from dataclasses import dataclass
from typing import TYPE_CHECKING

from ..catalogue.formulas import NAME
from ..sql.tokens import joined, number, sql, text
from . import leftovers, releases, standing
from .servers import GONE, TAKEN, Told

if TYPE_CHECKING:
    from collections.abc import Iterable

    from ..sql.tokens import Sql
    from .servers import Server
    from .versions import Gone
    from .warehouse import Warehouse

# A table of a generation, the one that shares rows out to it, and one that was put aside.
TABLE = re.compile(f"(?:{NAME.pattern}(?:~c[0-9]+)?|~marks)~([0-9]+)(?:~all)?")
ASIDE = standing.ASIDE
# How long a sweep waits for those who read; where they do not end, a later one goes on.
PATIENCE = 1


def generation_of(table: str) -> int | None:
    """The generation of a table, or None where it has none."""
    found = TABLE.fullmatch(table)
    return int(found[1]) if found else None


def generations_of(tables: Iterable[str]) -> set[int]:
    """The generations of tables, of which some may have none."""
    return {found for table in tables if (found := generation_of(table)) is not None}


@dataclass(frozen=True, slots=True)
class Held:
    """The tables of a server, and the slots in each."""

    server: Server
    tables: list[str]
    rows: set[tuple[int, str]]

    def slots(self, generation: int) -> set[int]:
        """The slots that have rows in tables of a generation."""
        return {slot for slot, table in self.rows if generation_of(table) == generation}


class Generations:
    """The tables of generations on all servers."""

    def __init__(self, warehouse: Warehouse) -> None:
        self.warehouse, self.versions = warehouse, warehouse.versions

    def held(self) -> list[Held]:
        """What each server has."""
        there = standing.asked(self.warehouse, self.warehouse.every)
        tables = self.warehouse.every.each(lambda server: standing.tables(self.warehouse, server))
        return [Held(each.server, names, each.rows) for each, names in zip(there, tables)]

    def unwanted(self) -> tuple[set[int], list[Held]]:
        """The generations that nobody needs, and what each server has. The versions are read before the attempts, and again behind them.
        Of an attempt that was made later the version is gone that it began with, so that it cannot commit; one that was dead is in a list by
        now, or never."""
        before, attempts = self.versions.all(), self.versions.all_attempts()
        rows = [*before, *self.versions.all()]
        night, listed = max(row.night for row in rows), {slot for row in rows for slot in row.slots}
        held = self.held()
        wanted = {row.generation for row in rows} | {each.slot.generation for each in attempts if each.night >= night} | of_slots(held, listed)
        return generations_of(table for each in held for table in each.tables) - wanted, held

    def put_aside(self) -> None:
        """Gives the tables that nobody needs other names, on each server where nobody reads them. What is left is told by the names of
        versions that were taken away: they stay, since they say when that was."""
        gone, end = self.versions.all_taken_away(), time.monotonic() + PATIENCE
        unwanted, held = self.unwanted()
        servers = self.warehouse.every

        def left_by(server: Server) -> set[int]:
            """The slots whose rows stay where they are on a server."""
            its = held[servers.all.index(server)]
            read = {each for each in sorted(unwanted) if self.is_read(server, taken_away(gone, its.slots(each)), end)}
            self.rename(its, unwanted - read)
            return {slot for each in read for slot in its.slots(each)}

        left = set[int]().union(*servers.each(left_by))
        for version in gone:
            if not left & set(version.slots):
                self.versions.dropped("x", version.seq)

    def rename(self, held: Held, generations: set[int]) -> None:
        """Gives a server's tables of generations other names, all at once. Another sweep may have done so with some meanwhile: then one by
        one."""
        table, written = self.warehouse.dialect.table, self.warehouse.written
        names = [name for name in held.tables if generation_of(name) in generations]
        for name in names:
            # A server that is killed while a replicated table gets another name has both names, and does not start.
            if name.endswith("~all") or self.warehouse.copies:
                leftovers.drop(held.server, written(table(name)))
        moves = [sql("{table} TO {aside}", table=table(name), aside=table(ASIDE + name)) for name in names if not name.endswith("~all")]
        if self.warehouse.copies:
            return
        if moves and not self.tried(held.server, sql("RENAME TABLE {moves}", moves=joined(moves))):
            for move in moves:
                self.tried(held.server, sql("RENAME TABLE {move}", move=move))

    def drop(self) -> None:
        """Drops what an earlier sweep put aside."""
        self.warehouse.every.each(self.drop_on)

    def drop_on(self, server: Server) -> None:
        for name in standing.tables(self.warehouse, server):
            if name.startswith(ASIDE):
                server.carried(self.warehouse.written(sql("DROP TABLE IF EXISTS {table}", table=self.warehouse.dialect.table(name))))

    def tried(self, server: Server, said: Sql) -> bool:
        """Whether a server could carry a statement out, which somebody else may have done meanwhile."""
        try:
            server.carried(self.warehouse.written(said))
        except Told as told:
            if told.code not in (*GONE, TAKEN):
                raise
            return False
        return True

    # ---- who may still read

    def is_read(self, server: Server, since: int, end: float) -> bool:
        """Whether somebody is at work on a server who began before a time of the first server's clock; until the end it is waited for them. Where no
        table that goes waits for readers, none is waited for."""
        if not releases.drops_wait(server, self.warehouse.dialect):
            return False
        while self.is_any_since(server, since):
            if time.monotonic() > end:
                return True
            time.sleep(0.1)
        return False

    def is_any_since(self, server: Server, since: int) -> bool:
        """Whether a statement of a server has run since then. The clock tells whole seconds."""
        said = sql(
            "SELECT count() FROM system.processes WHERE elapsed > {limit} AND query NOT LIKE {itself}",
            limit=number(self.versions.now() - since - 1), itself=text("%system.processes%"),
        )
        return server.asked(self.warehouse.written(said)) != [["0"]]


def of_slots(held: list[Held], slots: set[int]) -> set[int]:
    """The generations of tables in which there are rows of these slots."""
    return generations_of(table for each in held for slot, table in each.rows if slot in slots)


def taken_away(gone: list[Gone], slots: set[int]) -> int:
    """When the last version was taken away that lists one of these slots."""
    return max((version.at for version in gone if slots & set(version.slots)), default=0)
