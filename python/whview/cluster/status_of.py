"""`status`: how a warehouse stands, for machines, and what somebody should do about it. It answers also while servers are down."""

from __future__ import annotations

import time
from dataclasses import asdict, dataclass, field
from typing import TYPE_CHECKING

from ..sql.slots import NO_SLOT
from ..sql.tokens import sql, text
from . import standing
from .generations import generation_of
from .servers import Lost, Servers, Told
from .versions import Purpose

if TYPE_CHECKING:
    from .servers import Server
    from .versions import Attempt, Pin, Version
    from .warehouse import Warehouse

# With more slots than this nights and reads take longer than they have to.
MANY_SLOTS = 30


@dataclass
class OfServer:
    """How a server stands: whether it answers, its release, what of the newest version it lacks, and how many marks, slots with rows and parts it has."""

    address: str
    answers: bool = False
    release: str = ""
    lacks: list[str] = field(default_factory=list)
    marks: int = 0
    slots: int = 0
    parts: int = 0


@dataclass
class Status:
    """How a warehouse stands. `behind` has in words what is to be done."""

    version: int
    stage: str
    night: int
    made_by: str
    made_at: int
    seconds: int
    slots: int
    rows: dict[str, int]
    kept_versions: int
    at_work: str | None
    attempts: list[str]
    pinned: list[str]
    unlisted_slots: list[int]
    unneeded_tables: int
    servers: list[OfServer]
    behind: list[str] = field(default_factory=list)

    def told(self) -> dict[str, object]:
        """What JSON has of it."""
        return asdict(self)


def of_server(warehouse: Warehouse, server: Server, newest: Version, seen: set[tuple[int, str]]) -> OfServer:
    """How a server stands. The slots that it has rows of are added to those that were seen, with their tables."""
    found = OfServer(str(server))
    said = sql("SELECT count() FROM system.parts WHERE active AND database = {schema}", schema=text(warehouse.dialect.schema))
    try:
        server.learn()
        there = standing.asked(warehouse, Servers([server]))[0]
        found.parts = int(server.asked(warehouse.written(said))[0][0])
    except (Told, Lost):
        return found
    found.answers, found.release, found.lacks = True, server.release, there.faults(newest.slots)
    found.marks, found.slots = len(there.marks), len({slot for slot, _ in there.rows})
    seen |= there.rows
    return found


def of(warehouse: Warehouse) -> Status:
    """How the warehouse stands."""
    versions, seen = warehouse.versions, set[tuple[int, str]]()
    kept = versions.all()
    newest, alive = kept[-1], versions.alive(kept[-1].night, Purpose.NIGHT)
    known = warehouse.copies.all if warehouse.copies else warehouse.servers.all
    servers = [of_server(warehouse, server, newest, seen) for server in known]
    dead = set(versions.dead())
    listed = {slot for row in kept for slot in row.slots} | {NO_SLOT}
    unlisted = [(slot, table) for slot, table in seen if slot not in listed and slot in dead]
    needed = {row.generation for row in kept}
    unneeded = {table for _, table in unlisted if generation_of(table) not in needed}
    rows = {view.name: total for view, total in zip(warehouse.catalogue.views, newest.totals)}
    living = [at_work(what, attempt) for what, attempt in versions.living(newest.night) if attempt.slot.number not in listed]
    found = Status(
        newest.seq, newest.stage, newest.night, newest.how, newest.at, max(0, versions.now() - newest.at), len(newest.slots) - 1, rows, len(kept),
        f"{alive.who}, slot {alive.slot.number}" if alive else None, living, list(map(pinned, versions.pins().values())),
        sorted({slot for slot, _ in unlisted}), len(unneeded), servers,
    )  # fmt: skip
    found.behind = list(behind(found))
    return found


def at_work(what: str, attempt: Attempt) -> str:
    """An attempt that can still commit as it is told."""
    return f"{what} in slot {attempt.slot.number} since {time_of(attempt.at)} ({attempt.who})"


def pinned(pin: Pin) -> str:
    """A pin as it is told."""
    return f"version {pin.seq} is pinned since {time_of(pin.at)} ({pin.who})"


def time_of(at: int) -> str:
    """A time of a clock as it is told."""
    return f"{time.strftime('%Y-%m-%d %H:%M:%S', time.gmtime(at))} UTC"


def behind(found: Status) -> list[str]:
    """What is to be done."""
    told = [f"{each.address} does not answer" for each in found.servers if not each.answers]
    told += [f"{lack}: see `check`" for each in found.servers for lack in each.lacks]
    told += [f"{pin}: `unpin` if that backup came to no end" for pin in found.pinned]
    told += [f"somebody is at work on the next night ({found.at_work}): `give-up` if that came to no end"] if found.at_work else []
    told += [f"{found.slots} slots: `fold`"] if found.slots > MANY_SLOTS else []
    return told + ([f"{found.unneeded_tables} tables that no version needs: `sweep`"] if found.unneeded_tables else [])
