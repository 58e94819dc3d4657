"""What every server has to have of a version: a mark of each of its slots, the rows that the mark says are there, and prints that are right.

Before a commit each server gets a mark of the night's slot. So one whose disk was restored from before the night has no mark of it, and one
that knows a slot which the first server never gave out tells that the first is the older one. A version's row has the prints of what each
server holds of each view; they are linear, so those of the next version are its own plus those of its slot.
"""

from __future__ import annotations

import time
from collections.abc import Callable, Iterable, Sequence
from dataclasses import dataclass, field
from typing import TYPE_CHECKING

from ..finding import Failure
from ..sql.slots import BEHIND, HASHES, NO_SLOT
from ..sql.tokens import joined, number, sql, text
from .servers import Lost, Servers
from .status import FAILED, REFUSED

if TYPE_CHECKING:
    from ..sql.clickhouse import ClickHouse
    from ..sql.slots import Slot
    from .servers import Server
    from .versions import Version
    from .warehouse import Warehouse


# So a table is called that was put aside.
ASIDE = "~d~"
# So long it is waited for rows that are on their way to a server of a shard.
ON_THEIR_WAY, PAUSE = 10, 0.1


@dataclass(frozen=True, slots=True)
class There:
    """What a server has: its marks, by their slots whose attempt made them; the tables that should have rows in a slot by them, and those
    that have rows."""

    server: Server
    marks: dict[int, str] = field(default_factory=dict)
    wanted: set[tuple[int, str]] = field(default_factory=set)
    rows: set[tuple[int, str]] = field(default_factory=set)
    # Where there are replicas the tables that have not all rows yet.
    behind: list[str] = field(default_factory=list)

    def slots(self) -> set[int]:
        """The slots that have a mark or rows."""
        return {*self.marks, *(slot for slot, _ in self.rows)}

    def faults(self, slots: Iterable[int]) -> list[str]:
        """What of these slots is not there."""
        if self.behind:
            return [f"{self.server} has yet to get rows of {self.behind[0]}"]
        listed = sorted(set(slots) - {NO_SLOT})
        if unmarked := [slot for slot in listed if slot not in self.marks]:
            return [f"{self.server} has no mark of slots {unmarked}, which the version lists"]
        lost = sorted(pair for pair in self.wanted - self.rows if pair[0] in listed)
        return [f"{table} on {self.server} has no rows in slot {slot}, where there were some" for slot, table in lost[:1]]


def asked(warehouse: Warehouse, servers: Servers | None = None) -> list[There]:
    """What each of these servers has."""
    said = warehouse.written(warehouse.plain.there().said)
    found = []
    servers = servers or warehouse.servers
    behind = servers.each(lambda server: lag(server, warehouse.dialect)) if warehouse.copies else [list[str]() for _ in servers.all]
    for server, its, rows in zip(servers.all, behind, servers.each(lambda server: server.asked(said))):
        there = There(server, behind=its)
        for what, slot, of in rows:
            if what == "mark":
                there.marks[int(slot)] = of
            else:
                (there.wanted if what == "wanted" else there.rows).add((int(slot), of))
        found.append(there)
    return found


def lag(server: Server, dialect: ClickHouse) -> list[str]:
    """The replicated tables of a server that have not all rows that were put in anywhere. A log without entries and one with the first alone
    that was not read look alike; what the second lacks is told by the marks of a version."""
    said = sql(
        "SELECT table FROM system.replicas WHERE database = {schema} AND substring(table, 1, {long}) <> {aside} AND {behind} ORDER BY table",
        schema=text(dialect.schema), long=number(len(ASIDE)), aside=text(ASIDE), behind=sql(BEHIND),
    )
    return [table for table, in server.asked(dialect.written([said])[0])]


def tables(warehouse: Warehouse, server: Server) -> list[str]:
    """The tables of a server."""
    said = sql("SELECT name FROM system.tables WHERE database = {schema}", schema=text(warehouse.dialect.schema))
    return [name for name, in server.asked(warehouse.written(said))]


def judge(warehouse: Warehouse, base: Version, found: Sequence[There], is_there: Callable[[], object]) -> None:
    """Refuses servers that have not all of a version. `is_there` ends where the version was swept meanwhile, which takes its marks away."""
    faults, end = [fault for there in found for fault in there.faults(base.slots)], time.monotonic() + ON_THEIR_WAY
    while faults and warehouse.copies and time.monotonic() < end:
        time.sleep(PAUSE)
        found = asked(warehouse, Servers([there.server for there in found]))
        faults = [fault for there in found for fault in there.faults(base.slots)]
    if late := [there for there in found if there.behind]:
        raise Lost(late[0].faults(())[0])
    if faults := faults or older(warehouse, base, found):
        is_there()
        cure = "its rows were lost, or its disk is from before; `check` tells what is lost, `repair` mends it"
        raise Failure(REFUSED, f"whview cluster: version {base.seq} is not whole: {faults[0]}: {cure}")


def older(warehouse: Warehouse, base: Version, found: Sequence[There]) -> list[str]:
    """That a server has the mark of a slot which the first one never gave out: then the disk of the first one is from before. A sweep may
    take a mark and its attempt away in between, so that it is looked at twice."""
    if not unknown(warehouse, base, found):
        return []
    strange, first = unknown(warehouse, base, asked(warehouse, Servers([there.server for there in found]))), warehouse.servers.first
    return [f"{server} has slot {slot}, which {first} does not know: the disk of {first} is from before" for server, slot in strange[:1]]


def unknown(warehouse: Warehouse, base: Version, found: Sequence[There]) -> list[tuple[Server, int]]:
    """The servers and slots of marks behind those of a version whose attempts the first server does not know."""
    later = [(there.server, slot, mark) for there in found for slot, mark in there.marks.items() if slot > max(base.slots)]
    known = warehouse.versions.attempts() if later else set()
    return [(server, slot) for server, slot, mark in later if (slot, mark) not in known]


# ---- prints


def per_server(warehouse: Warehouse) -> int:
    """How many prints a version has of each server."""
    return len(warehouse.catalogue.views) * len(HASHES)


def printed(warehouse: Warehouse, views: Sequence[int], slots: Iterable[int]) -> list[int]:
    """The prints of slots, of each server those of all views; those that are not asked for are those of no rows."""
    found = [0] * (per_server(warehouse) * len(warehouse.servers))
    if not views:
        return found
    listed = joined(map(number, slots))
    said = warehouse.written(warehouse.plain.prints(views, listed).said)
    for own, rows in enumerate(warehouse.servers.each(lambda server: server.asked(said))):
        for view, *prints in rows:
            at = own * per_server(warehouse) + int(view) * len(HASHES)
            found[at : at + len(HASHES)] = map(int, prints)
    return found


def of_view(warehouse: Warehouse, prints: Sequence[int], own: int, v: int) -> tuple[int, ...]:
    """The prints of a view on one server."""
    at = own * per_server(warehouse) + v * len(HASHES)
    return tuple(prints[at : at + len(HASHES)])


def differing(warehouse: Warehouse, had: Sequence[int], found: Sequence[int]) -> list[str]:
    """What a version's servers hold otherwise than it says."""
    return [
        f"{view.name} on {server} has other rows than the version says"
        for own, server in enumerate(warehouse.servers.all)
        for v, view in enumerate(warehouse.catalogue.views)
        if of_view(warehouse, had, own, v) != of_view(warehouse, found, own, v)
    ]


# ---- before a commit


def sealed(warehouse: Warehouse, base: Version, slot: Slot, views: Sequence[int]) -> list[int]:
    """The prints of a slot that is about to be listed behind a version, in which there are rows of these views. Each server gets its mark."""
    prints = printed(warehouse, views, [slot.number])
    judge_copies(warehouse, base, views, prints)
    script = warehouse.script(slot=slot)

    def mark(server: Server) -> None:
        own = warehouse.servers.all.index(server)
        tables = [script.filled_said(v) for v in views if any(of_view(warehouse, prints, own, v))]
        mine = prints[own * per_server(warehouse) : (own + 1) * per_server(warehouse)]
        made = script.marked(own, warehouse.versions.mine.get(slot.number, ""), tables, mine)
        server.carried(warehouse.written(made.said), token=warehouse.token(slot.number, "mark"))
        if server.asked(warehouse.written(script.marks_of_slot())) != [["1"]]:
            warehouse.versions.judge_night(base)
            told = f"{server} has not the mark of slot {slot.number} that was sent: something on the way keeps statements back"
            raise Failure(FAILED, f"whview cluster: {told}; nothing is changed, `give-up`")

    warehouse.servers.each(mark)
    return prints


def judge_copies(warehouse: Warehouse, base: Version, views: Sequence[int], prints: Sequence[int]) -> None:
    """Refuses what servers made differently of a table that each has a copy of."""
    for v in views:
        first, *others = (of_view(warehouse, prints, own, v) for own in range(len(warehouse.servers)))
        for server, other in zip(warehouse.servers.all[1:], others):
            if other != first and not warehouse.plain.is_shared(v):
                warehouse.versions.judge_night(base)
                name, one = warehouse.catalogue.views[v].name, warehouse.servers.first
                told = f"{name} is copied, and {server} made other rows of it than {one}: one of them has lost rows"
                raise Failure(REFUSED, f"whview cluster: {told}; nothing is changed, `check` tells which")
