"""`check`: whether each server has all that a version says, row by row."""

from __future__ import annotations

from typing import TYPE_CHECKING

from ..sql.slots import NO_SLOT
from . import standing

if TYPE_CHECKING:
    from collections.abc import Sequence

    from .reading import Session
    from .servers import Server
    from .warehouse import Warehouse


def faults(session: Session) -> list[str]:
    """What the servers hold otherwise than a version says, a line for each; none where all is there. Every row of it is gone through."""
    warehouse, version = session.warehouse, session.version
    views = range(len(warehouse.catalogue.views))
    there = standing.asked(warehouse)
    found = standing.printed(warehouse, views, version.slots)
    told = [fault for each in there for fault in each.faults(version.slots)]
    told += standing.older(warehouse, version, there)
    for own, server in enumerate(warehouse.servers.all):
        wrong = [v for v in views if standing.of_view(warehouse, version.prints, own, v) != standing.of_view(warehouse, found, own, v)]
        told += [of_view(warehouse, server, v, version.slots) for v in wrong]
    session.judge_kept()
    return told


def of_view(warehouse: Warehouse, server: Server, v: int, slots: Sequence[int]) -> str:
    """A view whose rows on a server are not those of the version, and in which slots; of a slot without its mark that is not known."""
    script = warehouse.plain
    said = {int(slot): (int(one), int(other)) for slot, one, other in server.asked(warehouse.written(script.prints_by_slot(v).said))}
    marks = {int(slot): tuple(map(int, prints)) for slot, prints in server.asked(warehouse.written(script.marked_prints(v).said))}
    wrong = [slot for slot in sorted(set(slots) - {NO_SLOT}) if marks.get(slot) != said.get(slot, (0, 0))]
    return f"{warehouse.catalogue.views[v].name} on {server} has other rows than the version says, in slots {wrong}"
