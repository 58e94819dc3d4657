"""`night` and `give-up`: what changes contents, and what lets the next night begin where one came to no end."""

from __future__ import annotations

import time
from typing import TYPE_CHECKING, NamedTuple

from ..finding import Failure
from . import standing
from .carrying import Carrying, Lossy, Refusal
from .status import FAILED, REFUSED
from .versions import Purpose, Stage

if TYPE_CHECKING:
    from collections.abc import Iterable, Mapping

    from ..catalogue.views import Bag
    from ..sql.slots import Slot
    from ..sql.steps import Expression, Step
    from .versions import Version, Versions
    from .warehouse import Warehouse


class Ended(NamedTuple):
    """How a night ended: the version that it made, and the refusal where it was refused, whose version has the old contents."""

    version: Version
    refusal: str | None = None


def idle(warehouse: Warehouse) -> Version:
    """The newest version, where nobody is at work on the next night."""
    base = warehouse.versions.newest()
    judge_idle(warehouse, base)
    return base


def judge_idle(warehouse: Warehouse, base: Version) -> None:
    """Refuses to begin where somebody is at work on the night behind a version."""
    if alive := warehouse.versions.alive(base.night, Purpose.NIGHT):
        since = time.strftime("%Y-%m-%d %H:%M:%S", time.gmtime(alive.at))
        told = f"somebody is at work on the next night since {since} UTC ({alive.who}, slot {alive.slot.number}); `give-up` if that came to no end"
        raise Failure(FAILED, f"whview cluster: {told}")


def attempted(warehouse: Warehouse, base: Version, what: Purpose) -> Slot:
    """A slot of one's own, in which nothing is, where each server has all of the version that it begins with."""
    slot = warehouse.versions.attempt(base.night, what, base.generation)
    found = standing.asked(warehouse)
    standing.judge(warehouse, base, found, lambda: judge_base(warehouse.versions, base))
    for there in found:
        if tables := sorted(table for of, table in there.rows if of == slot.number):
            told = f"{tables[0]} on {there.server} has rows in slot {slot.number}, which nobody had: they were put there by hand"
            raise Failure(REFUSED, f"whview cluster: {told}; `give-up` passes the slot over")
    return slot


def carried(warehouse: Warehouse, base: Version, changes: Mapping[int, Bag] | None, steps: Iterable[Step], how: str, digest: str = "") -> Ended:
    """Carries a night out and makes the next version, with the old contents where it is refused."""
    versions, netted = warehouse.versions, False
    while True:
        slot = attempted(warehouse, base, Purpose.NIGHT)
        try:
            held = Carrying(warehouse, base, slot, changes, netted).run(steps)
        except Lossy:
            netted = True
            continue
        except Refusal as refusal:
            judge_base(versions, base)
            return Ended(versions.commit(base, None, base.night + 1, base.stage, str(refusal)), str(refusal))
        judge_base(versions, base)
        return Ended(versions.commit(base, slot, base.night + 1, Stage.OPENED, how, held.totals, held.gross, digest=digest, prints=held.prints))


def judge_base(versions: Versions, base: Version) -> None:
    """What was read is sound only if its version was not swept before the last statement had ended."""
    if versions.row(base.seq) != base:
        raise Failure(FAILED, f"whview cluster: version {base.seq}, which was read, was swept meanwhile; nothing is changed")


def night(warehouse: Warehouse, changes: Mapping[int, Bag], strategy: Iterable[Expression], digest: str = "", again: bool = False) -> Ended:
    """The next night with these netted changes by view."""
    base = idle(warehouse)
    if base.stage != Stage.OPENED:
        raise Failure(REFUSED, f"whview cluster: version {base.seq} has no views yet: `load` and `open` make them")
    if digest and digest == base.changes and not again:
        told = "these changes are in the newest version already, byte for byte; put the next night's into changes/, or say --again"
        raise Failure(REFUSED, f"whview cluster: {told}")
    return carried(warehouse, base, changes, warehouse.steps.night(strategy), "night", digest)


def give_up(warehouse: Warehouse) -> Version:
    """A version with the old contents and a new night, after which no attempt of before can commit."""
    versions = warehouse.versions
    base = versions.newest()
    if not versions.alive(base.night, Purpose.NIGHT):
        raise Failure(REFUSED, f"whview cluster: nobody is at work on the night after version {base.seq}: there is nothing to give up")
    return versions.commit(base, None, base.night + 1, base.stage, "give-up")
