"""`fold` and `sweep`: what keeps nights short and takes away what no version that is kept lists."""

from __future__ import annotations

from itertools import pairwise
from typing import TYPE_CHECKING, NamedTuple

from . import standing
from .generations import Generations
from .nights import attempted
from .refilling import Refill
from .versions import Purpose

if TYPE_CHECKING:
    from collections.abc import Sequence

    from .versions import Version
    from .warehouse import Warehouse


class Swept(NamedTuple):
    """What a sweep took away: how many versions, and which slots."""

    versions: int
    slots: list[int]


def fold(warehouse: Warehouse) -> Version:
    """Puts the sums of the newest version's slots into one slot, in tables of its own."""
    base = warehouse.versions.newest()
    slot = attempted(warehouse, base, Purpose.FOLD)
    script = warehouse.script(base.slots, slot)
    refill = Refill(warehouse, base, slot)
    refill.begin()
    for v in range(len(warehouse.catalogue.views)):
        warehouse.carried(script.folded(v), warehouse.token(slot.number, f"fold {v}"))
        refill.count(v)
    return refill.commit(Purpose.FOLD, standing.differing)


class Sweep:
    """What a sweep takes away: versions that were followed longer ago than was promised; then the tables of generations that none of those
    needs which are left; and the names of attempts whose rows are gone. Tables are put aside, and a later sweep drops them."""

    def __init__(self, warehouse: Warehouse, keep: int) -> None:
        self.warehouse, self.versions, self.keep = warehouse, warehouse.versions, keep
        self.generations = Generations(warehouse)

    def run(self) -> Swept:
        """Takes all that away."""
        self.generations.drop()
        self.versions.clear()
        gone = self.drop_versions()
        self.remove()
        return Swept(gone, self.forget(self.unwanted(self.dead_slots())))

    def drop_versions(self) -> int:
        """In rising order, so that a version is there only if all later ones are; never the newest, and none from the first one on that is
        pinned."""
        pinned = min((pin.seq for pin in self.versions.pins().values()), default=None)
        made, now, gone = self.versions.followed(), self.versions.now(), 0
        for seq, after in pairwise(sorted(made)):
            if now - made[after] <= self.keep or seq == pinned:
                break
            self.versions.taken_away(seq)
            gone += 1
        return gone

    def remove(self) -> None:
        """Puts aside what nobody needs, where nobody reads it either."""
        self.generations.put_aside()

    def dead_slots(self) -> list[int]:
        """Those of attempts that can no longer commit, and those whose attempts are forgotten, but that a statement which ran on has filled."""
        there = self.slots_there()
        names = self.versions.numbers("a")
        return sorted({*self.versions.dead(), *(slot for slot in there if slot < names[-1] and slot not in names)})

    def unwanted(self, dead: Sequence[int]) -> list[int]:
        """Those of dead slots that no version lists. The versions are read after the attempts: one that was dead is in a list by now, or never."""
        listed = {slot for row in self.versions.all() for slot in row.slots}
        return [slot for slot in dead if slot not in listed]

    def slots_there(self) -> set[int]:
        """The slots of which any server has rows or a mark."""
        return {slot for there in standing.asked(self.warehouse, self.warehouse.every) for slot in there.slots()}

    def forget(self, slots: Sequence[int]) -> list[int]:
        """The names of attempts whose rows are gone go too, but for the last one, by which no slot is had twice. Answers their slots."""
        left = self.slots_there()
        last = self.versions.numbers("a")[-1]
        gone = [slot for slot in slots if slot not in left]
        for slot in gone:
            if slot != last:
                self.versions.dropped("a", slot)
        return gone

    def strangers(self) -> list[int]:
        """Slots with rows that are yet to come."""
        there = self.slots_there()
        last = self.versions.numbers("a")[-1]
        return sorted(slot for slot in there if slot > last)
