"""A version made anew, with the contents of the newest, in a slot and tables of its own: by a fold of each server's own rows, or by a repair."""

from __future__ import annotations

from typing import TYPE_CHECKING, Protocol

from ..finding import Failure
from . import standing
from .making import durable
from .nights import judge_base
from .status import REFUSED
from .versions import Purpose

if TYPE_CHECKING:
    from collections.abc import Sequence

    from ..sql.slots import Slot
    from .versions import Version
    from .warehouse import Warehouse


class Differing(Protocol):
    """What prints of all servers say that others do not."""

    def __call__(self, warehouse: Warehouse, had: Sequence[int], found: Sequence[int]) -> list[str]: ...


class Refill:
    """A slot that gets all that a version holds. It is looked at on the way: the rows are as many as the version says, and have its prints."""

    def __init__(self, warehouse: Warehouse, base: Version, slot: Slot) -> None:
        self.warehouse, self.base, self.slot = warehouse, base, slot
        self.script = warehouse.script(base.slots, slot)
        # Of each view how many rows Comps go through.
        self.gross: list[int] = []

    def begin(self) -> None:
        """Makes the tables."""
        self.warehouse.made_by_all(self.script.tables_of_generation(durable(self.warehouse.servers.first)))

    def count(self, v: int) -> None:
        """Looks whether a view has as many rows as the version says, and notes how many are gone through."""
        versions, had = self.warehouse.versions, self.base.totals[v]
        total, passed = map(int, versions.asked(self.script.total(v).said)[0])
        if total != had:
            judge_base(versions, self.base)
            versions.judge_night(self.base)
            told = f"{self.warehouse.catalogue.views[v].name} has {total} rows in version {self.base.seq}, which says {had}"
            raise Failure(REFUSED, f"whview cluster: {told}: somebody changed its tables by hand; nothing is changed")
        self.gross.append(passed)

    def commit(self, how: Purpose, differing: Differing) -> Version:
        """Makes the version, where its rows have the prints that they should. Behind a repair no night can commit that began before it: it
        may have read what had lost rows."""
        warehouse, base, versions = self.warehouse, self.base, self.warehouse.versions
        prints = standing.sealed(warehouse, base, self.slot, range(len(warehouse.catalogue.views)))
        judge_base(versions, base)
        if wrong := differing(warehouse, base.prints, prints):
            versions.judge_night(base)
            told = f"version {base.seq} is not whole: {wrong[0]}: its rows were lost, or somebody changed its tables by hand"
            raise Failure(REFUSED, f"whview cluster: {told}; nothing is changed, `check` tells what is lost")
        empty = base._replace(gross=(0,) * len(self.gross))
        night = base.night + (how is Purpose.REPAIR)
        return versions.commit(empty, self.slot, night, base.stage, how, gross=self.gross, alone=True, prints=prints)
