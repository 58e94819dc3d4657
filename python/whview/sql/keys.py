"""Which columns are a key of a view: of a base view those that the catalogue says, of a joined view those that follow from them."""

from __future__ import annotations

import tomllib
from typing import TYPE_CHECKING, Any

from ..catalogue.views import Place, View
from .shape import Shape
from .tokens import Unfit

if TYPE_CHECKING:
    from .tables import Catalogued


class Keys:
    """Of each view that has one the places of its key among its columns, if these are not all of them."""

    def __init__(self, catalogue: Catalogued, shape: Shape) -> None:
        self.views, self.shape = catalogue.views, shape
        self.found: dict[int, tuple[int, ...]] = {}
        said = tomllib.loads(catalogue.content).get("view") or [{} for _ in self.views]
        for v, view in enumerate(self.views):
            key = self.joined(v) if view.over else self.said(view, said[v].get("key"))
            if key and len(key) < len(view.columns):
                self.found[v] = key

    def said(self, view: View, listed: Any) -> tuple[int, ...] | None:
        """The key that the catalogue gives a base view."""
        names = [name for name, _ in view.columns]
        if listed is None:
            return None
        if not isinstance(listed, list) or not listed or any(name not in names for name in listed):
            raise Unfit(f"{view.name}: key is an array of columns of the view, and not {listed!r}")
        return tuple(sorted(map(names.index, listed)))

    def joined(self, v: int) -> tuple[int, ...] | None:
        """The key of a joined view: that of one child, where every other one has at most one row for each row of those before it, and where
        the view keeps these columns as they are."""
        view = self.views[v]
        if self.shape.is_summary(v):
            return tuple(range(self.shape.groups(v)))
        for child, u in enumerate(view.over):
            if u in self.found and self.leads_to_all(v, child):
                kept = [self.kept(v, child, place) for place in self.found[u]]
                if None not in kept:
                    return tuple(sorted(place for place in kept if place is not None))
        return None

    def leads_to_all(self, v: int, first: int) -> bool:
        """Whether the join finds one row at most of each child for a row of the first."""
        known, grew = {first}, True
        while grew:
            grew = False
            for child, u in enumerate(self.views[v].over):
                if child not in known and u in self.found and all(self.is_given(v, child, place, known) for place in self.found[u]):
                    known.add(child)
                    grew = True
        return len(known) == len(self.views[v].over)

    def is_given(self, v: int, child: int, place: int, known: set[int]) -> bool:
        """Whether a column of a child equals one of a child that is known."""
        for spots in self.shape.classes[v]:
            if any(spot.child == child and spot.column == place for spot in spots):
                return any(spot.child in known for spot in spots)
        return False

    def kept(self, v: int, child: int, place: int) -> int | None:
        """Where a view keeps a column of a child, or one that the join makes equal to it."""
        equal = next(({(spot.child, spot.column) for spot in spots} for spots in self.shape.classes[v]
                      if any(spot == (child, place) for spot in spots)), {(child, place)})
        for at, formula in enumerate(self.shape.kept(v)):
            if isinstance(formula, Place) and tuple(self.shape.spot(v, formula)) in equal:
                return at
        return None
