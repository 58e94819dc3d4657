"""What a script has to know of the views, in no engine's words: which columns they have, what they are over and what is added up."""

from __future__ import annotations

from collections.abc import Iterable, Sequence
from typing import NamedTuple

from ..catalogue.views import Formula, View
from .formulas import nodes, places
from .steps import Term


class Spot(NamedTuple):
    """A column of a child, which stands at this place among the children."""

    child: int
    column: int


class Join(NamedTuple):
    """A child's place in a term's order, and the pairs of columns by which it is joined with the children before it."""

    child: int
    pairs: tuple[tuple[Spot, Spot], ...]


class Shape:
    """The views of a catalogue. `plain` has the base views whose tables have no column of counts."""

    def __init__(self, views: Sequence[View], plain: Iterable[int] = ()) -> None:
        self.views, self.plain = views, set(plain)
        self.classes = [self.equal(v) for v in range(len(views))]

    def is_summary(self, v: int) -> bool:
        return bool(self.views[v].over) and self.views[v].keep is None

    def is_counted(self, v: int) -> bool:
        """Whether the view's table has a column of counts: a summary has each row once."""
        return v not in self.plain and not self.is_summary(v)

    def is_last(self, v: int) -> bool:
        """Whether a view is a summary that none is over: nothing reads its change, so that it is made when it is put."""
        return self.is_summary(v) and not any(v in view.over for view in self.views)

    def is_direct(self, v: int) -> bool:
        """Whether a view's change is made in one statement: it has one Comp of one term, which reads no table that the night changes."""
        return len(self.views[v].over) == 1 and (self.is_summary(v) or not self.checked(v))

    def has_pairs(self, v: int) -> bool:
        """Whether a view may have a key of some of its columns, so that a row that leaves and one that comes are one that changes."""
        return not self.is_summary(v) and self.width(v) > 1

    def width(self, v: int) -> int:
        return len(self.views[v].columns)

    def groups(self, v: int) -> int:
        """How many columns tell what belongs together: a summary's groups, or all."""
        return len(self.views[v].group) if self.is_summary(v) else self.width(v)

    def sums(self, v: int) -> int:
        """How many numbers are added up: a summary's count and sums, or the count of a row."""
        return self.width(v) - self.groups(v) if self.is_summary(v) else 1

    def spot(self, v: int, place: int) -> Spot:
        """The child and the column of a place in a view's combined row."""
        for child, u in enumerate(self.views[v].over):
            if place < self.width(u):
                return Spot(child, place)
            place -= self.width(u)
        raise IndexError(place)

    def kept(self, v: int) -> Sequence[Formula]:
        """The formulas that are kept, of which a summary has none."""
        return self.views[v].keep or []

    def checked(self, v: int) -> list[Formula]:
        """The formulas that have to have a value in each combined row."""
        formulas = self.views[v].sums if self.is_summary(v) else self.kept(v)
        return [formula for formula in formulas if nodes(formula)]

    def columns_read(self, v: int, child: int) -> list[int]:
        """The columns of a child that a view reads: those that it is joined by, filters, keeps, groups by or adds up."""
        view = self.views[v]
        formulas = [view.where, *self.kept(v), *(view.sums if self.is_summary(v) else ())]
        groups = view.group if self.is_summary(v) else ()
        spots = [self.spot(v, place) for place in (*groups, *(place for formula in formulas for place in places(formula)))]
        return sorted({spot.column for spot in (*spots, *(each for equal in self.classes[v] for each in equal)) if spot.child == child})

    def reads_less(self, v: int, child: int) -> bool:
        """Whether what is joined of a child's change has fewer columns than that. Where an output may have no value each row is looked at, since one that has none
        is refused whatever cancels it."""
        is_narrower = len(self.columns_read(v, child)) < self.width(self.views[v].over[child])
        return len(self.views[v].over) > 1 and is_narrower and not self.checked(v)

    # ---- joins

    def equal(self, v: int) -> list[list[Spot]]:
        """The columns that a join makes equal, class by class."""
        found: list[set[Spot]] = []
        for pair in self.views[v].join:
            spots = {self.spot(v, place) for place in pair}
            near = [each for each in found if each & spots]
            found = [each for each in found if not each & spots] + [spots.union(*near)]
        return [sorted(each) for each in found]

    def partners(self, v: int) -> dict[tuple[int, int], set[int]]:
        """Of each child and another one the columns of the first by which they are joined."""
        found: dict[tuple[int, int], set[int]] = {}
        for pair in self.views[v].join:
            left, right = (self.spot(v, place) for place in pair)
            for one, other in ((left, right), (right, left)):
                found.setdefault((one.child, other.child), set()).add(one.column)
        return found

    def order(self, v: int, term: Term, first: int | None = None) -> list[int]:
        """The children of a term: first the one that is said, or else a change, and then those that equalities lead to, changes before tables."""
        classes, found = [{spot.child for spot in each} for each in self.classes[v]], [] if first is None else [first]
        left = [child for child in range(len(term)) if child != first]
        while left:
            bound = {child: sum(child in each and not each.isdisjoint(found) for each in classes) for child in left}
            best = max(left, key=lambda child: (min(bound[child], 1), term[child].is_change, bound[child], -child))
            found.append(best)
            left.remove(best)
        return found

    def joins(self, v: int, term: Term, first: int | None = None) -> list[Join]:
        """The children in their order, each joined by one equality for each class with a column that stands before."""
        order = self.order(v, term, first)
        pairs: dict[int, list[tuple[Spot, Spot]]] = {child: [] for child in order}
        for each in self.classes[v]:
            one, *others = sorted(each, key=lambda spot: (order.index(spot.child), spot.column))
            for spot in others:
                pairs[spot.child].append((one, spot))
        return [Join(child, tuple(pairs[child])) for child in order]


class ShapeApart(Shape):
    """The same, where each change is computed first, and then put."""

    def is_last(self, v: int) -> bool:
        return False

    def is_direct(self, v: int) -> bool:
        return False
