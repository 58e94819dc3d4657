"""With which columns of base views the views over them compute, in sums or in expressions: there a number has to be one."""

from __future__ import annotations

from ...catalogue.views import Formula, Place
from ..dialect import Dialect
from ..shape import Shape
from ..tables import Tables


def leaves(formula: Formula) -> set[Place]:
    """The places in an expression."""
    if isinstance(formula, Place):
        return {formula}
    return set[Place]().union(*map(leaves, formula[1:])) if isinstance(formula, list) else set()


def computed_in(predicate: Formula) -> set[Place]:
    """The places that a predicate computes with."""
    if not isinstance(predicate, list):
        return set()
    if predicate[0] in ("all", "any", "not"):
        return set[Place]().union(*map(computed_in, predicate[1:]))
    return set[Place]().union(*(leaves(side) for side in predicate[1:] if isinstance(side, list)))


def traced(shape: Shape, v: int, place: int) -> tuple[int, int] | None:
    """The base view and the column of it that a column of a view is, or None where it is computed."""
    view = shape.views[v]
    if not view.over:
        return v, place
    formulas = [*(view.keep or view.group)]
    formula = formulas[place] if place < len(formulas) else None
    return traced_in(shape, v, formula) if isinstance(formula, Place) else None


def traced_in(shape: Shape, v: int, place: Place) -> tuple[int, int] | None:
    """The same of a place in a view's combined row."""
    spot = shape.spot(v, place)
    return traced(shape, shape.views[v].over[spot.child], spot.column)


def computed_with(tables: Tables[Dialect]) -> dict[int, list[int]]:
    """Of each base view the places of its numbers that a view sums or computes with."""
    found: dict[int, set[int]] = {}
    for v in tables.steps.derived():
        view = tables.views[v]
        formulas = [*view.sums, *(each for each in view.keep or () if isinstance(each, list))]
        places = computed_in(view.where).union(*map(leaves, formulas))
        for u, column in filter(None, (traced_in(tables.shape, v, place) for place in places)):
            found.setdefault(u, set()).add(column)
    return {u: sorted(columns) for u, columns in found.items()}
