"""What work costs in a database, measured from the history of its nights: what an installed row costs beside one that is read, and what a
row of each view costs beside one of the cheapest."""

from __future__ import annotations

from collections import defaultdict
from collections.abc import Iterable, Mapping, Sequence
from typing import TYPE_CHECKING, NamedTuple

from ...strategy.sizes import MOST_WEIGHT
from .. import steps

if TYPE_CHECKING:
    from ...catalogue.views import View
    from .live import LiveScript
    from .sizes import Done, Past

ROUNDS, MOST_COST = 200, 1_000_000


class Step(NamedTuple):
    """A step that was carried out: what it is, how many rows of each view it read or put, and the seconds that it took."""

    kind: str
    view: int
    rows: dict[int, int]
    seconds: float


class Measured(NamedTuple):
    """What is proposed, and from how many steps."""

    inst_cost: int
    weights: list[int]
    steps: int


class Counted:
    """The steps of one night by its true sizes."""

    def __init__(self, sizes: Sequence[Past]) -> None:
        self.sizes = sizes
        self.installed: set[int] = set()

    def rows(self, step: steps.Step) -> dict[int, int]:
        """How many rows of each view a step reads, or puts."""
        found: dict[int, int] = defaultdict(int)
        if isinstance(step, steps.Inst):
            found[step.view] = self.sizes[step.view].change
            self.installed.add(step.view)
        for term in step.terms if isinstance(step, steps.Comp) else ():
            for operand in term:
                size = self.sizes[operand.view]
                found[operand.view] += size.change if operand.is_change else size.post if operand.view in self.installed else size.pre
        return found


def steps_of(script: LiveScript, listed: Iterable[Done | tuple[str, int | None, float | None]], sizes: Sequence[Past]) -> list[Step]:
    """The steps of a night from its history, with their true rows, without Comps of what did not change, which read nothing, and Insts that
    their Comps carried out; none where it has views that the catalogue has not."""
    counted, found = Counted(sizes), list[Step]()
    for told, _, seconds in listed:
        words = told.split(" ")
        if words[0] not in ("comp", "inst") or seconds is None:
            continue
        names = [words[1], *words[3:]]
        if any(name not in script.catalogue.names for name in names):
            return []
        view, *sources = (script.catalogue.names[name] for name in names)
        if words[0] == "inst" and not float(seconds):
            counted.installed.add(view)
            continue
        if sources and not any(sizes[source].change for source in sources):
            continue
        step: steps.Step = steps.Inst(view) if words[0] == "inst" else steps.Comp(view, tuple(sources), script.steps.terms(view, sources))
        found.append(Step(step.kind, view, counted.rows(step), float(seconds)))
    return found


def fitted(rows: Sequence[Mapping[int, int]], seconds: Sequence[float], many: int) -> list[float]:
    """Numbers from 0 on by which the rows come nearest to the seconds, with a number for each step itself first: by turns, each the best
    beside the others."""
    found = [0.0] * (many + 1)
    given = [{0: 1, **{v + 1: count for v, count in each.items()}} for each in rows]
    left = list(seconds)
    for _ in range(ROUNDS):
        for at in range(many + 1):
            square = sum(each.get(at, 0) ** 2 for each in given)
            best = max(0.0, found[at] + sum(each.get(at, 0) * rest for each, rest in zip(given, left)) / square) if square else 0.0
            left = [rest - each.get(at, 0) * (best - found[at]) for each, rest in zip(given, left)]
            found[at] = best
    return found[1:]


def measured(views: Sequence[View], done: Sequence[Step]) -> Measured | None:
    """The proposal, or None where no step was timed that read rows or none that put them. Where steps took as long whatever they read, all
    rows cost the same."""
    comps, insts = ([step for step in done if step.kind == kind and sum(step.rows.values()) != 0] for kind in ("comp", "inst"))
    if not comps or not insts:
        return None
    each = fitted([step.rows for step in comps], [step.seconds for step in comps], len(views))
    if not any(each):
        each = [sum(step.seconds for step in comps) / sum(sum(step.rows.values()) for step in comps)] * len(views)
    least = min(filter(None, each))
    weights = [min(max(round(cost / least), 1), MOST_WEIGHT) for cost in each]
    put = sum(count * weights[v] for step in insts for v, count in step.rows.items())
    cost = sum(step.seconds for step in insts) / put / least
    return Measured(min(max(round(cost), 1), MOST_COST), weights, len(comps) + len(insts))
