"""Strategies, each a list of expressions: a view with its sources, of which an Inst has none. Their six rules, and what these let
stand next."""

from __future__ import annotations

from collections.abc import Collection, Iterator, Sequence
from random import Random
from typing import NamedTuple, Protocol, TypeAlias


class Comp(NamedTuple):
    """What these sources' changes make of a view is computed; all are numbers of views."""

    view: int
    sources: tuple[int, ...]


class Inst(NamedTuple):
    """What was computed of a view is installed. That it has no sources lets it be unpacked like a Comp."""

    view: int
    sources: None = None


Step: TypeAlias = Comp | Inst
# A strategy as it is judged: also one whose steps are pairs.
Strategy: TypeAlias = Sequence[Step | tuple[int, Sequence[int] | None]]
# A view and a source of it whose change a Comp took.
Edge: TypeAlias = tuple[int, int]


class Over(Protocol):
    """A view, which says what numbers of earlier views it is over."""

    @property
    def over(self) -> Sequence[int]: ...


# ---- whole strategies


def rules(views: Sequence[Over], strategy: Strategy) -> Iterator[list[int]]:
    """The places, from 1, at which each rule is broken, rule by rule."""
    end = len(strategy) + 1
    comps = [(at, v, sources) for at, (v, sources) in enumerate(strategy, 1) if sources is not None]
    insts = [(at, v) for at, (v, sources) in enumerate(strategy, 1) if sources is None]
    inst = {v: at for at, v in reversed(insts)}
    computed: set[Edge] = set()
    doubled: list[int] = []
    for at, v, sources in comps:
        named = [(v, u) for u in sources]
        if not set(sources) <= set(views[v].over) or len(set(named)) < len(named) or computed & set(named):
            doubled.append(at)
        computed |= set(named)
    edges = [(v, u) for v, view in enumerate(views) for u in view.over]
    yield doubled + [end for edge in edges if edge not in computed]
    yield [at for at, v in insts if inst[v] < at] + [end for v in range(len(views)) if v not in inst]
    yield [at for at, _, sources in comps if any(inst[u] < at for u in sources)]
    yield [at for at, v, _ in comps if any(inst[u] > at for a, w, us in comps if w == v and a < at for u in us)]
    yield [at for at, v, _ in comps if inst[v] < at]
    yield [at for at, v, _ in comps if any(v in us and a < at for a, _, us in comps)]


def broken(views: Sequence[Over], strategy: Strategy) -> str | None:
    """The first rule that a strategy breaks and its first place, or None."""
    return next((f"broken S{rule} at {min(places)}" for rule, places in enumerate(rules(views, strategy), 1) if places), None)


# ---- an expression after another


class Rules:
    """The rules over views, each over the numbers of earlier ones."""

    def __init__(self, over: Sequence[Sequence[int]]) -> None:
        self.over = over
        self.derived = [v for v, children in enumerate(over) if children]

    def may_comp(self, view: int, sources: Sequence[int], installed: Collection[int], done: Collection[Edge]) -> bool:
        """Whether the rules let this Comp stand next: `done` has each source of a view that a Comp of it took."""
        earlier = [u for u in self.over[view] if (view, u) in done]
        return (
            len(sources) > 0
            and len(set(sources)) == len(sources)
            and all(u in self.over[view] and u not in earlier for u in sources)  # S1
            and all(u not in installed for u in sources)  # S3
            and all(u in installed for u in earlier)  # S4
            and view not in installed  # S5
            and all((u, x) in done for u in sources for x in self.over[u])  # S6
        )

    def may_inst(self, view: int, installed: Collection[int], done: Collection[Edge]) -> bool:
        """Whether the rules let this Inst stand next, where each Comp that it needs has to come."""
        return (
            view not in installed  # S2
            and all((w, view) in done for w in self.derived if view in self.over[w])  # S3
            and all((view, u) in done for u in self.over[view])  # S5
        )

    def one_way(self) -> list[Step]:
        """The strategy by which each view's changes are brought into all views over it before the next one's."""
        found: list[Step] = []
        for u in range(len(self.over)):
            found += [*(Comp(v, (u,)) for v in self.derived if u in self.over[v]), Inst(u)]
        return found

    def at_once(self) -> list[Step]:
        """The strategy by which each view takes all changes in one Comp."""
        return [*(Comp(v, tuple(self.over[v])) for v in self.derived), *map(Inst, range(len(self.over)))]

    def walked(self, source: Random) -> list[Step] | None:
        """A correct strategy, each expression drawn among those that may stand next, or None where none may."""
        strategy: list[Step] = []
        installed: set[int] = set()
        done: set[Edge] = set()
        while len(installed) < len(self.over):
            ready: list[Step] = [Inst(v) for v in range(len(self.over)) if self.may_inst(v, installed, done)]
            for v in self.derived:
                open_ones = [u for u in self.over[v] if self.may_comp(v, [u], installed, done)]
                source.shuffle(open_ones)
                ready += [Comp(v, tuple(open_ones[: count + 1])) for count in range(len(open_ones))]
            if not ready:
                return None
            step = source.choice(ready)
            strategy.append(step)
            installed.update([step.view] if step.sources is None else [])
            done.update((step.view, u) for u in step.sources or ())
        return strategy

    def strategies(self, source: Random, most: int) -> list[list[Step]]:
        """All changes at once, view by view, and others that are drawn, this many at most."""
        found = [self.at_once(), self.one_way()]
        for _ in range(400):
            walked = self.walked(source)
            if len(found) < most and walked and walked not in found:
                found.append(walked)
        return found
