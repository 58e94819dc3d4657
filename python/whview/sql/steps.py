"""What a night and an opening are made of, in no engine's words: the steps in their order, and the terms of each Comp."""

from __future__ import annotations

from collections.abc import Iterable, Sequence
from dataclasses import dataclass
from typing import ClassVar, TypeAlias, Union

from ..catalogue.evaluator import terms
from ..catalogue.views import View
from ..strategy import rules

# An expression of a strategy.
Expression: TypeAlias = rules.Step


@dataclass(frozen=True, slots=True)
class Operand:
    """What a term multiplies: a view's table as it is when the statement runs, before or after the view's inst, or the view's change."""

    view: int
    is_change: bool
    is_after: bool = False


Term = tuple[Operand, ...]


@dataclass(frozen=True, slots=True)
class Net:
    """Equal rows of a base view's changes add up, and opposite ones cancel."""

    kind: ClassVar[str] = "net"
    view: int


@dataclass(frozen=True, slots=True)
class Judge:
    """Whether a base view's change may be carried out."""

    kind: ClassVar[str] = "judge"
    view: int


@dataclass(frozen=True, slots=True)
class Comp:
    """What the changes of some sources make of a view, term by term; without sources the view from scratch."""

    kind: ClassVar[str] = "comp"
    view: int
    sources: tuple[int, ...]
    terms: tuple[Term, ...]


@dataclass(frozen=True, slots=True)
class Finish:
    """What the Comps of a view made becomes its change."""

    kind: ClassVar[str] = "finish"
    view: int


@dataclass(frozen=True, slots=True)
class Inst:
    """A view's change is put into its table."""

    kind: ClassVar[str] = "inst"
    view: int


Step = Union[Net, Judge, Comp, Finish, Inst]


class Steps:
    """The steps over these views."""

    def __init__(self, views: Sequence[View]) -> None:
        self.views = views

    def terms(self, view: int, sources: Sequence[int], installed: Iterable[int] = ()) -> tuple[Term, ...]:
        """The operands of each term of a Comp: for each part of its sources their changes, and the tables of all others."""
        numbers, done = range(len(self.views)), set(installed)
        tables, changes = [Operand(u, False, u in done) for u in numbers], [Operand(u, True) for u in numbers]
        return tuple(map(tuple, terms(self.views[view].over, sources, tables, changes)))

    def whole(self, view: int) -> Term:
        """The one term of a view from scratch."""
        return tuple(Operand(u, False, bool(self.views[u].over)) for u in self.views[view].over)

    def base(self) -> list[int]:
        return [v for v, view in enumerate(self.views) if not view.over]

    def derived(self) -> list[int]:
        return [v for v, view in enumerate(self.views) if view.over]

    def filling(self, view: int) -> list[Step]:
        """A derived view from scratch."""
        return [Comp(view, (), (self.whole(view),)), Finish(view), Inst(view)]

    def opening(self) -> list[Step]:
        """Each derived view from scratch, those below it first."""
        return [step for v in self.derived() for step in self.filling(v)]

    def night(self, strategy: Iterable[Expression]) -> list[Step]:
        """The base changes netted and judged, and then the expressions; a view's change is made where it is first wanted."""
        found: list[Step] = [*map(Net, self.base()), *map(Judge, self.base())]
        ready, installed = set(self.base()), set[int]()
        for view, sources in strategy:
            wanted = [view] if sources is None else sorted(sources)
            found += [Finish(v) for v in wanted if v not in ready]
            ready.update(wanted)
            found.append(Inst(view) if sources is None else Comp(view, sources, self.terms(view, sources, installed)))
            installed.update(wanted if sources is None else ())
        return found
