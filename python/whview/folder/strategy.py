"""A strategy: its expressions with their lines, and in words what a broken rule asks for."""

from __future__ import annotations

from collections.abc import Iterable, Iterator, Sequence
from dataclasses import dataclass
from typing import NamedTuple

from ..bundle import words_of
from ..finding import MARK, MARKED, Finding, Place, nearest
from ..strategy.kinds import Named, shape_of
from ..strategy.rules import rules

FILE = "strategy.txt"
WORDS = {
    1: "each view's changes are computed into each view over it, once",
    2: "each view is installed once",
    3: "a Comp from a view stands before that view's Inst",
    4: "what one Comp of a view took is installed before the next Comp of it",
    5: "all Comps of a view stand before its Inst",
    6: "all Comps of a view stand before a Comp from it",
}


class Expression(NamedTuple):
    """A view with the sources of its Comp, or with None of its Inst, all by name."""

    view: str
    sources: tuple[str, ...] | None = None

    @property
    def text(self) -> str:
        """It as a strategy has it."""
        return f"comp {self.view} from {' '.join(self.sources)}" if self.sources else f"inst {self.view}"


@dataclass(frozen=True, slots=True)
class Numbered:
    """A view that is over the views with these numbers."""

    over: Sequence[int]


def at_once(views: Sequence[Named]) -> Iterator[Expression]:
    """The expressions of the strategy that goes through the views in their order, which is always correct."""
    for view in views:
        yield from (Expression(parent.name, (view.name,)) for parent in views if view.name in parent.over)
        yield Expression(view.name)


def written(expressions: Iterable[Expression]) -> str:
    """A strategy's text."""
    return "".join(f"{expression.text}\n" for expression in expressions)


class Strategy:
    """The expressions of a text, their lines, and the findings."""

    def __init__(self, text: str, views: Sequence[Named]) -> None:
        self.views, self.names = views, [view.name for view in views]
        self.expressions: list[Expression] = []
        self.lines: list[int] = []
        self.findings: list[Finding] = []
        if text.startswith(MARK.decode()):
            self.findings.append(Finding(Place(FILE), MARKED))
        for number, line in enumerate(text.removeprefix(MARK.decode()).split("\n"), 1):
            self.take(line, number)

    def take(self, line: str, number: int) -> None:
        """Takes a line, which is an expression or has nothing, or finds what is wrong in it."""
        words = next(iter(words_of([line])), None)
        if not words:
            return
        is_inst = words[0] == "inst" and len(words) == 2
        if not is_inst and not (words[0] == "comp" and len(words) > 3 and words[2] == "from"):
            text = f'"{" ".join(words)}" is no expression; it is "comp V from U .." or "inst V"'
            self.findings.append(Finding(Place(FILE, number), text))
            return
        for name in [words[1], *words[3:]]:
            if name not in self.names:
                text = f"there is no view {name}{nearest(name, self.names)}"
                self.findings.append(Finding(Place(FILE, number, line.index(name, len(words[0])) + 1), text))
        self.expressions.append(Expression(words[1], None if is_inst else tuple(words[3:])))
        self.lines.append(number)

    def line(self, place: int) -> int:
        """The line of an expression, or the one after the last."""
        return self.lines[place - 1] if place <= len(self.lines) else (self.lines[-1] + 1 if self.lines else 1)

    def insts(self, view: str) -> Iterator[int]:
        """Where an Inst of a view stands, from 1."""
        return (place for place, found in enumerate(self.expressions, 1) if found == Expression(view))

    def comps(self, view: str, source: str) -> Iterator[int]:
        """Where a Comp of one view from another stands."""
        return (place for place, (found, sources) in enumerate(self.expressions, 1) if found == view and source in (sources or ()))

    def broken(self) -> Finding | None:
        """The finding of the first broken rule, or None."""
        numbers = {name: number for number, name in enumerate(self.names)}
        views = list(map(Numbered, shape_of(self.views)))
        given = [(numbers[view], None if sources is None else tuple(numbers[name] for name in sources)) for view, sources in self.expressions]
        for rule, places in enumerate(rules(views, given), 1):
            if places:
                place = min(places)
                return Finding(Place(FILE, self.line(place)), f"rule S{rule}, {WORDS[rule]}: {self.wanted(rule, place)}")
        return None

    def wanted(self, rule: int, place: int) -> str:
        """What would have to stand before what."""
        if place > len(self.expressions):
            return f'"{self.missing(rule)}" is missing'
        here = self.expressions[place - 1]
        if rule == 1:
            return f'"{here.text}" computes what an earlier line does, or names a view that {here.view} is not over'
        if rule == 2:
            return f'"{here.text}" stands a second time'
        return self.order(rule, here, self.expressions[: place - 1])

    def order(self, rule: int, here: Expression, before: Sequence[Expression]) -> str:
        """The expression that stands too early or too late for one here, which stands behind those before it."""
        if rule == 3:
            name = next(name for name in here.sources or () if Expression(name) in before)
            return f'"{here.text}" has to stand before "inst {name}" of line {self.line(next(self.insts(name)))}'
        if rule == 4:
            earlier = [name for found, names in before if found == here.view and names for name in names]
            name = next(name for name in earlier if Expression(name) not in before)
            return f'"inst {name}" has to stand before "{here.text}"'
        if rule == 5:
            return f'"{here.text}" has to stand before "inst {here.view}" of line {self.line(next(self.insts(here.view)))}'
        later = next(found for found in before if here.view in (found.sources or ()))
        return f'"{here.text}" has to stand before "{later.text}" of line {self.line(before.index(later) + 1)}'

    def missing(self, rule: int) -> str:
        """The first expression that a correct strategy has and this one has not."""
        if rule == 2:
            return next(f"inst {name}" for name in self.names if not any(self.insts(name)))
        edges = [(view.name, name) for view in self.views for name in view.over]
        return next(f"comp {view} from {source}" for view, source in edges if not any(self.comps(view, source)))
