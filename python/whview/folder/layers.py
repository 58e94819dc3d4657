"""Where the views of a graph stand: a row for each level, what is over what above it, and no box on a box or on a line.

A line that goes past a level has a place of its own in that level's row, as if a narrow box stood there.
"""

from __future__ import annotations

from collections.abc import Iterator, Mapping, Sequence
from dataclasses import dataclass
from functools import partial
from itertools import accumulate
from typing import NamedTuple, TypeAlias

from ..strategy.kinds import Named, levels, shape_of

GAP, LINE_WIDTH, SWEEPS = 24, 10, 8


class Passing(NamedTuple):
    """Where a line from a child to a view over it passes a level between theirs."""

    child: str
    over: str
    level: int


# What stands in a row: a view, by its name, or a line that passes.
Member: TypeAlias = str | Passing
# What each member is joined with in the row below, or in the one above.
Joins: TypeAlias = dict[Member, list[Member]]


@dataclass(frozen=True, slots=True)
class Block:
    """Neighbours that stand as near to each other as they may: the mean of the places wanted, less what is before each, and how many they are."""

    mean: float
    count: int

    def joined(self, other: Block) -> Block:
        """Both as one."""
        count = self.count + other.count
        return Block((self.mean * self.count + other.mean * other.count) / count, count)


def settled(wanted: Sequence[float], least: Sequence[float]) -> list[float]:
    """Places in rising order, as near to those wanted as can be, where each two neighbours are apart by what `least` says."""
    before = list(accumulate(least, initial=0.0))[: len(wanted)]
    blocks: list[Block] = []
    for place, start in zip(wanted, before):
        blocks.append(Block(place - start, 1))
        while len(blocks) > 1 and blocks[-2].mean > blocks[-1].mean:
            last = blocks.pop()
            blocks[-1] = blocks[-1].joined(last)
    flat = [block.mean for block in blocks for _ in range(block.count)]
    return [place + start for place, start in zip(flat, before)]


class Layers:
    """The rows, from the base views up, and the middle of each member. `widths` has each view's width."""

    def __init__(self, views: Sequence[Named], widths: Mapping[str, float]) -> None:
        self.levels = {view.name: level for view, level in zip(views, levels(shape_of(views)))}
        self.widths = widths
        self.rows: list[list[Member]] = [[] for _ in range(1 + max(self.levels.values()))]
        self.below: Joins = {}
        self.above: Joins = {}
        # Where the line from a child to a view over it passes levels between theirs.
        self.passed: dict[tuple[str, str], list[Passing]] = {}
        for view in views:
            self.add(view)
        self.middles: dict[Member, float] = {member: number for row in self.rows for number, member in enumerate(row)}
        self.sort()
        self.settle()

    def add(self, view: Named) -> None:
        """Has a view stand in its row, with the lines from its children."""
        self.rows[self.levels[view.name]].append(view.name)
        for child in view.over:
            self.join(child, view.name)

    def join(self, child: str, over: str) -> None:
        """Has the line from a child to a view over it stand in the rows that it passes."""
        between = [Passing(child, over, level) for level in range(self.levels[child] + 1, self.levels[over])]
        for passing in between:
            self.rows[passing.level].append(passing)
        self.passed[child, over] = between
        way: list[Member] = [child, *between, over]
        for lower, upper in zip(way, way[1:]):
            self.below.setdefault(upper, []).append(lower)
            self.above.setdefault(lower, []).append(upper)

    def last(self, child: str, over: str) -> Member:
        """From where the line from a child comes to a view over it."""
        passed = self.passed[child, over]
        return passed[-1] if passed else child

    def width(self, member: Member) -> float:
        return self.widths[member] if isinstance(member, str) else LINE_WIDTH

    def mean(self, member: Member, beside: Joins) -> float:
        """The mean place of what a member is joined with in the row below or above, or its own where there is nothing."""
        places = [self.middles[other] for other in beside.get(member, ())]
        return sum(places) / len(places) if places else self.middles[member]

    def swept(self) -> Iterator[tuple[list[Member], Joins]]:
        """Each row with the joins by which it is to be placed: upwards by the rows below, and down again."""
        for _ in range(SWEEPS):
            yield from ((row, self.below) for row in self.rows[1:])
            yield from ((row, self.above) for row in reversed(self.rows[:-1]))

    def sort(self) -> None:
        """Orders each row by what its members are joined with, so that few lines cross."""
        for row, beside in self.swept():
            row.sort(key=partial(self.mean, beside=beside))
            for number, member in enumerate(row):
                self.middles[member] = number * len(self.middles) / len(row)

    def settle(self) -> None:
        """Finds the middles: the rows are packed, and then each is moved towards what it is joined with."""
        for row in self.rows:
            self.put(row, [0] * len(row))
        for row, beside in self.swept():
            self.put(row, [self.mean(member, beside) for member in row])
        left = min(self.middles[member] - self.width(member) / 2 for row in self.rows for member in row)
        self.middles = {member: middle - left for member, middle in self.middles.items()}

    def put(self, row: Sequence[Member], wanted: Sequence[float]) -> None:
        """Finds the middles of a row as near to those wanted as can be."""
        least = [(self.width(left) + self.width(right)) / 2 + GAP for left, right in zip(row, row[1:])]
        self.middles.update(zip(row, settled(wanted, least)))

    @property
    def breadth(self) -> float:
        return max(self.middles[member] + self.width(member) / 2 for row in self.rows for member in row)
