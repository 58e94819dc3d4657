"""What the definitions make of views, tables and changes. A table is a map from rows to counts; a Comp goes through all combined rows
of all its terms."""

from collections import Counter
from collections.abc import Iterable, Iterator, Sequence
from itertools import combinations, product
from math import prod
from operator import add
from typing import Protocol, TypeAlias, TypeVar

from .views import Bag, Cell, Row, View, value

MOST_ROWS, MOST_COUNT = 2**56, 2**63 - 1
# What a Comp computes: of each row or group the count of its combined rows, and behind it what they add up to.
Sums: TypeAlias = dict[Row, list[int]]
Operand = TypeVar("Operand")
Operand_co = TypeVar("Operand_co", covariant=True)


class ByView(Protocol[Operand_co]):
    """What there is of each view, by its number."""

    def __getitem__(self, view: int, /) -> Operand_co: ...


class Refused(Exception):
    """Why an event is refused, or a value cannot be had."""


class NoContents(Exception):
    """Why there are no opening contents."""


# ---- tables


def total(counts: Bag) -> int:
    return sum(abs(count) for count in counts.values())


def added(records: Iterable[tuple[Row, int]]) -> Counter[Row]:
    """The bag that records add up to."""
    counts: Counter[Row] = Counter()
    for row, count in records:
        counts[row] += count
    return Counter({row: count for row, count in counts.items() if count})


def difference(new: Bag, old: Bag) -> Counter[Row]:
    """The rows that come, with positive counts, and those that leave, with negative ones."""
    return added([*new.items(), *((row, -count) for row, count in old.items())])


def after(table: Bag, change: Bag) -> dict[Row, int]:
    """A table with a change."""
    return dict(added([*table.items(), *change.items()]))


def merged(pending: Sums, more: Sums) -> Sums:
    """What two Comps of one view computed."""
    found = dict(pending)
    for key, sums in more.items():
        found[key] = list(map(add, found[key], sums)) if key in found else sums
    return found


# ---- values


def terms(over: Iterable[int], sources: Sequence[int], tables: ByView[Operand], changes: ByView[Operand]) -> Iterator[list[Operand]]:
    """The operands of each term of a Comp: for each part of the sources their changes, and the tables of all others."""
    for count in range(1, len(sources) + 1):
        for part in combinations(sources, count):
            yield [changes[u] if u in part else tables[u] for u in over]


def in_range(cell: Cell | None) -> Cell:
    """The value of a formula, which has to have one."""
    if cell is None:
        raise Refused("Range")
    return cell


def number(cell: Cell) -> int:
    """A cell of a column of numbers."""
    assert isinstance(cell, int)
    return cell


class Evaluator:
    """What the definitions make of tables and changes. Of a Comp is kept, for each row of a joined view or group of a summary,
    how many combined rows it has and what they add up to."""

    def terms(self, over: Sequence[int], sources: Sequence[int], tables: ByView[Bag], changes: ByView[Bag]) -> Iterable[Sequence[Bag]]:
        return terms(over, sources, tables, changes)

    def sums(self, view: View, terms: Iterable[Sequence[Bag]]) -> Sums:
        """The count and sums of each row or group over the combined rows of these terms."""
        found: Sums = {}
        for operands in terms:
            for rows in product(*(operand.items() for operand in operands)):
                cells = tuple(cell for row, _ in rows for cell in row)
                if view.passes(cells):
                    self.gather(view, cells, prod(count for _, count in rows), found)
        return found

    def gather(self, view: View, cells: Row, count: int, found: Sums) -> None:
        """Adds a combined row, which stands so often, to the row or group that it belongs to."""
        if view.keep is not None:
            key, summed = tuple(in_range(value(formula, cells)) for formula in view.keep), []
        else:
            key, summed = tuple(cells[place] for place in view.group), [number(in_range(value(formula, cells))) for formula in view.sums]
        found[key] = list(map(add, found.get(key, [0] * (1 + len(summed))), [count] + [count * each for each in summed]))

    def shown(self, view: View, key: Row, sums: Sequence[int]) -> tuple[Row, int] | None:
        """The row of a group or of a joined view, and how often it stands, where it stands at all."""
        if view.keep is not None:
            return (key, sums[0]) if sums[0] else None
        if any(not -MOST_COUNT - 1 <= each <= MOST_COUNT for each in sums[1:]):
            raise Refused("Range")
        return (key + tuple(sums), 1) if sums[0] else None

    def within(self, sizes: Iterable[int]) -> None:
        """Refuses a product of operands of these sizes that is too large."""
        if prod(sizes) > MOST_ROWS:
            raise Refused("Large")

    def from_scratch(self, view: View, tables: Sequence[Bag]) -> dict[Row, int]:
        """A view over the tables of its children."""
        self.within(map(total, tables))
        rows = [self.shown(view, key, sums) for key, sums in self.sums(view, [tables]).items()]
        return dict(row for row in rows if row)

    def contents(self, views: Sequence[View], tables: Sequence[Bag]) -> list[Bag]:
        """The tables of all views, over those of the base views."""
        found = list(tables)
        for v, view in enumerate(views):
            try:
                found[v] = self.from_scratch(view, [found[u] for u in view.over]) if view.over else tables[v]
            except Refused as refused:
                raise NoContents(f"{refused} {view.name}".lower()) from refused
        return found

    def comp(self, view: View, sources: Sequence[int], tables: ByView[Bag], changes: ByView[Bag]) -> Sums:
        """What these sources' changes make of the view's rows or groups."""
        self.within(total(tables[u]) + (total(changes[u]) if u in sources else 0) for u in view.over)
        return self.sums(view, self.terms(view.over, sources, tables, changes))

    def change(self, view: View, pending: Sums, table: Bag) -> dict[Row, int]:
        """The rows that come and go by what was computed of a view."""
        if view.keep is not None:
            return {key: sums[0] for key, sums in pending.items() if sums[0]}
        groups = len(view.group)
        found: Counter[Row] = Counter()
        before = {row[:groups]: row for row in table}
        for key, sums in sorted(pending.items()):
            old = before.get(key)
            if old:
                found[old] -= 1
            if row := self.shown(view, key, list(map(add, sums, map(number, old[groups:]) if old else [0] * len(sums)))):
                found[row[0]] += 1
        return {row: count for row, count in found.items() if count}

    def judge(self, table: Bag, change: Bag) -> None:
        """Refuses a base change that takes away what is not there, or leaves more of a row than can be counted."""
        after = [table.get(row, 0) + count for row, count in change.items()]
        if any(count < 0 for count in after):
            raise Refused("Absent")
        if any(count > MOST_COUNT for count in after):
            raise Refused("Large")


class Unbounded(Evaluator):
    """The same where products of tables may be as large as they like."""

    def within(self, sizes: Iterable[int]) -> None:
        pass
