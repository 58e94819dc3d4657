"""The rows of a table that are asked for: by conditions, in an order, so many, and with some of their columns."""

import heapq
from collections.abc import Callable, Iterable, Iterator, Sequence
from itertools import chain, islice, repeat
from typing import NamedTuple, TypeAlias

from ..catalogue.views import Kind
from ..finding import Failure
from ..status import BAD_WORDS
from .blocks import Block
from .conditions import Condition, column_of, condition_of, judge_pointed, passing
from .reading import Counted, Numbered, Table

# How many rows are put in order at a time, where all are asked for.
RUN = 100_000

# By what rows are compared.
OrderKey: TypeAlias = tuple[bool, int | str, int]


class Order(NamedTuple):
    """By which column rows come, and whether the largest come first; rows with equal cells come as in the table."""

    place: int
    falls: bool

    def key(self, numbered: Numbered) -> OrderKey:
        """What a row is compared by. Texts in a column of numbers come behind these."""
        number, (_, cells) = numbered
        cell = cells[self.place]
        return isinstance(cell, str), cell, -number if self.falls else number

    def few(self, rows: Iterable[Numbered], count: int) -> list[Numbered]:
        """The first so many in this order, of which alone memory is taken."""
        return (heapq.nlargest if self.falls else heapq.nsmallest)(count, rows, key=self.key)

    def all(self, rows: Iterator[Numbered]) -> Iterator[Numbered]:
        """All in this order: runs of them are kept in temporary files."""
        runs: list[Iterable[Numbered]] = []
        while run := sorted(islice(rows, RUN), key=self.key, reverse=self.falls):
            runs.append(run if len(run) < RUN else put_by(run))
        return iter(heapq.merge(*runs, key=self.key, reverse=self.falls))


def put_by(run: Sequence[Numbered]) -> Iterator[Numbered]:
    """Rows that come back from a temporary file, which has no name."""
    # What most reads do not need is imported where it is needed: that takes longer than many a read.
    import pickle
    import tempfile

    file = tempfile.TemporaryFile()
    for row in run:
        pickle.dump(row, file)
    file.seek(0)
    return (pickle.load(file) for _ in repeat(None, len(run)))


class Choice(NamedTuple):
    """What is asked of a table: the rows behind a number, those for which conditions hold, in an order, and the places of columns."""

    table: Table
    conditions: list[Condition]
    order: Order | None
    places: list[int] | None
    after: int

    @property
    def is_plain(self) -> bool:
        """Whether the rows come as they stand, from a number on."""
        return not self.conditions and self.order is None

    @property
    def names(self) -> list[str]:
        """The columns that are given."""
        names = self.table.columns.names
        return names if self.places is None else [names[place] for place in self.places]

    @property
    def kinds(self) -> list[Kind]:
        """Their kinds."""
        kinds = self.table.columns.kinds
        return kinds if self.places is None else [kinds[place] for place in self.places]

    def cut(self, counted: Counted) -> Counted:
        """A row's count and the cells that are given."""
        count, cells = counted
        return counted if self.places is None else (count, tuple(cells[place] for place in self.places))

    def blocks(self, is_near: bool = False) -> Iterator[tuple[Block, Iterator[Numbered]]]:
        """Each block with the rows of it for which the conditions hold, as they stand: those behind the row `after`, in their order."""
        start, follows = (self.after, None) if self.order is None else (0, self.follows(self.order))
        for block in self.table.blocks(start, is_near):
            rows = passing(self.table, block, start, self.conditions)
            yield block, filter(follows, rows) if follows else rows

    def follows(self, order: Order) -> Callable[[Numbered], bool] | None:
        """Whether a row comes behind the row `after` in the order."""
        if not self.after:
            return None
        row = next(self.table.rows(self.after - 1), None)
        if row is None:
            return lambda _: False
        bound = order.key(row)
        if order.falls:
            return lambda numbered: order.key(numbered) < bound
        return lambda numbered: order.key(numbered) > bound

    def found(self) -> Iterator[Numbered]:
        """All such rows."""
        return chain.from_iterable(rows for _, rows in self.blocks())

    def rows(self, limit: int | None = None) -> Iterator[Numbered]:
        """The rows that are asked for, so many at most."""
        if self.order is None or limit == 0:
            return islice(self.found(), limit)
        return iter(self.order.few(self.found(), limit)) if limit is not None else self.order.all(self.found())


def order_of(table: Table, asked: str | None) -> Order | None:
    """The order that a text such as `day`, or `-day`, means."""
    if asked is None:
        return None
    judge_pointed(table, asked.removeprefix("-"))
    return Order(column_of(table, asked.removeprefix("-")), asked.startswith("-"))


def places_of(table: Table, asked: str | None) -> list[int] | None:
    """The places of columns that a text such as `id,day` names."""
    if asked is None:
        return None
    places = [column_of(table, name) for name in asked.split(",")]
    if len(set(places)) < len(places):
        raise Failure(BAD_WORDS, f"a column stands twice in {asked[:80]!r}")
    return places


def choice_of(table: Table, where: Iterable[str] = (), order: str | None = None, columns: str | None = None, after: int = 0) -> Choice:
    """What these texts ask of a table."""
    return Choice(table, [condition_of(table, each) for each in where], order_of(table, order), places_of(table, columns), after)
