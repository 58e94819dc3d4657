"""Why two columns that are named alike do not join two tables."""

from __future__ import annotations

import re
from typing import TYPE_CHECKING, NamedTuple

from ..catalogue.views import Kind

if TYPE_CHECKING:
    from .exports import Column, Export
    from .proposals import Way

# A number as programs write it that keep zeros, or that had gaps in the column.
LIKE_NUMBER = re.compile(r" *([+-]?[0-9]{1,18})(?:\.0+)? *")


class End(NamedTuple):
    """One of two columns that are named alike: its table, the column, and a cell of it."""

    table: Export
    column: Column
    cell: str

    @property
    def name(self) -> str:
        return f"{self.table.name}.{self.column.name}"


def as_numbers(column: Column) -> dict[int, str] | None:
    """The values of a column, but for empty cells, as numbers, each with a cell that has it; None where one is no number."""
    found: dict[int, str] = {}
    for cell in sorted(column.values - {""}):
        match = LIKE_NUMBER.fullmatch(cell)
        if not match:
            return None
        found.setdefault(int(match[1]), cell)
    return found


def by_kind(way: Way) -> str:
    """That the one column is a text and the other has numbers, where their values are the same when both are read as numbers."""
    column, key = as_numbers(way.column), as_numbers(way.key)
    if not column or not key or not column.keys() & key.keys():
        return ""
    shared = sorted(column.keys() & key.keys())
    number = next((number for number in shared if column[number] != key[number]), shared[0])
    one, two = End(way.table, way.column, column[number]), End(way.other, way.key, key[number])
    text, other = (one, two) if way.column.kind == Kind.TEXT else (two, one)
    told = f"{text.name}, a text such as '{text.cell}', and {other.name}, a number such as {other.cell}"
    gaps = f"put a number that nothing else has into the empty cells of {text.column.name}" if "" in text.column.values else ""
    alike = f"write {text.cell} and {other.cell} alike in both files" if text.cell != other.cell else ""
    return f"not joined: {told}, since a text equals no number; {' and '.join(filter(None, (gaps, alike)))}, and run init again"


def by_values(way: Way) -> str:
    """That too few values of the one are there in the other, where some are."""
    values = way.column.values - {""}
    there = len(values & way.key.values)
    names = f"{way.table.name}.{way.column.name}, of which {there} of {len(values)} values are in {way.other.name}.{way.key.name}"
    return f"not joined: {names}; where they belong together add the pair to a view's join" if there else ""


def why_apart(way: Way) -> str:
    """What is to be told of a column that is named for another table's key and does not lead to it, or an empty text."""
    return by_kind(way) if way.column.kind != way.key.kind else by_values(way)
