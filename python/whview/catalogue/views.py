"""Views with their formulas: a number, a text, a place in the combined row, or a sign with its members."""

from collections.abc import Callable, Collection, Iterable, Iterator, Mapping, Sequence
from enum import StrEnum
from operator import eq, ge, gt, le, lt, ne
from typing import Any, NamedTuple, TypeAlias

SIGNS: dict[str, Callable[[Any, Any], bool]] = {"=": eq, "<>": ne, "<": lt, "<=": le, ">": gt, ">=": ge}


class Text(str):
    """A text of a formula."""


class Place(int):
    """A place in the combined row."""


# A number, a place or a truth value, a text, or a list of a sign and its members.
Formula: TypeAlias = "int | str | list[Formula]"
# What stands in a column, a row of a table, and a table or a change: how often each row stands, or comes and goes.
Cell: TypeAlias = int | str
Row: TypeAlias = tuple[Cell, ...]
Bag: TypeAlias = Mapping[Row, int]
Records: TypeAlias = Collection[tuple[Row, int]]


class Kind(StrEnum):
    """What stands in a column."""

    INT = "int"
    TEXT = "text"


class Column(NamedTuple):
    """A column of a view."""

    name: str
    kind: Kind


def value(formula: Formula, row: Row) -> Cell | None:
    """The value of an expression on a row, or None where a step leaves 64 bits."""
    if isinstance(formula, Place):
        return row[formula]
    if isinstance(formula, (int, str)):
        return formula
    sign, left, right = formula[0], value(formula[1], row), value(formula[2], row)
    if not isinstance(left, int) or not isinstance(right, int):
        return None
    found = left + right if sign == "+" else left - right if sign == "-" else left * right
    return found if -(2**63) <= found < 2**63 else None


def holds(formula: Formula, row: Row) -> bool:
    """Whether a predicate holds on a row."""
    if not isinstance(formula, list):
        return formula is True
    sign, *members = formula
    if isinstance(sign, str) and sign in SIGNS:
        left, right = value(members[0], row), value(members[1], row)
        return left is not None and right is not None and SIGNS[sign](left, right)
    if sign == "all":
        return all(holds(member, row) for member in members)
    if sign == "any":
        return any(holds(member, row) for member in members)
    return not holds(members[0], row)


def texts_of(formula: Formula) -> list[Text]:
    """The texts of a formula, from left to right."""
    if isinstance(formula, Text):
        return [formula]
    return [text for member in formula[1:] for text in texts_of(member)] if isinstance(formula, list) else []


# ---- views


class View:
    """A view: its columns with their kinds and, where it is derived, its definition over the views with these numbers."""

    def __init__(
        self,
        name: str,
        columns: Iterable[tuple[str, str]],
        over: Iterable[int] = (),
        join: Sequence[tuple[int, int]] = (),
        where: Formula = True,
        keep: Sequence[Formula] | None = None,
        group: Sequence[int] = (),
        sums: Sequence[Formula] = (),
    ) -> None:
        self.name, self.over = name, list(over)
        self.columns = [Column(column, Kind(kind)) for column, kind in columns]
        self.join, self.where, self.keep, self.group, self.sums = join, where, keep, group, sums

    def passes(self, row: Row) -> bool:
        return all(row[left] == row[right] for left, right in self.join) and holds(self.where, row)


def cells(parts: Iterable[Iterable[Iterable[tuple[Row, int]]]]) -> Iterator[Cell]:
    """The cells of tables and changes, in their order."""
    for part in parts:
        for records in part:
            for row, _ in records:
                yield from row


def numbered(views: Iterable[View], *parts: Iterable[Iterable[tuple[Row, int]]]) -> list[str]:
    """All texts in the order of their numbers: those of formulas, and then of tables and changes."""
    found: list[str] = [text for view in views for formula in [view.where, *(view.keep or [])] for text in texts_of(formula)]
    found += [cell for cell in cells(parts) if isinstance(cell, str)]
    return [str(text) for text in dict.fromkeys(found)]
