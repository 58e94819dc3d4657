"""What a view is taken apart into: values that every engine carries out, and that nights, trials and readers go by."""

from __future__ import annotations

from dataclasses import dataclass, field
from typing import TypeAlias

# What a catalogue has at most: columns of a view, views, and views that one is over.
MOST_COLUMNS, MOST_VIEWS, MOST_CHILDREN = 64, 64, 6
# So many columns at most has a mirror that several warehouses share.
MOST_SHARED = 512
# An expression or a predicate as a catalogue has it.
Formula: TypeAlias = "int | str | list[Formula] | dict[str, str]"


@dataclass(frozen=True, slots=True)
class RowExpression:
    """A column of a mirror, computed from one row r of its table: what is kept is a whole number or a text, and never NULL."""

    name: str
    kind: str
    expression: str
    reads: tuple[str, ...]


@dataclass(slots=True)
class Mirror:
    """What is captured of a table: its row expressions, and which of them are its key; and its name, where that is not the table's."""

    schema: str
    table: str
    columns: list[RowExpression] = field(default_factory=list)
    key: tuple[str, ...] = ()
    named: str = ""

    @property
    def name(self) -> str:
        return self.named or self.table


@dataclass(slots=True)
class Kept:
    """A view that nights keep in the core's language: a summary by groups with its count and sums, or joined rows where it has no count."""

    name: str
    over: list[str]
    join: list[tuple[str, str]] = field(default_factory=list)
    where: list[Formula] = field(default_factory=list)
    outputs: list[tuple[str, Formula]] = field(default_factory=list)
    is_summary: bool = False
    sums: list[tuple[str, Formula]] = field(default_factory=list)


@dataclass(frozen=True, slots=True)
class Column:
    """A column of a view: its name, and its type as the database tells it."""

    name: str
    type: str


@dataclass(frozen=True, slots=True)
class Read:
    """A view as readers see it: the query over what is kept, and the columns that it has to have; and what it leaves open itself."""

    schema: str
    name: str
    query: str
    columns: tuple[Column, ...]
    notes: tuple[str, ...] = ()


@dataclass(slots=True)
class Decomposition:
    """Views, taken apart: what mirrors keep of each row, what nights keep over them, and how it is read back."""

    mirrors: list[Mirror] = field(default_factory=list)
    kept: list[Kept] = field(default_factory=list)
    reads: list[Read] = field(default_factory=list)
