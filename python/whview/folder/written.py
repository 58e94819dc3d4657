"""Records written as CSV, each ended by a line feed."""

from __future__ import annotations

import csv
from collections.abc import Iterable, Iterator
from types import SimpleNamespace
from typing import TYPE_CHECKING, TypeAlias

if TYPE_CHECKING:
    from .forms import Shown

# The cells of a record.
Record: TypeAlias = "Iterable[Shown]"

# The csv module puts a cell in quotes for the letters of the line end alone that it is told: it is told both, and the first one is cut off.
END = "\r\n"


def text_of(records: Iterable[Record]) -> str:
    """The records, all together."""
    made: list[str] = []
    csv.writer(SimpleNamespace(write=made.append), lineterminator=END).writerows(records)
    return "".join([f"{line[:-2]}\n" for line in made])


def lines_of(records: Iterable[Record]) -> Iterator[str]:
    """The records, one after another."""
    for record in records:
        yield text_of([record])
