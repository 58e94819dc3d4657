"""Quotes of a CSV text that are not as they are to be: where they open, and what is told of them."""

from __future__ import annotations

import re
from bisect import bisect_right
from collections.abc import Sequence
from typing import NamedTuple

CELL = re.compile(r'(?P<open>")(?:[^"]++|"")*+(?P<shut>"?)|[^,\r\n]*')
CURE = "a quote within a cell is written twice, and the cell is put in quotes"


class Wrong(NamedTuple):
    """A cell whose quote is wrong: where it opens, and where it is closed, or None where it never is."""

    opens: int
    closes: int | None


def wrong(text: str, place: int) -> Wrong | None:
    """The first cell from here on whose quote is never closed, or behind whose end more stands than a comma or a line's end; None where there
    is no such cell.
    """
    while place < len(text):
        cell = CELL.match(text, place)
        end = cell.end() if cell else place
        if cell and cell["open"] and not cell["shut"]:
            return Wrong(place, None)
        if cell and cell["open"] and text[end : end + 1] not in ("", ",", "\r", "\n"):
            return Wrong(place, end)
        place = end + 1
    return None


def told(text: str, starts: Sequence[int], line: int) -> tuple[int, int, str]:
    """The line and column of the wrong quote from this line on, and what is told of it. `starts` has where each line begins."""
    found = wrong(text, starts[line - 1])
    if not found:
        return line, 1, "this is no record"
    line = bisect_right(starts, found.opens)
    if found.closes is None:
        ended = "is never closed"
    else:
        ended = f"is closed in line {bisect_right(starts, found.closes - 1)}, where more stands before the next comma"
    return line, found.opens - starts[line - 1] + 1, f"the quote that opens here {ended}; {CURE}"


def unlike(cells: int, wanted: int) -> str:
    """What is told of a record of another length than the header."""
    cure = "; put a cell that has a comma in it, such as 12,50, in quotes" if cells > wanted else ""
    return f"this record has {cells} cells and the header has {wanted}{cure}"


def over_lines(record: Sequence[str]) -> int | None:
    """The number of the first cell of a record that goes over lines, or None."""
    return next((number for number, cell in enumerate(record) if "\n" in cell or "\r" in cell), None)
