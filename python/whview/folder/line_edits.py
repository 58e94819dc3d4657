"""How a table's file differs from the one before it, line by line: rows that left, rows that came in the place of others, and rows behind all.

Nothing is kept of either file but some blocks, and what stands alike in both is compared as bytes. What is found makes the one file of the
other, whatever was done to it; where little was done, little is found.
"""

from __future__ import annotations

import os
from collections.abc import Iterator
from itertools import chain
from typing import NamedTuple

# How much of a file is looked at a time, and the least that is read.
BLOCK = 2**18


class Edit(NamedTuple):
    """A line that stood in the file before, by its number from 1, and the line that stands there instead; 0 is the number of what stands behind
    all lines. Where a line only left, or only came, the other one is empty.
    """

    number: int
    old: bytes
    new: bytes


class Place:
    """A place in an open file of lines, at which a line begins."""

    def __init__(self, handle: int, at: int) -> None:
        self.handle, self.at = handle, at

    def block(self) -> bytes:
        """Whole lines from here on, each with its line feed; nothing at the end."""
        found = os.pread(self.handle, BLOCK, self.at)
        while found and b"\n" not in found and (more := os.pread(self.handle, BLOCK, self.at + len(found))):
            found += more
        return found[: found.rfind(b"\n") + 1] or found + b"\n" * bool(found)


def alike(one: bytes, other: bytes) -> int:
    """How many bytes of two texts are the same from their beginning on, up to the end of a line."""
    least, most = 0, min(len(one), len(other))
    if one[:most] == other[:most]:
        return most
    while least < most:
        middle = (least + most + 1) // 2
        least, most = (middle, most) if one[least:middle] == other[least:middle] else (least, middle - 1)
    return one.rfind(b"\n", 0, least) + 1


def differing(number: int, one: bytes, other: bytes) -> list[Edit]:
    """How lines differ of which the first ones do: one has the place of the other, some are gone, or all of what is left is."""
    if not one:
        return [Edit(0, b"", line) for line in other.splitlines(keepends=True)]
    if not other:
        return [Edit(at, line, b"") for at, line in enumerate(one.splitlines(keepends=True), number)]
    line = other[: other.index(b"\n") + 1]
    again = one.find(b"\n" + line) + 1
    if again:
        return [Edit(at, gone, b"") for at, gone in enumerate(one[:again].splitlines(keepends=True), number)]
    return [Edit(number, one[: one.index(b"\n") + 1], line)]


def steps(old: Place, new: Place) -> Iterator[list[Edit]]:
    """The edits from a line of one file and of the other on, some at a time; none where lines are the same."""
    passed = 0
    while True:
        one, other = old.block(), new.block()
        if not one and not other:
            return
        same = alike(one, other)
        found = [] if same else differing(passed + 1, one, other)
        passed += one.count(b"\n", 0, same) + sum(1 for edit in found if edit.old)
        old.at += same + sum(len(edit.old) for edit in found)
        new.at += same + sum(len(edit.new) for edit in found)
        yield found


def edits(old: Place, new: Place) -> Iterator[Edit]:
    """What makes the lines of the one file those of the other, in their order."""
    return chain.from_iterable(steps(old, new))
