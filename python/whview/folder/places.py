"""The rows of a version's tables as a program keeps them that stays: each behind its place, a number by which rows stand as in their file.

A row that comes in the place of another has this one's; what comes at the end has a higher place than any before; and the place of a row
that left stays empty. So a row's number in the file leads to its place, and a night moves nothing but the rows that it changes.
"""

from __future__ import annotations

import os
from bisect import bisect_left
from collections.abc import Collection, Iterator, Sequence
from heapq import merge
from io import BufferedReader
from typing import NamedTuple

from ..catalogue.formulas import MOST_COLUMNS
from ..catalogue.views import Kind
from .blocks import is_in_lines, opened
from .line_edits import Edit, Place, edits
from .reading import Columns, Table

# How many tables a program has, and how many columns one has, its places among them.
MOST_TABLES = 64
# How many places of a table may be empty, or as many as it has rows.
MOST_EMPTY = 100_000


class Unkept(Exception):
    """A table, or a change of it, is none that is kept by places, and why."""


class Places:
    """The places of so many records, of which those that are empty are known, rising; and how often all records count together."""

    def __init__(self, count: int, empty: Sequence[int] = (), total: int = 0) -> None:
        self.count, self.empty, self.total = count, empty, total
        # How many rows stand before each empty place.
        self.before = [place - 1 - number for number, place in enumerate(empty)]

    @property
    def last(self) -> int:
        """The highest place that a row ever had."""
        return self.count + len(self.empty)

    def of(self, number: int) -> int:
        """The place of a row by its number in the table, from 1; 0 is before all rows."""
        return number + bisect_left(self.before, number)

    def behind(self, first: int, count: int) -> list[int]:
        """The places of so many records behind the first ones."""
        start, last = self.of(first + 1), self.of(first + count)
        if last - start == count - 1:
            return list(range(start, last + 1))
        return [self.of(number) for number in range(first + 1, first + count + 1)]


def counted_row(line: bytes, is_counted: bool) -> tuple[int, bytes]:
    """How often a line of a table counts, and its cells."""
    content = line.removesuffix(b"\n")
    if not content.strip(b"\r") or not is_in_lines(line):
        raise Unkept("a record that is no line")
    if not is_counted:
        return 1, content
    times, _, cells = content.partition(b",")
    return count_of(times), cells


def count_of(cell: bytes) -> int:
    """The count that a cell is."""
    try:
        return int(cell)
    except ValueError:
        raise Unkept("a record without a count") from None


def numbered(lines: Sequence[bytes], first: int, is_counted: bool) -> tuple[int, bytes]:
    """Lines of a table with their places, from a first one on, behind how often they count together."""
    if not is_counted:
        return len(lines), b"".join([b"%d,%s\n" % row for row in enumerate(lines, first)])
    parted = [line.partition(b",") for line in lines]
    total = sum([count_of(times) for times, _, _ in parted])
    return total, b"".join([b"%s,%d,%s\n" % (times, place, cells) for place, (times, _, cells) in enumerate(parted, first)])


class Change(NamedTuple):
    """The changes of a table as a night is given them, line by line, and the places of its rows after it."""

    rows: list[bytes]
    places: Places


class KeptTable:
    """A table that a program keeps: the name that it has there, its file, which stays open, and the places of its rows. Names are the
    program's own: those of a folder need not be such as it takes.
    """

    def __init__(self, name: str, table: Table, places: Places) -> None:
        self.name, self.columns, self.start, self.places = name, table.columns, table.place_before(0).at, places
        self.file: BufferedReader = opened(table.path)
        # By what the file is known, and how it looked as it was opened.
        found = os.fstat(self.file.fileno())
        self.inode, self.look = (found.st_dev, found.st_ino), (found.st_size, found.st_mtime_ns)

    def is_same(self, other: KeptTable) -> bool:
        """Whether another table is in the same file, which nobody may have changed since."""
        if self.inode == other.inode and self.look != other.look:
            raise Unkept("a file that somebody changed")
        return self.inode == other.inode

    @property
    def header(self) -> list[str]:
        """The columns as the program has them, the place first."""
        return ["place", *(f"c{number}" for number, _ in enumerate(self.columns.names))]

    def declared(self) -> str:
        """The table as a catalogue of the program has it."""
        kinds = [Kind.INT, *self.columns.kinds]
        columns = ", ".join(f'"{name}:{kind.value}"' for name, kind in zip(self.header, kinds))
        return f'[[view]]\nname = "{self.name}"\ncolumns = [{columns}]\n'

    def lines(self) -> Iterator[bytes]:
        """The table as data of an opening, in pieces; its rows are counted."""
        yield ",".join(["#"] * self.columns.counted + self.header).encode() + b"\n"
        place, rows, total = Place(self.file.fileno(), self.start), 0, 0
        while block := place.block():
            if not is_in_lines(block):
                raise Unkept("records that are no lines")
            place.at += len(block)
            lines = block.split(b"\n")[:-1]
            count, piece = numbered(lines, rows + 1, self.columns.counted)
            yield piece
            rows, total = rows + len(lines), total + count
        self.places = Places(rows, (), total)

    def change_to(self, other: KeptTable, most: int) -> Change:
        """What makes this table the other one, of so many edits at most."""
        old, new = Place(self.file.fileno(), self.start), Place(other.file.fileno(), other.start)
        made = Changing(self.places, self.columns.counted)
        for number, edit in enumerate(edits(old, new)):
            if number == most:
                raise Unkept(f"more than {most:,} rows that changed")
            made.take(edit)
        return made.done()

    def close(self) -> None:
        """Lets the file go."""
        self.file.close()


class Changing:
    """The change of a table that is put together edit by edit."""

    def __init__(self, places: Places, is_counted: bool) -> None:
        self.places, self.is_counted, self.next, self.total = places, is_counted, places.last + 1, places.total
        self.rows: list[bytes] = []
        self.left: list[int] = []

    def take(self, edit: Edit) -> None:
        """Takes one more edit."""
        place = self.places.of(edit.number) if edit.number else self.next
        self.next += not edit.number
        if edit.old:
            self.put(edit.old, place, -1)
        if edit.new:
            self.put(edit.new, place, 1)
        else:
            self.left.append(place)

    def put(self, line: bytes, place: int, sign: int) -> None:
        """Puts a row that comes, or one that leaves."""
        times, cells = counted_row(line, self.is_counted)
        self.total += sign * times
        self.rows.append(b"%d,%d,%s\n" % (sign * times, place, cells))

    def done(self) -> Change:
        """The whole change."""
        empty = list(merge(self.places.empty, self.left))
        count = self.next - 1 - len(empty)
        if len(empty) > max(MOST_EMPTY, count):
            raise Unkept(f"more than {MOST_EMPTY:,} places that are empty")
        return Change(self.rows, Places(count, empty, self.total))


def can_be_kept(columns: Columns) -> bool:
    """Whether a program takes a table with these columns and one more."""
    return 0 < len(columns.names) < MOST_COLUMNS


def data_of(table: KeptTable) -> Iterator[bytes]:
    """The part of a table in the bundle by which a program opens."""
    yield f"@data {table.name}\n".encode()
    yield from table.lines()


def catalogue_of(tables: Collection[KeptTable]) -> bytes:
    """The parts that stand beside those of the tables: each is a base view, and a night installs them one after another."""
    views, steps = "".join(table.declared() for table in tables), "".join(f"inst {table.name}\n" for table in tables)
    return f"@catalogue\n{views}@strategy\n{steps}".encode()


def night_of(changes: Collection[tuple[KeptTable, Change]]) -> bytes:
    """A night that carries these changes out, as commands have it."""
    parts = [b"night\n"]
    for table, change in changes:
        parts.append(f"@changes {table.name}\n{','.join(['#', *table.header])}\n".encode())
        parts += change.rows
    return b"".join([*parts, b"@end\n"])
