"""The tables of a version, read row by row: all of them, those that are asked for, or a page of them."""

from __future__ import annotations

import csv
import os
from bisect import bisect_right, insort
from collections.abc import Iterator, Mapping, Sequence
from contextlib import contextmanager
from pathlib import Path
from typing import NamedTuple, TypeAlias

from ..catalogue.from_toml import Catalogue
from ..catalogue.views import Cell, Kind, Row
from ..finding import MARK, Failure, nearest
from ..status import BAD_WORDS
from .blocks import BLOCK, Block, Damaged, Fault, blocks, line_at, opened
from .blocks import records as records_from
from .inputs import TABLE, tables
from .numbers import MOST, number_of
from .versions import place, whole

# Within how many blocks behind a known place a row has to stand, to be read without a search.
NEAR = 32
# Cells are many, and a member of an enumeration is slowly found.
INT = Kind.INT
# How SQLite declares columns, and the one that says how often a row counts.
SQL_KINDS, COUNT = {Kind.INT: "INTEGER", Kind.TEXT: "TEXT"}, "#"


# A row with its count before it.
Counted: TypeAlias = tuple[int, Row]
# A row with its count, behind its number in the table, from 1.
Numbered: TypeAlias = tuple[int, Counted]
# By what a version's folder is known, since its number may come again: its device, its inode and when it last changed.
VersionKey: TypeAlias = tuple[int, int, int]


class Missing(Failure):
    """There is no view or column of a name."""


class Far(Exception):
    """A row stands so far behind what is known of a table that finding it is a search."""


class Columns(NamedTuple):
    """The columns of a table with their kinds, and whether each record begins with a count."""

    names: list[str]
    kinds: list[Kind]
    counted: bool


class Mark(NamedTuple):
    """A place of a table's file, and how many rows stand before it."""

    before: int
    at: int


def records(content: bytes) -> list[bytes]:
    """The records of a table as they are written, as bytes, behind its header. A line end inside quotes ends none."""
    if b'"' not in content:
        return content.split(b"\n")[1:]
    found: list[bytes] = []
    held = b""
    for line in content.split(b"\n"):
        held += line
        if held.count(b'"') % 2 == 0:
            found.append(held)
            held = b""
        else:
            held += b"\n"
    return found[1:]


def value_of(cell: str, kind: Kind) -> Cell:
    """A cell of a column of this kind. A table of before its column had numbers may have other texts in it."""
    if kind != INT:
        return cell
    if len(cell) < 19 and cell.isascii() and cell.isdecimal():
        return int(cell)
    value = number_of(cell)
    return cell if value is None else value


class Table:
    """A table in a file that does not change. `marks` has places of the file, each with how many rows stand before it, as far as they are
    known. A night ends each table that it writes with a line feed, and its catalogue has the columns, where they are known.
    """

    def __init__(
        self, name: str, path: Path, kinds: Mapping[str, Kind], is_of_a_night: bool = False, wanted: Sequence[str] | None = None
    ) -> None:
        self.name, self.path = name, path
        # Columns of numbers with a point, which are texts here: neither their order nor the next of a value is that of their letters.
        self.pointed: frozenset[str] = frozenset()
        # What the file goes with, where it was made to be read.
        self.home: object = None
        with opened(path) as file, self.telling():
            begin = len(MARK) if file.read(len(MARK)) == MARK else 0
            first = next(records_from(file, begin), None)
            if first is None:
                raise Fault(0, "this table has no header")
            _, start, header = first
            self.size = os.fstat(file.fileno()).st_size
            if is_of_a_night and os.pread(file.fileno(), 1, self.size - 1) != b"\n":
                raise Fault(self.size, "the last line is cut off")
        counted = header[:1] == ["#"]
        names = header[counted:]
        if wanted is not None and list(wanted) != names:
            raise Damaged(f"{path}:1:1: the header is {','.join(header)}, and the columns of {name} are {','.join(wanted)}")
        self.columns, self.marks = Columns(names, [kinds.get(column, Kind.TEXT) for column in names], counted), [Mark(0, start)]
        self.width = len(header)

    @contextmanager
    def telling(self) -> Iterator[None]:
        """Has what is wrong at a place of the file be told with its line."""
        try:
            yield
        except Fault as fault:
            raise Damaged(f"{self.path}:{line_at(self.path, fault.at)}:1: {fault.text}") from None

    @contextmanager
    def judging(self, block: Block) -> Iterator[None]:
        """Has what is wrong in a block be told with its line."""
        try:
            yield
        except (Fault, ValueError, csv.Error):
            self.judge(block)
            raise Damaged(f"{self.path}: what stands from byte {block.at:,} on is no table") from None

    def judge(self, block: Block) -> None:
        """Reads a block record by record, and tells what is wrong in it."""
        with opened(self.path) as file, self.telling():
            for start, end, record in records_from(file, block.at):
                self.row(record, start)
                if end >= block.end:
                    return

    def mark(self, before: int, at: int) -> None:
        """Notes the place of a row, where none is known nearby."""
        found = bisect_right(self.marks, (before, at))
        near = self.marks[max(found - 1, 0) : found + 1]
        if all(abs(at - other) >= BLOCK // 2 for _, other in near):
            insort(self.marks, Mark(before, at))

    def place_before(self, after: int) -> Mark:
        """The last known place before the row behind the first so many."""
        return self.marks[bisect_right(self.marks, (after, self.size)) - 1]

    def blocks(self, after: int = 0, is_near: bool = False) -> Iterator[Block]:
        """The blocks from the one with the row behind the first so many on; it may have to be nearby."""
        before, at = self.place_before(after)
        with opened(self.path) as file, self.telling():
            for number, block in enumerate(blocks(file, at, before)):
                self.mark(block.before, block.at)
                if block.before + block.count > after:
                    yield block
                elif is_near and number >= NEAR:
                    raise Far

    def rows(self, after: int = 0) -> Iterator[Numbered]:
        """The rows behind the first so many."""
        for block in self.blocks(after):
            yield from self.rows_of(block, after)

    def rows_of(self, block: Block, after: int) -> Iterator[Numbered]:
        """Those of one block."""
        with self.judging(block):
            for number, record in block.from_row(after):
                yield number, self.row(record)

    def judge_width(self, record: Sequence[str], at: int = 0) -> None:
        """Judges that a record has the header's cells."""
        if len(record) != self.width:
            raise Fault(at, f"this record has {len(record)} cells and the header has {self.width}")

    def row(self, record: list[str], at: int = 0) -> Counted:
        """A record's count and cells; a cell of numbers is one."""
        self.judge_width(record, at)
        count = self.count_of(record.pop(0), at) if self.columns.counted else 1
        return count, tuple(map(value_of, record, self.columns.kinds))

    def count_of(self, cell: str, at: int) -> int:
        """The count that a cell has."""
        count = value_of(cell, INT)
        if not isinstance(count, int) or not 0 < count < MOST:
            raise Fault(at, "this record has no count")
        return count


def catalogue_of(folder: Path, number: int) -> Catalogue:
    """The catalogue of a version: its own, or of one without that the next version's or the folder's."""
    later = [place(folder, each) for each in whole(folder) if each >= number]
    return Catalogue(next((path for path in later if (path / "catalogue.toml").is_file()), folder), lenient=True)


def others(folder: Path) -> dict[str, Path]:
    """What lies in a folder in the place of tables and is no file, by the names of their views."""
    found = [path for path in (folder.iterdir() if folder.is_dir() else ()) if not path.is_file()]
    return {match[1]: path for path in found if (match := TABLE.fullmatch(path.name)) and not path.name.startswith(".")}


def key_of(found: os.stat_result) -> VersionKey:
    """By what a version's folder is known."""
    return found.st_dev, found.st_ino, found.st_ctime_ns


class Tables:
    """The tables of a version by the names of their views, in the order of the catalogue. Each is opened when it is first asked for."""

    def __init__(self, folder: Path, number: int) -> None:
        version = place(folder, number)
        self.number, self.views = number, {view.name: view for view in catalogue_of(folder, number).views}
        # Tables that a folder began with are as somebody wrote them, also where a later version has them again; nights write reports.
        self.has_catalogue, self.is_of_a_night = ((version / name).is_file() for name in ("catalogue.toml", "report.txt"))
        found = {name: path for kind in ("data", "views") for name, path in others(version / kind).items()}
        found |= {name: source.path for kind in ("data", "views") for name, source in tables(version / kind, kind).items()}
        self.paths = {name: found[name] for name in [*self.views, *found] if name in found}
        self.opened: dict[str, Table] = {}

    def table(self, name: str) -> Table:
        """The table of a view."""
        if name not in self.paths:
            near = nearest(name, list(self.paths))
            raise Missing(BAD_WORDS, f"version {self.number} has no view {name!r}; it has {', '.join(self.paths)}{near}")
        if name not in self.opened:
            columns = self.views[name].columns if name in self.views else []
            wanted = [column.name for column in columns] if columns and self.has_catalogue else None
            self.opened[name] = Table(name, self.paths[name], dict(columns), self.is_of_a_night, wanted)
        return self.opened[name]

    def columns(self, name: str) -> Columns:
        """The columns of a view's table."""
        return self.table(name).columns

    def declared(self, name: str) -> list[str]:
        """Its columns as SQLite declares them, its count first."""
        columns = self.columns(name)
        return [f"{quoted(column)} {SQL_KINDS[kind]}" for column, kind in zip([COUNT, *columns.names], [INT, *columns.kinds])]

    def cells(self, name: str) -> Iterator[tuple[int | float | str | None, ...]]:
        """Its rows as SQLite has them, each behind its count."""
        return ((count, *cells) for _, (count, cells) in self.table(name).rows())


def quoted(name: str) -> str:
    """A name as SQL has it."""
    return '"' + name.replace('"', '""') + '"'


def version_tables(folder: Path, number: int) -> Tables:
    """The tables of a version; where its catalogue was SQL, as that declares them."""
    from .declared.said import is_taken

    if is_taken(folder):
        from .declared.shown import ShownTables

        return ShownTables(folder, number)
    return Tables(folder, number)


def whole_number(word: str, what: str, least: int, most: int) -> int:
    """A number in digits within these bounds."""
    if not (word.isascii() and word.isdecimal()) or len(word) > 19 or not least <= int(word) <= most:
        raise Failure(BAD_WORDS, f"{what} is a number from {least:,} to {most:,}, and not {word[:40]!r}")
    return int(word)
