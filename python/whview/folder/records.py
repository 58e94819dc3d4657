"""The CSV files of a folder: their rows, and what is wrong in them, by line and column."""

from __future__ import annotations

import csv
import io
import re
from collections import Counter
from collections.abc import Iterable, Iterator, Mapping, Sequence
from functools import cached_property
from itertools import chain
from typing import TYPE_CHECKING, NamedTuple, Protocol

from ..finding import MARK, TOLD, Finding, Place, first_ones, more_of
from . import by_lines, fill, looks, quotes
from .by_lines import NOWHERE, changed, counted, has_whole_lines, is_in_lines, is_sound, places, row_of
from .numbers import NUMBER, number_of
from .packing import merged
from .written import text_of

if TYPE_CHECKING:
    from ..catalogue.from_toml import CatalogueView
    from ..catalogue.views import Cell, Column, Row
    from .aside import Sifting
    from .by_lines import Line
    from .inputs import Source
    from .piece_sums import Pieces

# What a count may be.
LEAST, MOST = -(2**63), 2**63 - 1
# How much of a cell is told that is no number.
SHOWN = 80
# What is often meant by a cell that is no number; in docs/WAREHOUSE.md are the recipes.
CURES = [
    (re.compile(r" *|NULL|null|Null|NIL|nil|None|NaN|nan|N/A|n/a|\\N|-"), "there is no NULL; see the recipe NULL in docs/WAREHOUSE.md"),
    (re.compile(r"[0-9]{1,4}([-/.])[0-9]{1,2}\1[0-9]{1,4}([ T].*)?"), "see the recipe Dates in docs/WAREHOUSE.md"),
]


class Header(NamedTuple):
    """Whether the first line of a file is the header of its view, with `#` and without; and where the records begin."""

    is_counted: bool
    is_bare: bool
    start: int


class RecordReader(Protocol):
    """What goes through the records of a text, and knows how many of its lines it has read."""

    @property
    def line_num(self) -> int: ...

    def __iter__(self) -> Iterator[list[str]]: ...

    def __next__(self) -> list[str]: ...


class Records:
    """The rows of a table or of changes, how often each stands in it, the line of each one's first record, and the findings. Where all
    is seen at once to be sound, no record is read before somebody asks for its row. A table whose records are lines can wait for the
    program, which judges it too; once that took it, it is sound. A kept table gets the columns that its view has more, where it `grows`.
    """

    def __init__(self, source: Source, view: CatalogueView, are_changes: bool, grows: bool = False) -> None:
        self.file, self.view, self.are_changes, self.is_made = source.told, view, are_changes, source.is_made
        content = source.path.read_bytes()
        grown = fill.filled(content, view) if grows else None
        self.content, self.new_columns = grown or fill.Filled(content, [])
        # The rows that were looked for last, and their lines.
        self.looked_for: set[bytes] | None = None
        self.found: dict[bytes, Line] = {}
        # As it came, also where records of it are put aside.
        self.original = self.content
        self.waits, self.is_taken, self.is_known_in_lines = False, False, source.is_in_lines and not grown
        # Numbers of the lines that it had without counts.
        self.seen: set[int] | None = None

    def copied(self, source: Source) -> Records | None:
        """These records as those of a copy, or None where that has other bytes."""
        if source.path.read_bytes() != self.content:
            return None
        self.file, self.is_made = source.told, source.is_made
        return self

    def become(self, reading: Sifting) -> None:
        """Has these records be those that a reading of them left."""
        for known in ("is_seen_sound", "has_lines", "rows", "total"):
            self.__dict__.pop(known, None)
        self.whole, self.content = reading, reading.parted().kept

    @cached_property
    def header(self) -> Header:
        start, end = len(MARK) if self.content.startswith(MARK) else 0, self.content.find(b"\n") + 1
        line = self.content[start:end].rstrip(b"\r\n")
        wanted = ",".join(name for name, _ in self.view.columns).encode()
        return Header(line == b"#," + wanted, line == wanted and not self.are_changes, end)

    def wait(self) -> bool:
        """Leaves a table to the program, where its records are seen to be lines, and nothing that the program takes is a fault in it.
        Answers whether it does.
        """
        is_counted, is_bare, start = self.header
        if not self.is_made and (is_counted or is_bare):
            is_own = b'"' in self.content and self.is_own
            self.waits = is_own or is_in_lines(self.content, start, is_counted, self.count_one)
        return self.waits

    @cached_property
    def is_own(self) -> bool:
        """Whether records that are lines are written as the tool writes them."""
        is_counted, _, start = self.header
        return by_lines.is_own(self.content, start, self.view.columns, is_counted)

    @cached_property
    def count_one(self) -> bool:
        """Whether each row of a table in lines counts 1."""
        is_counted, _, start = self.header
        return not is_counted or by_lines.counts_one(self.content, start)

    @property
    def is_sound(self) -> bool:
        """Whether all is seen at once to have no fault, or the program took it."""
        return self.is_taken or self.is_seen_sound

    @cached_property
    def is_seen_sound(self) -> bool:
        is_counted, is_bare, start = self.header
        if self.is_made and is_counted:
            return True
        return (is_counted or is_bare) and is_sound(self.content, start, self.view.columns, is_counted, self.are_changes)

    @cached_property
    def has_lines(self) -> bool:
        """Whether it is sound, as far as that was judged, and each record is a line."""
        return self.waits or self.is_sound and (self.is_known_in_lines or has_whole_lines(self.content))

    @cached_property
    def whole(self) -> Reading:
        """All of it, record by record."""
        return Reading(self)

    @property
    def findings(self) -> list[Finding]:
        return [] if self.is_sound else self.whole.findings

    @cached_property
    def rows(self) -> Counter[Row]:
        """The rows, and how often each stands."""
        if not self.is_sound:
            return self.whole.rows
        is_counted, _, start = self.header
        columns, kinds = columns_of(self.content[start:]), [kind for _, kind in self.view.columns]
        counts = map(int, next(columns, ())) if is_counted else None
        rows = rows_of(columns, kinds)
        return Counter(rows) if counts is None else added(rows, counts)

    @property
    def lines(self) -> dict[Row, int]:
        """The line of each row's first record."""
        return self.whole.lines

    @cached_property
    def total(self) -> int:
        """How many rows there are, each as often as it counts."""
        is_counted, _, start = self.header
        if not self.has_lines:
            return self.rows.total()
        if is_counted:
            return counted(self.content, self.waits and self.count_one)
        return self.content.count(b"\n", start) + (not self.content.endswith(b"\n"))

    @property
    def is_empty(self) -> bool:
        """Whether there are no rows."""
        return self.header.start == len(self.content) or (not self.has_lines and self.total == 0)

    @cached_property
    def own(self) -> bytes | None:
        """The table in the tool's own form, or None where its records are not lines, or are not written as the tool writes them: then it is
        read row by row, so that no row stands twice, as with `08` and `8`.
        """
        is_counted = self.header.is_counted
        if not self.has_lines:
            return None
        if self.is_made and is_counted:
            return self.content
        if not self.is_own:
            return None
        header = ",".join(["#", *(name for name, _ in self.view.columns)]).encode() + b"\n"
        content = by_lines.without_returns(self.content, self.waits)
        if is_counted:
            return by_lines.own_form(content, header)
        own, self.seen = by_lines.with_counts(content, header)
        return own

    def places(self, own: bytes, rows: set[bytes]) -> dict[bytes, Line]:
        """Where these rows, as lines have them, stand in the tool's own form, which is `own`. The last ones that were looked for are kept."""
        if self.looked_for != rows:
            count_one = self.seen is not None or (self.waits and self.header.is_counted and self.count_one)
            there = rows if self.seen is None else {row for row in rows if hash(row) in self.seen}
            self.looked_for, self.found = set(rows), places(own, own.find(b"\n") + 1, there, count_one)
        return self.found

    def standing(self, rows: Iterable[Row]) -> Mapping[Row, int]:
        """How often each of these rows stands, or less where that takes a closer look."""
        own = self.own
        if own is None:
            return self.rows
        lines = {row: row_of(row) for row in rows}
        found = self.places(own, set(lines.values()))
        return {row: found.get(line, NOWHERE).times for row, line in lines.items()}

    def after(self, changes: Mapping[Row, int]) -> Pieces:
        """The table with these changes of rows, in pieces. No row leaves that is not there."""
        by_line, own = {row_of(row): count for row, count in changes.items() if count}, self.own
        made = None if own is None else changed(own, self.places(own, set(by_line)) if by_line else {}, by_line)
        self.seen = None
        if made:
            # What stays has its sums where it is what the file has.
            return made if own is self.content and not self.new_columns else list(made)
        rows = Counter(self.rows)
        rows.update(changes)
        return [table_text(self.view.columns, rows)]


class Reading:
    """Records one by one: their rows, their lines, and what is wrong in them."""

    def __init__(self, records: Records) -> None:
        self.file, self.view, self.are_changes, self.content = records.file, records.view, records.are_changes, records.original
        self.rows: Counter[Row] = Counter()
        self.lines: dict[Row, int] = {}
        self.findings: list[Finding] = []
        self.begun: list[int] = []
        self.untold = 0
        if self.is_text():
            self.read(csv.reader(io.StringIO(self.text, newline=""), strict=True))

    def is_text(self) -> bool:
        """Whether all is UTF-8; where it is not, that is found."""
        content = self.content.removeprefix(MARK)
        try:
            self.text = content.decode()
        except UnicodeDecodeError as error:
            line = content[: error.start].count(b"\n") + 1
            start = content.rfind(b"\n", 0, error.start) + 1
            self.find(line, len(content[start : error.start].decode()) + 1, "this is not UTF-8")
            return False
        return True

    def find(self, line: int, column: int, text: str) -> None:
        """Keeps what is found; of what is more than is told, where it begins and how much it is."""
        if len(self.findings) < TOLD:
            self.findings.append(Finding(Place(self.file, line, column), text))
            return
        self.untold += 1
        place = Place(self.file, line, column) if self.untold == 1 else self.findings[-1].place
        self.findings[TOLD:] = [more_of(place, self.untold)]

    def read(self, reader: RecordReader) -> None:
        """Goes through the records; with a wrong header none is judged."""
        columns = [name for name, _ in self.view.columns]
        try:
            header = next((record for record in reader if record), None)
        except csv.Error:
            self.find(*quotes.told(self.text, self.starts(), 1))
            return
        counted = header is not None and header[:1] == ["#"]
        wanted = ["#", *columns] if counted or self.are_changes else columns
        if header != wanted:
            has = "it is missing" if header is None else f"this is {','.join(header)}"
            self.find(1, 1, f"{self.view.name} has the header {','.join(wanted)}; {has}{self.cure_of(header or [], columns)}")
            return
        kinds = (["int"] if counted else []) + [kind for _, kind in self.view.columns]
        line = reader.line_num + 1
        for record in self.followed(reader, line):
            if record:
                self.take(record, kinds, counted, line)
            line = reader.line_num + 1

    def cure_of(self, header: Sequence[str], columns: Sequence[str]) -> str:
        """What is often meant by another header, or what to do about it."""
        new = fill.new_columns(self.view, header[header[:1] == ["#"] :])
        if self.file.startswith("versions/"):
            anew = f"name the view anew, such as {self.view.name}_2, with a table in data/"
            rows = f"say what its rows have in the new ones, such as {fill.example(self.view, new)} below the view's columns, or " if new else ""
            return f"; a kept table has the columns of its night: {rows}{anew}"
        if len(header) == 1 and any(mark in header[0] for mark in ";\t"):
            return "; part the cells by commas"
        if self.are_changes and new and header[:1] == ["#"]:
            return f"; write {', '.join(new)} into the rows too, or carry them out by the catalogue of before first"
        if self.are_changes and list(header) == columns:
            return "; # is how many of a row come, or with - leave"
        return "; put the columns in that order" if sorted(header) == sorted(["#", *columns]) else ""

    def followed(self, reader: RecordReader, line: int) -> Iterator[list[str]]:
        """The records up to one whose quotes are wrong, which is found."""
        while True:
            try:
                record = next(reader)
            except StopIteration:
                return
            except csv.Error:
                self.find(*quotes.told(self.text, self.starts(), line))
                return
            line = reader.line_num + 1
            yield record

    def take(self, record: Sequence[str], kinds: Sequence[str], counted: bool, line: int) -> None:
        """Adds a record, or finds what is wrong with it."""
        if len(record) != len(kinds):
            self.find_length(record, len(kinds), line)
            return
        cells: list[Cell] = []
        for number, (cell, kind) in enumerate(zip(record, kinds)):
            value = self.number(cell, line, number) if kind == "int" else cell
            if value is None:
                return
            cells.append(value)
        count = int(cells.pop(0)) if counted else 1
        if count == 0 or (count < 0 and not self.are_changes):
            self.find(line, 1, f"a row counts {count} times; a count is {'not zero' if self.are_changes else 'positive'}")
        else:
            self.add(tuple(cells), count, line)

    def add(self, row: Row, count: int, line: int) -> None:
        """Adds a row."""
        total = self.rows[row] + count
        if not LEAST <= total <= MOST:
            self.find(line, 1, f"with this record the row counts {total} times, which leaves 64 bits")
            return
        self.rows[row] = total
        self.lines.setdefault(row, line)

    def find_length(self, record: Sequence[str], wanted: int, line: int) -> None:
        """A record of another length than the header; where a cell goes over lines, its quote may be what is wrong."""
        over = quotes.over_lines(record)
        if over is None:
            self.find(line, 1, quotes.unlike(len(record), wanted))
        else:
            text = f"this record has {len(record)} cells and the header has {wanted}"
            self.find(*self.place_of(line, over), f"the quote that opens here is closed in a later line, and {text}; {quotes.CURE}")

    def starts(self) -> list[int]:
        """Where each line begins; a carriage return alone ends one, as it does a record."""
        if not self.begun:
            self.begun = [0, *(found.end() for found in re.finditer("\r\n|\r|\n", self.text))]
        return self.begun

    def number(self, cell: str, line: int, number: int) -> int | None:
        """A cell's whole number, or None where it has none."""
        value = number_of(cell)
        if value is not None:
            return value
        cause = "does not fit into 64 bits" if NUMBER.fullmatch(cell) else "is not a whole number"
        cure = looks.cure(cell) or next((text for form, text in CURES if form.fullmatch(cell)), "")
        self.find(*self.place_of(line, number), f'"{cell[:SHOWN]}" {cause}{f" ({cure})" * bool(cure)}')
        return None

    def place_of(self, line: int, number: int) -> tuple[int, int]:
        """The line and column of the cell with this number in the record that begins at this line."""
        column, inside = 1, False
        for at in range(self.starts()[line - 1], len(self.text)):
            letter = self.text[at]
            if number == 0:
                break
            inside ^= letter == '"'
            column += 1
            if letter == "\n":
                line, column = line + 1, 1
            elif letter == "," and not inside:
                number -= 1
        return line, column


class Changes:
    """The changes of a base view: those of one file or several, whose rows add up."""

    def __init__(self, sources: Iterable[Source], view: CatalogueView) -> None:
        self.view, self.files = view, [Records(source, view, True) for source in sources]

    @cached_property
    def rows(self) -> Counter[Row]:
        found: Counter[Row] = Counter()
        for records in self.files:
            found.update(records.rows)
        return found

    def renew(self) -> None:
        """Forgets what was told of the files, which are others now."""
        for known in ("rows", "findings"):
            self.__dict__.pop(known, None)

    @cached_property
    def findings(self) -> list[Finding]:
        return [finding for records in self.files for finding in records.findings] or self.beyond()

    def beyond(self) -> list[Finding]:
        """Rows whose counts leave 64 bits together, where those of each file do not."""
        rows = [row for row, count in self.rows.items() if not LEAST <= count <= MOST]
        return first_ones(self.too_often(row) for row in rows) if len(self.files) > 1 else []

    def too_often(self, row: Row) -> tuple[Place, str]:
        """Where such a row stands last, and what is told of it."""
        of = [(records, records.lines[row], records.rows[row]) for records in self.files if row in records.rows]
        told = ", ".join(f"{count} at {records.file}:{line}:1" for records, line, count in of)
        text = f"the row {shown(row)} would change {self.rows[row]} times, which leaves 64 bits: {told}; put less of it into one night"
        return Place(of[-1][0].file, of[-1][1]), text

    @property
    def content(self) -> bytes:
        """What a bundle has of them, where they have no fault."""
        return merged([records.content for records in self.files])

    def place(self, row: Row) -> Place:
        """Where a row stands first."""
        return next(Place(records.file, records.lines[row]) for records in self.files if row in records.lines)


def columns_of(content: bytes) -> Iterator[tuple[str, ...]]:
    """The columns of records without a fault."""
    return zip(*filter(None, csv.reader(io.StringIO(content.decode(), newline=""))))


def rows_of(columns: Iterable[tuple[str, ...]], kinds: Iterable[str]) -> Iterator[Row]:
    """The rows that have these columns, whose cells are of these kinds."""
    return zip(*(map(int, cells) if kind == "int" else cells for cells, kind in zip(columns, kinds)))


def added(rows: Iterable[Row], counts: Iterable[int]) -> Counter[Row]:
    """The rows with their counts, which add up where a row stands twice."""
    found: Counter[Row] = Counter()
    for row, count in zip(rows, counts):
        found[row] += count
    return found


def shown(row: Row) -> str:
    """A row as a CSV file has it, without a line's end."""
    return row_of(row).decode()


def table_text(columns: Iterable[Column], rows: Mapping[Row, int]) -> bytes:
    """A table with `#`, its rows in the order that they have."""
    records = ((count, *row) for row, count in rows.items() if count)
    return text_of(chain([("#", *(name for name, _ in columns))], records)).encode()


def wanting(data: Records, changes: Changes) -> dict[Row, str]:
    """The rows of changes of which more leave than there are, and what is told of each."""
    leaving = {row: count for row, count in changes.rows.items() if count < 0}
    there: Mapping[Row, int] = data.standing([row for row, count in changes.rows.items() if count]) if leaving else {}
    if any(there[row] + count < 0 for row, count in leaving.items()):
        there = data.rows
    return {row: f"{-count} of {shown(row)} leave, and {data.file} has {there[row]}" for row, count in leaving.items() if there[row] + count < 0}


def absent(data: Records, changes: Changes) -> list[Finding]:
    """A finding for each such row."""
    return first_ones((changes.place(row), text) for row, text in wanting(data, changes).items())
