"""CSV files as other programs write them, read as base tables: their names, columns, kinds and rows."""

from __future__ import annotations

import codecs
import csv
import io
import re
from collections.abc import Collection, Iterable, Iterator
from functools import cached_property
from pathlib import Path

from ..catalogue.formulas import MOST_COLUMNS, NAME
from ..catalogue.views import Kind
from ..finding import MARK, Failure
from ..status import BAD_INPUT
from .looks import WHOLE
from .looks import told as looks_of
from .numbers import MOST, is_between
from .quotes import CURE, unlike
from .written import text_of

DAY = re.compile(r"(19|20)[0-9]{2}(0[1-9]|1[0-2])(0[1-9]|[12][0-9]|3[01])")
DELIMITERS, FIRST_LINE = ",;\t|", re.compile("[\r\n]*([^\r\n]*)")
# What a text of 16 bits a letter begins with.
MARKS_16 = (codecs.BOM_UTF16_LE, codecs.BOM_UTF16_BE)


def name_of(text: str, usual: str) -> str:
    """A text as the name of a view or of a column."""
    name = re.sub(r"[^A-Za-z0-9_]+", "_", text.strip()).strip("_").lower()
    if name[:1].isdigit():
        name = f"_{name}"
    return name[:64] if NAME.fullmatch(name[:64]) else usual


def free(name: str, taken: Collection[str]) -> str:
    """A name that is not taken: this one, or with the first number behind it that makes it one."""
    others = (f"{name[:60]}_{number}" for number in range(2, len(taken) + 3))
    return next(each for each in (name, *others) if each not in taken)


def own_names(texts: Iterable[str]) -> list[str]:
    """The columns' names, each once."""
    found: list[str] = []
    for number, text in enumerate(texts, 1):
        found.append(free(name_of(text, f"column_{number}"), found))
    return found


class Column:
    """A column of an export: its name, its cells, and what these are."""

    def __init__(self, name: str, cells: tuple[str, ...]) -> None:
        self.name, self.cells = name, cells

    @cached_property
    def values(self) -> set[str]:
        return set(self.cells)

    @cached_property
    def kind(self) -> Kind:
        """Numbers where each cell is one and there is one at all."""
        is_number = self.values and all(WHOLE.fullmatch(cell) and -MOST <= int(cell) < MOST for cell in self.values)
        return Kind.INT if is_number else Kind.TEXT

    @cached_property
    def is_key(self) -> bool:
        """Whether no two rows have the same value, and none is empty."""
        return len(self.values) == len(self.cells) > 0 and "" not in self.values

    @cached_property
    def is_date(self) -> bool:
        """Whether each number is a date, written as yyyymmdd."""
        return self.kind == Kind.INT and all(DAY.fullmatch(cell) for cell in self.values)

    @property
    def written(self) -> str:
        return f'"{self.name}"' if self.kind == Kind.INT else f'"{self.name}:text"'

    @cached_property
    def note(self) -> str:
        """What a reader of the catalogue should know of a text that looks like a number or a date, or has empty cells."""
        filled = self.values - {""}
        if self.kind == Kind.INT or not filled:
            return ""
        looks, gaps = looks_of(filled), "" in self.values
        if looks:
            return f"{self.name} {looks}" + "; into its empty cells put a number that nothing else has" * gaps
        if gaps and all(map(WHOLE.fullmatch, filled)):
            return f"{self.name} has empty cells, so it is a text; put a number that nothing else has into them to have numbers"
        return f"{self.name} has empty cells, which are a text like others, equal to each other; where can leave them out" if gaps else ""


def delimiter_of(text: str) -> str:
    """The delimiter that the header of a text has most."""
    header = FIRST_LINE.match(text)
    return max(DELIMITERS, key=(header[1] if header else "").count)


class Export:
    """A CSV file: the name of its view, its columns, and how often each row counts where that is told."""

    def __init__(self, path: Path) -> None:
        self.path, self.name = path, name_of(path.name.removesuffix(".csv").removesuffix(".CSV"), "table")
        text = self.read_text()
        self.reader = csv.reader(io.StringIO(text, newline=""), delimiter=delimiter_of(text), strict=True)
        records = filter(None, self.records())
        header = next(records, None)
        if header is None:
            raise Failure(BAD_INPUT, f"{path}:1:1: this file is empty; a table has a header at least")
        self.is_counted, width = header[:1] == ["#"], len(header)
        rows = list(self.judged(records, width))
        if width - self.is_counted > MOST_COLUMNS or width == self.is_counted:
            raise Failure(BAD_INPUT, f"{path}:1:1: this file has {width - self.is_counted} columns; a view has 1 to {MOST_COLUMNS}")
        columns: list[tuple[str, ...]] = list(zip(*rows)) or [()] * width
        self.counts: tuple[str, ...] = self.judged_counts(columns.pop(0)) if self.is_counted else ()
        self.columns = [Column(name, cells) for name, cells in zip(own_names(header[self.is_counted :]), columns)]

    def read_text(self) -> str:
        """The text of the file."""
        try:
            return self.path.read_bytes().removeprefix(MARK).decode()
        except UnicodeDecodeError as error:
            content = self.path.read_bytes()
            line, other = content[: error.start].count(b"\n") + 1, "UTF-16" if content.startswith(MARKS_16) else "LATIN1"
            raise Failure(BAD_INPUT, f"{self.path}:{line}:1: this line is not UTF-8; iconv -f {other} -t UTF-8 may make it so") from None

    def records(self) -> Iterator[list[str]]:
        """The records; one whose quote is not closed or stands within a cell is told with the line that it begins at."""
        line = 1
        try:
            for record in self.reader:
                line = self.reader.line_num + 1
                yield record
        except csv.Error as error:
            raise Failure(BAD_INPUT, f"{self.path}:{line}:1: the record that begins here is not CSV: {error}; {CURE}") from None

    def judged(self, records: Iterable[list[str]], width: int) -> Iterator[list[str]]:
        """The records, each of which has so many cells; of another one the line is told that it begins at."""
        line = self.reader.line_num + 1
        for record in records:
            if len(record) != width:
                raise Failure(BAD_INPUT, f"{self.path}:{line}:1: {unlike(len(record), width)}")
            yield record
            line = self.reader.line_num + 1

    def judged_counts(self, cells: tuple[str, ...]) -> tuple[str, ...]:
        """The cells of the column of counts, each of which is one."""
        for cell in cells:
            if not is_between(cell, 1, MOST - 1):
                raise Failure(BAD_INPUT, f"{self.path}:1:1: the column # has counts, which are positive, and {cell[:40]!r} is none")
        return cells

    @property
    def rows(self) -> int:
        """How many rows there are."""
        return len(self.columns[0].cells)

    def column(self, name: str) -> Column:
        """The column of this name, which there is."""
        return next(column for column in self.columns if column.name == name)

    @property
    def text(self) -> str:
        """The table as a folder has it."""
        columns = [column.cells for column in self.columns]
        header = ["#"] * self.is_counted + [column.name for column in self.columns]
        given = [self.counts, *columns] if self.is_counted else columns
        return text_of([header, *zip(*given)])
