"""`diff`: the changes from one export of a base view to the next, as a file of changes/ has them, on standard output. The next one may be
as other programs write it: with its columns in another order, parted by semicolons or tabs, its names written as `init` reads them.

Where each record of both is a line, and all have the header's cells, only the lines are read that are not as often in the one as in the
other.
"""

from __future__ import annotations

import csv
import io
import sys
from collections import Counter
from collections.abc import Iterable, Iterator
from functools import cached_property
from itertools import islice, repeat
from pathlib import Path
from typing import TYPE_CHECKING, NamedTuple, TypeAlias

from ..finding import MARK, Failure
from ..status import BAD_INPUT, BAD_WORDS, DONE, Status
from .by_lines import has_whole_lines, is_formed
from .exports import Export as FreeExport
from .exports import name_of
from .numbers import MOST, is_between
from .quotes import CURE
from .written import text_of

if TYPE_CHECKING:
    from .command import Words


# A row as its cells are written, and how often each row stands.
TextRow: TypeAlias = tuple[str, ...]


class Both(NamedTuple):
    """The rows of both exports."""

    before: Counter[TextRow]
    after: Counter[TextRow]


class Export:
    """An export with its columns, which may have `#` before them."""

    def __init__(self, path: Path) -> None:
        if not path.is_file():
            raise Failure(BAD_WORDS, f"there is no file {path}")
        self.path, content = path, path.read_bytes().removeprefix(MARK)
        self.content = content.replace(b"\r\n", b"\n") if has_whole_lines(content) else content
        no_header: list[str] = []
        _, header = next(self.records(), (1, no_header))
        self.is_counted = header[:1] == ["#"]
        self.columns, self.width = header[self.is_counted :], len(header)

    def records(self) -> Iterator[tuple[int, list[str]]]:
        """The records that are not empty, the header first, each with the line that it begins at. As for the program, a carriage return
        alone ends a line.
        """
        text, line = self.content.decode(errors="surrogateescape"), 1
        reader = csv.reader(io.StringIO(text, newline=""), strict=True)
        try:
            for record in reader:
                if record:
                    yield line, record
                line = reader.line_num + 1
        except csv.Error as error:
            raise Failure(BAD_INPUT, f"{self.path}:{line}:1: the record that begins here is not CSV: {error}; {CURE}") from None

    @cached_property
    def has_lines(self) -> bool:
        """Whether it is seen at once that each record is a line with the header's cells, and the first line the header alone."""
        start = self.content.find(b"\n") + 1
        if b"\r" in self.content[:start] or not self.content[:start].rstrip(b"\n") or not has_whole_lines(self.content):
            return False
        return is_formed(self.content, start, len(self.columns), self.is_counted)

    def drop_counts(self) -> None:
        """Leaves `#` out, where each record is a line, is no less without it, and counts once."""
        if self.is_counted and self.has_lines and self.width > 2 and self.content.count(b"\n1,") == self.content.rstrip(b"\n").count(b"\n"):
            self.content, self.is_counted, self.width = self.content.replace(b"\n1,", b"\n"), False, self.width - 1

    def lines(self) -> Counter[bytes]:
        """The lines below the header, and how often each stands."""
        return Counter(filter(None, self.content.split(b"\n")[1:]))

    def rows(self) -> Counter[TextRow]:
        """The rows, and how often each stands, record by record."""
        rows: Counter[TextRow] = Counter()
        for line, record in islice(self.records(), 1, None):
            if len(record) != self.width or (self.is_counted and not is_between(record[0], 1, MOST - 1)):
                raise Failure(BAD_INPUT, f"{self.path}:{line}:1: this record has not the header's cells, or no count")
            rows[tuple(record[self.is_counted :])] += int(record[0]) if self.is_counted else 1
        return rows

    def rows_of(self, lines: Iterable[tuple[bytes, int]]) -> Counter[TextRow]:
        """The rows of some lines, each of which stands so often."""
        rows: Counter[TextRow] = Counter()
        for line, count in lines:
            record = next(csv.reader([line.decode(errors="surrogateescape")]))
            rows[tuple(record[self.is_counted :])] += count * (int(record[0]) if self.is_counted else 1)
        return rows


def rows_apart(before: Export, after: Export) -> Both:
    """The rows of both exports, but for some that are as often in the one as in the other."""
    if before.is_counted != after.is_counted:
        before.drop_counts()
        after.drop_counts()
    if before.has_lines and after.has_lines and before.is_counted == after.is_counted:
        old, new = before.lines().items(), after.lines().items()
        return Both(before.rows_of(old - new), after.rows_of(new - old))
    return Both(before.rows(), after.rows())


def rows_by_names(before: Export, after: Export) -> Both:
    """All rows of both exports, where the other has the same columns in another order, under names that `init` would write as these are,
    or parted by another mark than commas.
    """
    export = FreeExport(after.path)
    cells = {column.name: column.cells for column in export.columns}
    names = [name_of(name, name) for name in before.columns]
    if sorted(names) != sorted(cells):
        told = f"{after.path}:1:1: the header is {','.join(after.columns)}, and it was {','.join(before.columns)}"
        raise Failure(BAD_INPUT, told)
    rows: Counter[TextRow] = Counter()
    for row, count in zip(zip(*(cells[name] for name in names)), export.counts or repeat("1")):
        rows[row] += int(count)
    return Both(before.rows(), rows)


def run(words: Words) -> Status:
    before, after = map(Export, words.folders)
    old, new = rows_apart(before, after) if before.columns == after.columns else rows_by_names(before, after)
    counts = {row: new[row] - old[row] for row in old.keys() | new.keys()}
    text = text_of([["#", *before.columns], *([str(count), *row] for row, count in sorted(counts.items()) if count)])
    sys.stdout.buffer.write(text.encode("utf-8", errors="surrogateescape"))
    return DONE
