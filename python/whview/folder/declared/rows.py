"""Files of CSV as somebody has them, turned into what mirrors keep: SQLite computes the columns of these of each row."""

from __future__ import annotations

import csv
import sqlite3
from collections.abc import Iterable, Iterator, Sequence
from contextlib import closing
from itertools import islice
from pathlib import Path
from typing import TYPE_CHECKING, TextIO

from ...finding import Failure
from ...status import BAD_INPUT
from .cells import Unlike, Value, value_of
from .said import SaidTable

if TYPE_CHECKING:
    from _csv import _reader as Reader

# So many rows are computed at a time, and so many faults are told of a file.
AT_A_TIME, MOST_FAULTS = 10_000, 20
COUNT = "#"
AFFINITIES = {"integer": "INTEGER", "boolean": "INTEGER", "numeric": "REAL"}


def quoted(name: str) -> str:
    """A name as SQL has it."""
    return '"' + name.replace('"', '""') + '"'


class Turning:
    """Turns the rows of a table into those of its mirror."""

    def __init__(self, table: SaidTable, told: str) -> None:
        self.table, self.told, self.faults = table, told, list[str]()
        self.database = sqlite3.connect(":memory:", isolation_level=None)
        columns = ", ".join(f"{quoted(each.name)} {AFFINITIES.get(each.kind, 'TEXT')}" for each in table.columns)
        self.database.execute(f"CREATE TABLE {quoted(table.name)} ({columns})")
        self.insert = f"INSERT INTO {quoted(table.name)} VALUES ({', '.join('?' * len(table.columns))})"
        self.select = f"SELECT {', '.join(each.text for each in table.expressions)} FROM {quoted(table.name)} AS r ORDER BY r.rowid"

    def fault(self, line: int, text: str) -> None:
        """Notes what is wrong in a line."""
        self.faults.append(f"{self.told}:{line}:1: {text}")
        if len(self.faults) == MOST_FAULTS:
            raise Failure(BAD_INPUT, *self.faults)

    def places(self, header: Sequence[str]) -> list[int]:
        """Where each column stands in a record."""
        names = [name for name in header if name != COUNT or name != header[0]]
        wanted = [each.name for each in self.table.columns]
        if sorted(names) != sorted(wanted):
            raise Failure(BAD_INPUT, f"{self.told}:1:1: the header is {','.join(header)}, and the columns of {self.table.name} are {','.join(wanted)}")
        return [list(header).index(name) for name in wanted]

    def values(self, record: Sequence[str], places: Sequence[int], line: int) -> list[Value]:
        """The values of a record."""
        found: list[Value] = []
        for column, place in zip(self.table.columns, places):
            try:
                found.append(value_of(record[place], column, self.table.null))
            except Unlike as unlike:
                self.fault(line, f"{column.name} is {record[place][:60]!r}, and {unlike}")
                found.append(None)
        return found

    def records(self, reader: Reader, width: int) -> Iterator[tuple[int, list[str]]]:
        """The records of a file, each with the line where it ends."""
        try:
            for found in reader:
                record = found or [""]
                if len(record) != width:
                    self.fault(reader.line_num, f"this record has {len(record)} cells and the header has {width}")
                else:
                    yield reader.line_num, record
        except (csv.Error, UnicodeDecodeError) as error:
            raise Failure(BAD_INPUT, *self.faults, f"{self.told}: {error}") from None

    def kept(self, rows: Sequence[list[Value]], lines: Sequence[int]) -> Iterator[tuple[Value, ...]]:
        """What the mirror keeps of rows."""
        self.database.execute("BEGIN")
        self.database.executemany(self.insert, rows)
        for line, found in zip(lines, self.database.execute(self.select).fetchall()):
            for value, column in zip(found, self.table.expressions):
                if not isinstance(value, int if column.kind == "int" else str):
                    self.fault(line, f"{column.text} is {value!r} here, which is not kept: its numbers leave 64 bits")
            yield found
        self.database.execute("ROLLBACK")

    def turned(self, file: TextIO) -> Iterator[list[str]]:
        """The records of the mirror's file, its header first; the counts of changes stay before them."""
        reader = csv.reader(file, strict=True)
        try:
            header = next(reader, None)
        except (csv.Error, UnicodeDecodeError) as error:
            raise Failure(BAD_INPUT, f"{self.told}:1:1: {error}") from None
        if not header:
            raise Failure(BAD_INPUT, f"{self.told}:1:1: this table has no header")
        header[0] = header[0].removeprefix("\ufeff")
        places, is_counted = self.places(header), header[0] == COUNT
        yield [*([COUNT] if is_counted else []), *(each.name for each in self.table.expressions)]
        records = self.records(reader, len(header))
        while batch := list(islice(records, AT_A_TIME)):
            rows = [self.values(record, places, line) for line, record in batch]
            if not self.faults:
                for (_, record), found in zip(batch, self.kept(rows, [line for line, _ in batch])):
                    yield [*(record[:1] if is_counted else []), *map(str, found)]
        if self.faults:
            raise Failure(BAD_INPUT, *self.faults)


def turn(source: Path, table: SaidTable, told: str, to: Path) -> None:
    """Writes the mirror's file of a table's file, whole or not at all."""
    turning, part = Turning(table, told), to.with_name(f".{to.name}.new")
    with closing(turning.database):
        try:
            with open(source, newline="", encoding="utf-8") as file, open(part, "w", newline="", encoding="utf-8") as out:
                csv.writer(out, lineterminator="\n").writerows(turning.turned(file))
            part.replace(to)
        finally:
            part.unlink(missing_ok=True)


def write(to: Path, header: Sequence[str], rows: Iterable[Sequence[str]]) -> None:
    """Writes a file of CSV."""
    with open(to, "w", newline="", encoding="utf-8") as out:
        writer = csv.writer(out, lineterminator="\n")
        writer.writerow(header)
        writer.writerows(rows)
