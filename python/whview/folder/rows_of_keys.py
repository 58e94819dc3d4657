"""Rows of tables in the tool's own form, found by some of their cells. A row is here as a line has it, behind its count, and so are cells."""

import re
from collections import Counter
from collections.abc import Iterable, Iterator
from dataclasses import dataclass
from functools import cached_property
from itertools import islice
from typing import TypeAlias

from ..disk import blocks
from .by_lines import NAMED, named, row_of

CELL = rb'(?:"(?:[^"]++|"")*+"|[^,"\r\n]*+)'
# Some cells of a row; and with them the row, and how often it counts. There are as many as a table has rows, so they are plain tuples.
Key: TypeAlias = tuple[bytes, ...]
Keyed: TypeAlias = tuple[Key, bytes, int]


def cell_of(text: str) -> bytes:
    """A cell as a line has it."""
    return row_of((text,))


def line_blocks(pieces: Iterable[bytes]) -> Iterator[bytes]:
    """The rows of a table that comes in pieces, in blocks of whole lines, without its header."""
    rest, is_header = b"", True
    for block in blocks(pieces):
        rest += block
        end = rest.rfind(b"\n") + 1
        start = rest.find(b"\n") + 1 if is_header else 0
        if end:
            yield rest[start:end]
            rest, is_header = rest[end:], False
    yield rest


@dataclass(frozen=True)
class Cells:
    """Some columns of a table with so many, in the order of the table."""

    columns: tuple[int, ...]
    width: int

    def form(self, first: bytes = CELL) -> bytes:
        """What a row looks like of which these cells are told; the first of them may be of another form."""
        cells = [b"(" + (first if each == self.columns[0] else CELL) + b")" if each in self.columns else CELL for each in range(self.width)]
        return b",".join(cells)

    @cached_property
    def record(self) -> re.Pattern[bytes]:
        """A record with its count, these cells and its end."""
        return re.compile(rb"([0-9]++)," + self.form() + rb"(?:\n|\Z)")

    @cached_property
    def row(self) -> re.Pattern[bytes]:
        return re.compile(self.form())

    def of_row(self, row: bytes) -> Key:
        """These cells of a row."""
        found = self.row.fullmatch(row)
        if found is None:
            raise ValueError(f"{row!r} is no row of {self.width} cells")
        return found.groups()

    def of_block(self, block: bytes) -> list[Key]:
        """Of each record of a block its count and these cells."""
        return self.record.findall(block)

    def rows(self, block: bytes) -> Iterator[Keyed]:
        """Of each record of a block these cells, the row, and how often it counts."""
        for found in self.record.finditer(block):
            count, *cells = found.groups()
            yield tuple(cells), found[0][len(count) + 1 :].removesuffix(b"\n"), int(count)

    def having(self, table: bytes, keys: set[Key], is_in_lines: bool) -> Iterator[tuple[bytes, int]]:
        """The rows with these cells in a table, each with its count. Few are soonest looked for in lines."""
        if len(keys) > NAMED or not is_in_lines:
            start = table.find(b"\n") + 1
            yield from ((row, count) for cells, row, count in self.rows(table[start:]) if cells in keys)
            return
        firsts = b"(?:" + named({key[0] for key in keys}) + b")(?![^,\n])"
        for found in re.finditer(rb"\n([0-9]++),(?=" + self.form(firsts) + rb"(?:\n|\Z))([^\n]*)", table) if keys else ():
            count, *cells, row = found.groups()
            if tuple(cells) in keys:
                yield row, int(count)


def first_rows(rows: Iterable[bytes], most: int) -> tuple[list[bytes], int]:
    """The first ones of these rows, so many at most, and how many they are in all."""
    rows = iter(rows)
    found = list(islice(rows, most))
    return found, len(found) + sum(1 for _ in rows)


def doubled(found: Iterable[list[Key]]) -> bool:
    """Whether some cells stand twice in these blocks, each record with its count; of each record a number is kept, which two could share."""
    seen: set[int] = set()
    counts: set[bytes] = set()
    count = 0
    for block in found:
        seen.update(map(hash, block))
        counts.update(record[0] for record in block)
        count += len(block)
    return len(seen) < count or not counts <= {b"1"}


def several(found: Iterable[Iterator[Keyed]]) -> dict[Key, int]:
    """The cells that stand several times in these blocks of rows, and how often."""
    once: dict[int, int] = {}
    often: Counter[Key] = Counter()
    for rows in found:
        for cells, _, count in rows:
            known = hash(cells)
            once[known] = once.get(known, 0) + count
            if once[known] > 1:
                often[cells] = once[known]
    return often
