"""Tables as they lie in files, or in parts of files, read in blocks of whole lines, so that little of them is held."""

from __future__ import annotations

import os
import re
from collections.abc import Iterator
from functools import cached_property
from io import BufferedReader
from pathlib import Path
from typing import BinaryIO, TypeAlias

from ..finding import MARK
from . import by_lines
from .reading import records

# How much of a file is read at a time, where its header is looked for, and of how many lines numbers are held at a time.
BLOCK, BEGIN, HELD = 2**18, 2**16, 2**18
VIEW = re.compile(rb"\nview ([A-Za-z_][A-Za-z0-9_]{0,63})\n")
LONGEST = 80
# A file that is open for reading bytes.
Opened: TypeAlias = BinaryIO | BufferedReader


class Stored:
    """A table in a file that stays open, from one place to another."""

    def __init__(self, file: Opened, start: int, end: int) -> None:
        self.file, self.start, self.end = file, start, end

    @classmethod
    def of(cls, path: Path) -> Stored:
        """The table in a file."""
        file = path.open("rb")
        return cls(file, 0, os.fstat(file.fileno()).st_size)

    def part(self, start: int, size: int) -> bytes:
        """So many bytes of it from a place of the file on, or fewer at its end."""
        return os.pread(self.file.fileno(), max(min(size, self.end - start), 0), start)

    def read(self) -> bytes:
        return self.part(self.start, self.end - self.start)

    def begin(self) -> bytes:
        """What it begins with, which has its header."""
        return self.part(self.start, BEGIN)

    def blocks(self) -> Iterator[bytes]:
        """All of it, in blocks of whole lines."""
        at, rest = self.start, b""
        while block := self.part(at, BLOCK):
            at, rest = at + len(block), rest + block
            end = rest.rfind(b"\n") + 1
            if end:
                yield rest[:end]
                rest = rest[end:]
        if rest:
            yield rest

    @cached_property
    def is_counted(self) -> bool:
        return self.begin().removeprefix(MARK).startswith((b"#,", b"#\n", b"#\r"))

    def lines(self) -> Iterator[list[bytes]]:
        """The rows of a table whose records are lines, block by block, each behind its count."""
        is_header = True
        for block in self.blocks():
            found = (block.replace(b"\r\n", b"\n") if b"\r" in block else block).split(b"\n")
            rows = list(filter(None, found[1:] if is_header else found))
            yield rows if self.is_counted else [b"1," + row for row in rows]
            is_header = False

    @cached_property
    def is_in_lines(self) -> bool:
        """Whether each record is a line, the header the first one."""
        is_first = not self.begin().removeprefix(MARK).startswith((b"\r", b"\n", b'"'))
        return is_first and all(by_lines.has_whole_lines(block) and not (b"\r" in block and by_lines.RETURN.search(block)) for block in self.blocks())

    @cached_property
    def count(self) -> int:
        """How many lines it has."""
        return sum(block.count(b"\n") for block in self.blocks())

    @cached_property
    def rows(self) -> int:
        """How many rows it has, each as often as it counts."""
        if not self.is_in_lines:
            return sum(int(line.partition(b",")[0]) for line in records(self.read()) if line)
        return sum(len(lines) + by_lines.beyond_one(b"\n" + b"\n".join(lines)) for lines in self.lines())


def of_one(table: Stored, other: Stored) -> list[bytes] | None:
    """The rows of one of two tables of lines that the other has not, or None where that has a row twice. Of its rows numbers are held, which
    two could share, so many at a time.
    """
    parts = 1 + other.count // HELD
    found: list[bytes] = []
    for part in range(parts):
        numbers = numbers_of(other, part, parts)
        if numbers is None:
            return None
        for lines in table.lines():
            found += [line for line in lines if hash(line) % parts == part and hash(line) not in numbers]
    return found


def numbers_of(table: Stored, part: int, parts: int) -> set[int] | None:
    """The numbers of a part of a table's rows, or None where one stands twice."""
    found: set[int] = set()
    count = 0
    for lines in table.lines():
        numbers = [number for number in map(hash, lines) if number % parts == part]
        found.update(numbers)
        count += len(numbers)
    return found if len(found) == count else None


def in_answer(file: Opened, names: list[str]) -> dict[str, Stored] | None:
    """The tables of these views in what a night printed, or None where other lines than their headings read as headings."""
    size, at = os.fstat(file.fileno()).st_size, 0
    found: list[tuple[str, int, int]] = []
    while at < size:
        block = os.pread(file.fileno(), BLOCK + LONGEST, at)
        found += [(each[1].decode(), at + each.start() + 1, at + each.end()) for each in VIEW.finditer(block) if each.start() < BLOCK]
        at += BLOCK
    if [name for name, _, _ in found] != names:
        return None
    ends = [*(start for _, start, _ in found[1:]), size]
    return {name: Stored(file, start, end) for (name, _, start), end in zip(found, ends)}
