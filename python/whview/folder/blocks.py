"""A table's file, block by block: each has whole records. Where it is seen that each line is a record, lines are split, counted and searched
as bytes; otherwise a block is read record by record.
"""

from __future__ import annotations

import csv
import os
import re
import stat
from collections.abc import Iterator
from dataclasses import dataclass
from io import BufferedReader
from pathlib import Path
from typing import TypeAlias

from ..finding import Failure
from ..status import BAD_INPUT
from .by_lines import QUOTES, is_all

# How much of a file is looked at a time.
BLOCK = 2**15
RETURN = re.compile(rb"\r(?!\n)")
BLANK_FIRST, BLANK, BLANK_RETURN = (b"\n", b"\r\n"), b"\n\n", b"\n\r\n"
KINDS = {stat.S_ISFIFO: "a FIFO", stat.S_ISDIR: "a folder", stat.S_ISSOCK: "a socket", stat.S_ISCHR: "a device", stat.S_ISBLK: "a device"}


class Damaged(Failure):
    """A file of a version is not as it was made."""

    def __init__(self, text: str) -> None:
        super().__init__(BAD_INPUT, text)


class Fault(Exception):
    """What is wrong at a place of a file, counted in bytes."""

    def __init__(self, at: int, text: str) -> None:
        super().__init__(at, text)
        self.at, self.text = at, text


def kind_of(mode: int) -> str:
    """What something is that is no file."""
    return next((kind for is_it, kind in KINDS.items() if is_it(mode)), "no file")


def opened(path: Path, flags: int = 0) -> BufferedReader:
    """A file that is read. Nothing else is waited for, such as who writes to a FIFO."""
    handle = os.open(path, os.O_RDONLY | os.O_NONBLOCK | os.O_CLOEXEC | flags)
    mode = os.fstat(handle).st_mode
    if stat.S_ISREG(mode):
        return open(handle, "rb")
    os.close(handle)
    raise Damaged(f"{path} is {kind_of(mode)}, and no table can be read there")


def line_at(path: Path, at: int) -> int:
    """The line that a place of a file is in; a carriage return alone ends one too."""
    with opened(path) as file:
        content = file.read(at)
    return content.count(b"\n") + len(RETURN.findall(content)) + 1


# ---- records


def decoded(content: bytes, at: int) -> str:
    """The text of bytes that stand at this place."""
    try:
        return content.decode()
    except UnicodeDecodeError as error:
        raise Fault(at + error.start, "this is not UTF-8") from None


class Lines:
    """The lines of an open file as text from a place on, which goes with them."""

    def __init__(self, file: BufferedReader, at: int) -> None:
        file.seek(at)
        self.file, self.at = file, at

    def __iter__(self) -> Iterator[str]:
        for line in self.file:
            yield from self.pieces(line)

    def pieces(self, line: bytes) -> Iterator[str]:
        """A line, in pieces where carriage returns end some."""
        for piece in (line,) if b"\r" not in line[:-2] else line.splitlines(keepends=True):
            text = decoded(piece, self.at)
            self.at += len(piece)
            yield text


def records(file: BufferedReader, at: int) -> Iterator[tuple[int, int, list[str]]]:
    """The records from a place on, each with where it begins and where the next one does."""
    lines = Lines(file, at)
    reader = csv.reader(iter(lines), strict=True)
    while True:
        start = lines.at
        try:
            record = next(reader)
        except StopIteration:
            return
        except csv.Error:
            raise Fault(start, "the quotes of this record are not as they are to be") from None
        if record:
            yield start, lines.at, record


# ---- blocks


@dataclass(frozen=True, slots=True)
class InLines:
    """A block each line of which is a record: where it begins, how many rows stand before it, its lines, and whether they have quotes."""

    at: int
    before: int
    content: bytes
    has_quotes: bool
    count: int

    @property
    def end(self) -> int:
        return self.at + len(self.content)

    def lines(self) -> list[bytes]:
        return self.content.split(b"\n", self.count)[: self.count]

    def read(self, lines: list[bytes]) -> Iterator[list[str]]:
        """The records of some lines of it."""
        texts = map(bytes.decode, lines)
        return csv.reader(texts, strict=True) if self.has_quotes else (text.removesuffix("\r").split(",") for text in texts)

    def from_row(self, number: int) -> Iterator[tuple[int, list[str]]]:
        """Its rows behind the first so many, each with its number in the table."""
        skipped = max(number - self.before, 0)
        return enumerate(self.read(self.lines()[skipped:]), self.before + skipped + 1)


@dataclass(frozen=True, slots=True)
class InRecords:
    """A block that was read record by record."""

    at: int
    before: int
    end: int
    found: list[list[str]]

    @property
    def count(self) -> int:
        return len(self.found)

    def from_row(self, number: int) -> Iterator[tuple[int, list[str]]]:
        """Its rows behind the first so many, each with its number in the table."""
        skipped = max(number - self.before, 0)
        return enumerate(self.found[skipped:], self.before + skipped + 1)


Block: TypeAlias = InLines | InRecords


def is_in_lines(content: bytes) -> bool:
    """Whether each line is seen to be one record, and none is empty."""
    if content.startswith(BLANK_FIRST) or BLANK in content:
        return False
    if b"\r" in content and (BLANK_RETURN in content or RETURN.search(content)):
        return False
    return b'"' not in content or is_all(QUOTES, b"\n" + content)


def block_at(file: BufferedReader, at: int, before: int) -> Block | None:
    """The block that begins at this place, behind so many rows; None at the end."""
    file.seek(at)
    content = file.read(BLOCK)
    if not content:
        return None
    content += b"" if content.endswith(b"\n") else file.readline()
    if is_in_lines(content):
        count = content.count(b"\n") + (not content.endswith(b"\n"))
        return InLines(at, before, content, b'"' in content, count)
    found: list[list[str]] = []
    last = at + len(content)
    for _, end, record in records(file, at):
        found.append(record)
        if end >= last:
            return InRecords(at, before, end, found)
    return InRecords(at, before, file.tell(), found)


def blocks(file: BufferedReader, at: int, before: int) -> Iterator[Block]:
    """The blocks from a place on, behind so many rows."""
    while (block := block_at(file, at, before)) is not None:
        yield block
        at, before = block.end, before + block.count
