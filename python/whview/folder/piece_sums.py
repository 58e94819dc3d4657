"""The sums of a file's bytes, piece by piece: of a table that a night has made of the one before, those pieces alone are read that changed.

Bytes that stay keep the sum that they had when they were first written, so that what a disk does to them later is told of all versions that
have them.
"""

from __future__ import annotations

import hashlib
from bisect import bisect_left
from collections.abc import Iterable, Iterator, Sequence
from io import FileIO
from itertools import accumulate
from pathlib import Path
from typing import NamedTuple, TypeAlias

from ..disk import BLOCK

# How many bytes a piece has where a file is cut anew; in a table that was changed it has from half to twice as many, but for the last one.
PIECE = 2**17
# A file's content in pieces, of which some may be parts of another one's.
Pieces: TypeAlias = Sequence[bytes | memoryview]


class Piece(NamedTuple):
    """So many bytes of a file, and their SHA-256."""

    size: int
    sum: str


class Spliced(list[bytes | memoryview]):
    """A table as parts of the one before and as texts that are new. `starts` has where a part stands there, and None of a text."""

    def __init__(self, before: bytes) -> None:
        super().__init__()
        self.before = memoryview(before)
        self.starts: list[int | None] = []

    def keep(self, start: int, end: int) -> None:
        """What stands in the table before from one place to another."""
        if start < end:
            self.append(self.before[start:end])
            self.starts.append(start)

    def add(self, text: bytes) -> None:
        """A text that is new."""
        if text:
            self.append(text)
            self.starts.append(None)


# ---- of files


def sizes_of(size: int) -> list[int]:
    """How many bytes the pieces of so many have; there is one at least."""
    whole, rest = divmod(size, PIECE)
    return [PIECE] * whole + [rest] * (rest > 0 or not whole)


def read_sum(file: FileIO, size: int) -> str:
    """The sum of the next bytes of an open file; of fewer, where it ends before."""
    found = hashlib.sha256()
    while size > 0 and (block := file.read(min(size, BLOCK))):
        found.update(block)
        size -= len(block)
    return found.hexdigest()


def of_file(path: Path, sizes: Iterable[int]) -> tuple[Piece, ...]:
    """The pieces of these sizes that a file has."""
    with open(path, "rb", buffering=0) as file:
        return tuple(Piece(size, read_sum(file, size)) for size in sizes)


def is_of(path: Path, pieces: tuple[Piece, ...]) -> bool:
    """Whether a file has these pieces, and nothing behind them."""
    return path.stat().st_size == sum(piece.size for piece in pieces) and of_file(path, [piece.size for piece in pieces]) == pieces


# ---- of a table that was changed


class Cutting:
    """Pieces that come to be: those that stay have the sums that they had, and the bytes between them are summed up anew."""

    def __init__(self) -> None:
        self.pieces: list[Piece] = []
        self.held = bytearray()

    def hold(self, part: bytes | memoryview) -> None:
        """Bytes that are summed up anew."""
        self.held += part
        while len(self.held) >= 2 * PIECE:
            self.put(self.held[:PIECE])
            del self.held[:PIECE]

    def stay(self, piece: Piece, part: bytes | memoryview) -> None:
        """A piece that stays, unless it has so little, or stands behind so little, that there would be ever more pieces."""
        if piece.size < PIECE // 2 or 0 < len(self.held) < PIECE // 2:
            self.hold(part)
        else:
            self.cut()
            self.pieces.append(piece)

    def cut(self) -> None:
        """Sums up what is held."""
        middle = len(self.held) // 2 if len(self.held) > PIECE * 3 // 2 else len(self.held)
        for part in filter(None, (self.held[:middle], self.held[middle:])):
            self.put(part)
        self.held.clear()

    def put(self, part: bytes | bytearray) -> None:
        """Sums a part up, which is a piece."""
        self.pieces.append(Piece(len(part), hashlib.sha256(part).hexdigest()))


def of_spliced(table: Spliced, known: Sequence[Piece]) -> tuple[Piece, ...]:
    """The pieces of a table that was made of one whose pieces are known."""
    ends, cutting = list(accumulate(piece.size for piece in known)), Cutting()
    for part, start in zip(table, table.starts):
        at = 0
        for piece, begin, end in within(known, ends, start, len(part)) if start is not None else ():
            cutting.hold(part[at:begin])
            cutting.stay(piece, part[begin:end])
            at = end
        cutting.hold(part[at:])
    cutting.cut()
    return tuple(cutting.pieces) or (Piece(0, hashlib.sha256().hexdigest()),)


def within(known: Sequence[Piece], ends: list[int], start: int, size: int) -> Iterator[tuple[Piece, int, int]]:
    """The pieces that stand wholly in so many bytes from a place on, each with where it begins and ends there."""
    number = bisect_left(ends, start)
    if number < len(ends) and ends[number] - known[number].size < start:
        number += 1
    while number < len(ends) and ends[number] <= start + size:
        yield known[number], ends[number] - known[number].size - start, ends[number] - start
        number += 1
