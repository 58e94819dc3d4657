"""Tables that are read a piece at a time: a file of a base table on its way to the servers, and a view on its way out.

A file whose cells are all written plainly, without quotes and without signs that a line's end or a tab could be, goes over as it is. It is
looked through first, since nothing is sent of a file that has a fault. Any other file is read into memory, where each fault has its place.
"""

from __future__ import annotations

import re
import zlib
from collections.abc import Iterable, Iterator
from concurrent.futures import ThreadPoolExecutor
from dataclasses import dataclass
from itertools import zip_longest
from pathlib import Path
from typing import IO, TYPE_CHECKING, NamedTuple, TypeVar

from ..catalogue.parts import line
from ..finding import Failure
from .status import BAD_INPUT

if TYPE_CHECKING:
    from ..catalogue.views import View

# So much of a file is looked at, and sent, at a time.
PIECE, PART = 2**22, 2**16
# A number that is within 64 bits whatever its digits are, as it would be written again; and a text that wants no escapes.
CELLS = {"int": rb"(?:0|-?[1-9][0-9]{0,17})", "text": rb'[^\x00-\x1f\x7f",\\]*'}
# What numbers are written with; and all digits as one, or all but 0.
DIGITS, ALIKE = b"0123456789-", bytes.maketrans(b"023456789", b"1" * 9)
BUT_ZERO = bytes.maketrans(b"23456789", b"1" * 8)
# What is in no line of such numbers: a cell without a digit, one that begins with 0 and goes on, and a sign amid digits.
NEVER = (b",,", b",\n", b"\n,", b",00", b",01", b"\n00", b"\n01", b"-0", b"--", b"-,", b"-\n", b"0-", b"1-")
TOO_LONG = b"1" * 19
T = TypeVar("T")


class Batch(NamedTuple):
    """Rows as an engine reads them, and what their counts add up to, with their signs and without."""

    content: bytes
    more: int
    counted: int


@dataclass(frozen=True, slots=True)
class Plain:
    """A file of a base table whose cells are plain, how many rows it has, and by what its pieces are known."""

    path: Path
    start: int
    rows: int
    pieces: list[int]

    def batches(self) -> Iterator[Batch]:
        """Its rows as an engine reads them, each with the count 1. The next ones are read while some are sent."""
        return ahead(self.read())

    def read(self) -> Iterator[Batch]:
        """The same, one after the other; a file that is not as it was ends it."""
        with self.path.open("rb") as opened:
            opened.seek(self.start)
            for piece, told in zip_longest(whole_lines(opened), self.pieces):
                if piece is None or zlib.crc32(piece) != told:
                    raise Failure(BAD_INPUT, f"{self.path}: somebody writes into this file while it is read")
                rows = piece.count(b"\n")
                yield Batch(piece.replace(b",", b"\t").replace(b"\n", b"\t1\n"), rows, rows)


def ahead(made: Iterator[T]) -> Iterator[T]:
    """The same, of which the next one is made while one is in use."""
    with ThreadPoolExecutor(1) as pool:
        job = pool.submit(lambda: next(made, None))
        while (found := job.result()) is not None:
            job = pool.submit(lambda: next(made, None))
            yield found


def whole_lines(opened: IO[bytes]) -> Iterator[bytes]:
    """What is left of a file in pieces that end where a line does."""
    while piece := opened.read(PIECE):
        yield piece if piece.endswith(b"\n") else piece + opened.readline()


def are_lines(lines: re.Pattern[bytes], piece: bytes) -> bool:
    """Whether all of a piece is such lines. It is looked at in parts, since an expression remembers where each line began."""
    at = 0
    while at < len(piece):
        end = piece.find(b"\n", at + PART) + 1 or len(piece)
        if not lines.fullmatch(piece, at, end):
            return False
        at = end
    return True


def are_numbers(width: int, piece: bytes) -> bool:
    """Whether all of a piece is lines of so many numbers. What an expression would say goes through each cell; this asks for texts in all of it."""
    ends = b"," * (width - 1) + b"\n"
    between, alike = piece.translate(None, DIGITS), b"\n" + piece.translate(BUT_ZERO)
    if between != ends * (len(between) // width) or not piece.endswith(b"\n") or width == 1 and b"\n\n" in alike:
        return False
    return not any(never in alike for never in NEVER) and TOO_LONG not in piece.translate(ALIKE)


def plain(path: Path, view: View) -> Plain | None:
    """A file of a base table, where all of it is plain; else None."""
    kinds = [kind for _, kind in view.columns]
    if kinds == ["text"]:
        # A line without any letter may be none.
        return None
    lines = re.compile(rb"(?:" + rb",".join(CELLS[kind] for kind in kinds) + rb"\n)*")
    with path.open("rb") as opened:
        header = ",".join(name for name, _ in view.columns).encode() + b"\n"
        if opened.readline() != header:
            return None
        looked = [*known(lines if "text" in kinds else None, len(kinds), whole_lines(opened))]
    if None in looked:
        return None
    return Plain(path, len(header), sum(each[0] for each in looked if each), [each[1] for each in looked if each])


def known(lines: re.Pattern[bytes] | None, width: int, pieces: Iterable[bytes]) -> Iterator[tuple[int, int] | None]:
    """How many rows each piece has and by what it is known, up to one that is not of such lines, or of numbers: None."""
    for piece in pieces:
        if not (are_numbers(width, piece) if lines is None else are_lines(lines, piece) and is_text(piece)):
            yield None
            return
        yield piece.count(b"\n"), zlib.crc32(piece)


def is_text(piece: bytes) -> bool:
    """Whether a piece is UTF-8."""
    try:
        piece.decode()
    except UnicodeDecodeError:
        return False
    return True


# ---- what comes out


# What stands behind a backslash in a line of an answer; and what makes a cell want quotes in a file.
LETTERS = {"b": "\b", "f": "\f", "n": "\n", "r": "\r", "t": "\t", "0": "\0"}
ESCAPE = re.compile(r"\\(.)", re.DOTALL)
ODD = re.compile(rb'[\\",\r]')


def lines_of(blocks: Iterable[bytes]) -> Iterator[bytes]:
    """The lines of what comes in blocks, each with its end."""
    left = b""
    for block in blocks:
        *whole, left = (left + block).split(b"\n")
        for each in whole:
            yield each + b"\n"
    if left:
        yield left


def cells_of(said: bytes) -> list[str]:
    """The cells of a line of an answer."""
    cells = said.decode().removesuffix("\n").split("\t")
    if b"\\" not in said:
        return cells
    return [ESCAPE.sub(lambda found: LETTERS.get(found[1], found[1]), cell) for cell in cells]


def record_of(said: bytes, width: int, is_summary: bool) -> tuple[str, int] | None:
    """A line of an answer as a record of a file with its count first, and the count; None where it has not so many cells."""
    if said.count(b"\t") != width - is_summary:
        return None
    if ODD.search(said):
        cells = cells_of(said)
        count = 1 if is_summary else int(cells.pop())
        return line([count, *cells]), count
    if is_summary:
        return "1," + said.decode().replace("\t", ","), 1
    cells_said, _, count_said = said.decode().rpartition("\t")
    count = int(count_said)
    return f"{count},{cells_said}\n".replace("\t", ","), count
