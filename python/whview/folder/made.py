"""The tables of a night as files: one that stays is a link to the one before it, another is the one before with what changed, and where
that is not there, what the program printed.
"""

from __future__ import annotations

from collections.abc import Iterator
from pathlib import Path
from typing import TYPE_CHECKING, NamedTuple, TypeAlias

from ..disk import copy, has, has_pieces, link, write
from . import by_lines

if TYPE_CHECKING:
    from ..catalogue.from_toml import CatalogueView
    from ..program import Night
    from .folder import Folder
    from .piece_sums import Pieces


class Made(NamedTuple):
    """A table: in pieces, or as the file that it is like; its change, where that is known; and of a derived view how many rows it has."""

    pieces: Pieces
    like: Path | None = None
    change: bytes = b""
    rows: int | None = None

    def content(self) -> Pieces:
        """The table, which is read where it is like a file."""
        return [self.like.read_bytes()] if self.like else self.pieces

    def put(self, file: Path, links: bool) -> None:
        """Writes it; where it is like a file, as a link to that, if it may be one."""
        if not self.like:
            write(file, self.pieces)
        elif not links or not link(self.like, file):
            copy(self.like, file)


class Printed:
    """A table as the program printed it, whose records are lines: it is counted as it is put where it belongs, and little of it is held."""

    change = b""
    pieces: Pieces = ()

    def __init__(self, answer: Night, name: str, like: Path) -> None:
        self.answer, self.name, self.like = answer, name, like
        self.rows: int | None = None

    def lines(self) -> Iterator[memoryview]:
        """The table in blocks, which are counted."""
        rows = -1 if self.answer.size(self.name) else 0
        for block in self.answer.blocks(self.name):
            rows += by_lines.counted(block)
            yield memoryview(block)[1:]
        self.rows = rows

    def put(self, file: Path, links: bool) -> None:
        """Writes it; as a link to the file that it is like, where that has the same bytes."""
        is_like = links and has(self.like, self.answer.size(self.name), map(bytes, self.lines()))
        if not is_like or not link(self.like, file):
            write(file, self.lines())


# A view's table after a night.
Table: TypeAlias = Made | Printed


def rows_in(table: Table) -> int:
    """How many rows a derived view's table has. Of one that the program printed that is known once it was put where it belongs."""
    if table.rows is None:
        raise ValueError("how many rows a table has is known once it was put where it belongs")
    return table.rows


def made(pieces: Pieces, like: Path, rows: int | None = None) -> Made:
    """A table, or the file that has the same bytes."""
    return Made([], like, b"", rows) if has_pieces(like, pieces) else Made(pieces, None, b"", rows)


def of_base(folder: Folder, view: CatalogueView) -> Made:
    """The table of a base view after the night. It differs from the one before where one of the tool's own changes."""
    last = folder.state.root / "data" / f"{view.name}.csv"
    if folder.is_unchanged(view) and last.is_file():
        return Made([], last)
    return Made(folder.after(view)) if folder.data[view.name].is_made else made(folder.after(view), last)


def of_change(file: Path, rows: int, change: bytes, is_vouched: bool) -> Made | None:
    """The table of a derived view after the night: the one before, in this file, with a change as the program prints it. All records are
    lines. None where the file has not as many rows as were told, which is seen of a file that is vouched for, or not those that leave.
    """
    pieces = by_lines.merged(file.read_bytes(), change, None if is_vouched else rows)
    return Made(pieces, None, change, rows + by_lines.sum_of(change)) if pieces else None
