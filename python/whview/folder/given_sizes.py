"""What is wrong in a folder's sizes.csv, by line."""

from __future__ import annotations

import csv
import io
from collections.abc import Sequence
from pathlib import Path
from typing import TYPE_CHECKING

from ..finding import MARK, Finding, Place, nearest
from ..strategy.sizes import MOST_ROWS, MOST_WEIGHT, ROWS, WITH_WEIGHTS
from .numbers import is_between

if TYPE_CHECKING:
    from ..catalogue.from_toml import CatalogueView

FILE = "sizes.csv"


class GivenSizes:
    """Goes through the records of sizes.csv, where there is one, and keeps what is wrong in them."""

    def __init__(self, path: Path, views: Sequence[CatalogueView]) -> None:
        self.names = [view.name for view in views]
        self.seen: set[str] = set()
        self.findings: list[Finding] = []
        if (path / FILE).is_file():
            self.read((path / FILE).read_bytes().removeprefix(MARK))

    def find(self, line: int, text: str) -> None:
        """Keeps what is found at a line."""
        self.findings.append(Finding(Place(FILE, line), text))

    def read(self, content: bytes) -> None:
        """Goes through the records, of which each view is to have one."""
        try:
            reader = csv.reader(io.StringIO(content.decode(), newline=""))
        except UnicodeDecodeError as error:
            self.find(content[: error.start].count(b"\n") + 1, "this is not UTF-8")
            return
        header, line = next(filter(None, reader), None), reader.line_num + 1
        if header is None or tuple(header) not in (ROWS, WITH_WEIGHTS):
            has = "it is missing" if header is None else f"it is {','.join(header)}"
            self.find(1, f"the header is {','.join(ROWS)} or {','.join(WITH_WEIGHTS)}; {has}")
            return
        for record in reader:
            if record:
                self.take(record, header, line)
            line = reader.line_num + 1
        for name in self.names:
            if name not in self.seen:
                self.find(line, f"{name} has no record")

    def take(self, record: Sequence[str], header: Sequence[str], line: int) -> None:
        """Judges a record: its length, its view, its numbers of rows, how far they are apart, and its weight."""
        if len(record) != len(header):
            self.find(line, f"this record has {len(record)} cells and the header has {len(header)}")
            return
        name, *cells = record
        cells, weights = cells[:3], cells[3:]
        if name not in self.names:
            self.find(line, f"there is no view {name}{nearest(name, self.names)}")
        elif name in self.seen:
            self.find(line, f"{name} has an earlier record")
        self.seen.add(name)
        wrong = [cell for cell in cells if not is_between(cell, 0, MOST_ROWS)]
        for cell in wrong:
            self.find(line, f'"{cell}" is not a number of rows, which is 0 to {MOST_ROWS}')
        if not wrong and abs(int(cells[0]) - int(cells[1])) > int(cells[2]):
            self.find(line, f"{name}: pre and post are further apart than change")
        for cell in weights:
            if not is_between(cell, 1, MOST_WEIGHT):
                self.find(line, f'"{cell}" is not a weight, which is 1 to {MOST_WEIGHT}')
