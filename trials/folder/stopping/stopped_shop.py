"""The shop whose nights are stopped: its tables, what its views have to be, and changes of which each row is given once."""

import os
from collections import Counter
from functools import lru_cache
from pathlib import Path
from typing import NamedTuple

from trials.drawn.shop import BASES, VIEWS, expected, table, write
from trials.oracle.tables import records_of, text_of
from upkeep.words import ROOT

SHOP = ROOT / "examples/shop"


class Change(NamedTuple):
    """A row of a file of changes: of which view, how often it comes or leaves, and its cells."""

    view: str
    count: int
    cells: tuple


def base_tables(folder):
    """The base tables below a folder, by their names."""
    return {name: table(folder / "data" / f"{name}.csv") for name in BASES}


def change_files(folder):
    """The files of changes in a folder, where there is one."""
    return sorted(path for path in folder.glob("*.csv") if not path.name.startswith(".")) if folder.is_dir() else []


def changes_in(folder):
    """The rows of the files of changes in a folder, with how often each stands there."""
    rows = ((path.name.partition(".")[0], row) for path in change_files(folder) for row in records_of(text_of(path)))
    return Counter(Change(view, count, cells) for view, (cells, count) in rows)


def after(tables, changes):
    found = {name: Counter(rows) for name, rows in tables.items()}
    for change, times in changes.items():
        found[change.view][change.cells] += change.count * times
    return {name: +rows for name, rows in found.items()}


def views_of(tables):
    """What the derived views of base tables have to be, by sqlite3 from scratch."""
    rows = tuple((name, tuple(sorted(tables[name].elements()))) for name in sorted(BASES))
    return from_scratch(rows)


@lru_cache(maxsize=1000)
def from_scratch(rows):
    found = expected({name: [tuple(map(number, row)) for row in each] for name, each in rows})
    return {name: found[name] for name in VIEWS}


def number(cell):
    """A cell as sqlite3 is to take it."""
    return int(cell) if cell.lstrip("-").isdigit() else cell


def write_changes(path, rows, view):
    write(path, BASES[view], rows)


class Hand:
    """Puts changes into a folder as an operator does, and keeps what it gave."""

    def __init__(self, folder, given=(), number=100):
        self.folder, self.given, self.number = Path(folder), Counter(given), number

    def row(self, view):
        self.number += 1
        rows = {"orders": (self.number, "Wednesday", "north"), "lines": (2, "bread", self.number), "products": (f"thing {self.number}", 5)}
        return tuple(map(str, rows[view]))

    def put(self, view, rows=None):
        """Puts a file of changes in under the first name of the view that is free, finished as it comes there."""
        rows = rows or [(1, self.row(view)), (1, self.row(view))]
        self.given.update(Change(view, *row) for row in rows)
        coming = self.folder.parent / f"{self.folder.name}.coming"
        write_changes(coming, rows, view)
        (self.folder / "changes").mkdir(exist_ok=True)
        names = [f"{view}.csv", *(f"{view}.{number}.csv" for number in range(1, 100))]
        took = next(name for name in names if self.linked(coming, self.folder / "changes" / name))
        coming.unlink()
        return took

    def linked(self, coming, place):
        """Whether a file could be put in a place, which has to be free."""
        try:
            os.link(coming, place)
        except FileExistsError:
            return False
        return True
