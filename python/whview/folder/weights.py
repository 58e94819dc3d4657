"""Weights that are proposed: what a row of each view costs to read beside one of another, by its cells or by its bytes."""

from __future__ import annotations

import csv
import io
from collections import Counter
from collections.abc import Mapping
from fractions import Fraction
from typing import TYPE_CHECKING

from .. import program
from ..strategy.sizes import MOST_WEIGHT
from .command import Weights
from .records import shown
from .strategy import at_once, written

if TYPE_CHECKING:
    from ..catalogue.from_toml import CatalogueView
    from ..catalogue.views import Row
    from .command import Words
    from .folder import Folder


def by_cells(folder: Folder) -> dict[str, int]:
    """How many columns each view has, so that a row weighs as many as it has cells."""
    return {view.name: len(view.columns) for view in folder.views}


def by_bytes(folder: Folder, words: Words) -> dict[str, int]:
    """Each view's mean bytes of a row beside those of the narrowest."""
    found = {view.name: mean(base_rows(folder, view)) for view in folder.views if view.is_base}
    found |= {name: mean(rows_of(table)) for name, table in derived_tables(folder, words).items()}
    return scaled({view.name: found[view.name] for view in folder.views})


def scaled(means: Mapping[str, Fraction]) -> dict[str, int]:
    """Weights as these means are to the least of them that is not 0: to the nearest whole number, 1,000 at most; 1 of a 0."""
    least = min(filter(None, means.values()), default=Fraction(1))
    return {name: min(int(mean / least + Fraction(1, 2)), MOST_WEIGHT) if mean else 1 for name, mean in means.items()}


def mean(rows: Mapping[Row, int]) -> Fraction:
    """The mean bytes of these rows as CSV has them, their line ends with them, each as often as it counts; 0 of no rows."""
    count = sum(rows.values())
    return Fraction(sum(len(f"{shown(row)}\n".encode()) * times for row, times in rows.items()), count or 1)


def base_rows(folder: Folder, view: CatalogueView) -> Counter[Row]:
    """The rows of a base view's table and those of its changes, which come or leave."""
    rows = Counter(folder.data[view.name].rows)
    changes = folder.changes.get(view.name)
    for row, count in changes.rows.items() if changes else ():
        rows[row] += abs(count)
    return rows


def rows_of(table: bytes) -> Counter[Row]:
    """The rows of a printed table, and how often each counts."""
    records = list(csv.reader(io.StringIO(table.decode(), newline="")))[1:]
    return Counter({tuple(cells): int(count) for count, *cells in records})


def derived_tables(folder: Folder, words: Words) -> dict[str, bytes]:
    """The tables of the derived views: those of the current version, or where it lacks one, of a night that is not kept."""
    files = {view.name: folder.state.root / "views" / f"{view.name}.csv" for view in folder.views if not view.is_base}
    if folder.state.number is not None and all(file.is_file() for file in files.values()):
        return {name: file.read_bytes() for name, file in files.items()}
    if not files:
        return {}
    answer = program.night(folder, words, written(at_once(folder.views)))
    return {name: answer.table(name) for name in files}


def proposed(folder: Folder, words: Words) -> dict[str, int]:
    """Each view's weight, of the kind that was asked for."""
    return by_cells(folder) if words.weights is Weights.CELLS else by_bytes(folder, words)
