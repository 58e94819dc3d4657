"""`sizes`: how many rows each view has before the next night and after it, and how many change; and weights, given or proposed.

They are those of sizes.csv where there is one; from the change files and the last report, where the views are defined as they were then;
and else measured, by nights that are not kept. The report of a night leaves open how many rows a derived view had, an empty cell, where
nobody counted them: before a first night, and where the view, or one that it is over, was defined otherwise.
"""

from __future__ import annotations

import csv
import io
from collections.abc import Mapping
from typing import TYPE_CHECKING, NamedTuple

from .. import program
from ..catalogue.from_toml import OF_TESTS, Catalogue
from ..finding import Failure, warn
from ..status import BAD_INPUT, DONE, Status
from ..strategy.sizes import MOST_ROWS, ROWS, WITH_WEIGHTS
from .by_lines import counted, counted_through, has_whole_lines
from .folder import sound
from .given_sizes import FILE, GivenSizes
from .strategy import at_once, written

if TYPE_CHECKING:
    from ..catalogue.from_toml import CatalogueView
    from .command import Words
    from .folder import Folder

HEADER = ",".join(ROWS)


class Size(NamedTuple):
    """How many rows a view has before a night, None where nobody counted them, and after it, how many change, and what a row of it weighs, None
    where that is not told.
    """

    before: int | None
    after: int
    changed: int
    weight: int | None = None

    @property
    def old(self) -> int:
        """How many rows there were, of a view whose rows somebody counted."""
        if self.before is None:
            raise ValueError("nobody counted how many rows this view had before the night")
        return self.before

    @property
    def cells(self) -> list[str]:
        """The numbers as the part of sizes has them."""
        rows = ["" if self.before is None else str(self.before), str(self.after), str(self.changed)]
        return rows if self.weight is None else [*rows, str(self.weight)]

    @classmethod
    def of_cells(cls, cells: list[str]) -> Size:
        """The size that these cells are, which have no fault."""
        before, after, changed, *weights = cells
        return cls(int(before) if before else None, int(after), int(changed), int(weights[0]) if weights else None)


class GivenText(NamedTuple):
    """The part of sizes, and from where these are."""

    text: str
    source: str


def sized(sizes: Mapping[str, Size]) -> str:
    """The part of sizes, of each view's by its name; with weights where one has such."""
    header = ROWS if all(size.weight is None for size in sizes.values()) else WITH_WEIGHTS
    return "".join(f"{','.join(cells)}\n" for cells in [header, *([name, *size.cells] for name, size in sizes.items())])


def of_text(text: str) -> dict[str, Size]:
    """Each view's size by its name, of the text of sizes, which has no fault."""
    records = list(filter(None, csv.reader(io.StringIO(text, newline=""))))
    return {name: Size.of_cells(cells) for name, *cells in records[1:]}


def base_sizes(folder: Folder) -> dict[str, Size]:
    """The sizes of the base views: the last report says them of tables that a night has made, and else their files."""
    last = last_report(folder)
    return {view.name: base_size(folder, view.name, last.get(view.name)) for view in folder.bases}


def base_size(folder: Folder, name: str, last: Size | None) -> Size:
    """The size of one of them, of which the last report may have told one."""
    records, changes = folder.data[name], folder.changes.get(name)
    before = last.after if last and records.is_made else records.total
    counts = list(changes.rows.values()) if changes else []
    return Size(before, before + sum(counts), sum(abs(count) for count in counts))


def of_report(text: str) -> dict[str, Size]:
    """The sizes that a report ends with."""
    return of_text(HEADER + "\n" + text.partition(f"{HEADER}\n")[2])


def last_report(folder: Folder) -> dict[str, Size]:
    """The sizes that the last report tells, or none; one that is not as its night wrote it tells none."""
    file = folder.state.report
    return of_report(file.read_text()) if file.is_file() and folder.inputs.vouched.is_as_made(file.name) else {}


def as_before(folder: Folder) -> set[str]:
    """The names of the views that are as the version before has them: the same columns, or the same definition over such views."""
    if folder.state.number is None:
        return set()
    if folder.inputs.is_catalogue_as_before():
        return {view.name for view in folder.views}
    before = {view.name: view for view in Catalogue(folder.state.root, lenient=True).views}
    found: set[str] = set()
    for view in folder.views:
        if view.name in before and is_alike(view, before[view.name]) and found.issuperset(view.over):
            found.add(view.name)
    return found


def is_alike(view: CatalogueView, other: CatalogueView) -> bool:
    """Whether two views have the same columns, or the same definition, whatever their tests."""
    if view.is_base and other.is_base:
        return view.columns == other.columns
    one, two = ({key: value for key, value in each.table.items() if key not in OF_TESTS} for each in (view, other))
    return one == two


def told_before(folder: Folder) -> dict[str, Size] | None:
    """Sizes from the last report: derived views change as they did then, by as much more as the base views do. None without one, and where
    a view is another one than then.
    """
    last, names = last_report(folder), {view.name for view in folder.views}
    if set(last) != names or as_before(folder) != names:
        return None
    found = base_sizes(folder)
    now, then = (sum(sizes[name].changed for name in found) for sizes in (found, last))
    for view in folder.views:
        if not view.is_base:
            rows, changed = last[view.name].after, -(-last[view.name].changed * now // max(then, 1))
            found[view.name] = Size(rows, rows, changed)
    return {view.name: found[view.name] for view in folder.views}


def rows_of(table: bytes) -> int:
    """How many rows a printed table has."""
    return counted(table) if has_whole_lines(table) else counted_through(table)


def told_rows(folder: Folder) -> dict[str, int]:
    """How many rows each derived view has, as far as it is known: from the last report, of views that are defined as they were; and none
    where all base tables are empty.
    """
    last, derived = last_report(folder), [view.name for view in folder.views if not view.is_base]
    if all(records.is_empty for records in folder.data.values()):
        return dict.fromkeys(derived, 0)
    known = as_before(folder)
    return {name: last[name].after for name in derived if name in last and name in known}


def rows_before(folder: Folder, words: Words) -> dict[str, int]:
    """How many rows each derived view has before the night: it is told, or counted by a night without changes."""
    told, derived = told_rows(folder), [view.name for view in folder.views if not view.is_base]
    if len(told) == len(derived):
        return told
    answer = program.night(folder, words, written(at_once(folder.views)), with_changes=False)
    return {name: rows_of(answer.table(name)) for name in derived}


def measured(folder: Folder, words: Words) -> dict[str, Size]:
    """Sizes by a night that is carried out and not kept."""
    answer, before = program.explained_night(folder, words, written(at_once(folder.views))), rows_before(folder, words)
    changed, base = answer.changed(), base_sizes(folder)
    derived = {name: Size(rows, rows_of(answer.table(name)), changed[name]) for name, rows in before.items()}
    return {view.name: base[view.name] if view.is_base else derived[view.name] for view in folder.views}


def given_text(folder: Folder) -> str | None:
    """The text of sizes.csv, which has no fault; None where there is none."""
    findings = GivenSizes(folder.path, folder.views).findings
    if findings:
        raise Failure(BAD_INPUT, *findings)
    file = folder.path / FILE
    return file.read_bytes().decode() if file.is_file() else None


def rows_text(folder: Folder, words: Words) -> GivenText:
    """The sizes' text, with the weights that are given alone."""
    given = given_text(folder)
    if given is not None:
        return GivenText(given, "given in sizes.csv")
    told = told_before(folder)
    if told is not None:
        return GivenText(sized(within(told)), "from the change files and the last report")
    return GivenText(sized(within(measured(folder, words))), "measured by a night that is not kept")


def within(sizes: Mapping[str, Size]) -> dict[str, Size]:
    """The numbers of rows as the program takes them: what is more than it takes is that much, which keeps pre and post within change."""
    rows = {name: (size.old, size.after, size.changed) for name, size in sizes.items()}
    return {name: Size(*(min(number, MOST_ROWS) for number in numbers)) for name, numbers in rows.items()}


def weighed(text: str, folder: Folder, words: Words) -> str:
    """The text with the weights that are asked for, in the place of any that it has."""
    if words.weights is None:
        return text
    # What most nights do not need is imported where it is needed.
    from .weights import proposed

    weights = proposed(folder, words)
    return sized({name: size._replace(weight=weights[name]) for name, size in of_text(text).items()})


def sizes_text(folder: Folder, words: Words) -> GivenText:
    """The sizes' text."""
    text, source = rows_text(folder, words)
    return GivenText(weighed(text, folder, words), source + (f"; weights by {words.weights}" if words.weights else ""))


def run(words: Words) -> Status:
    text, source = sizes_text(sound(words.folder), words)
    warn([f"sizes {source}"])
    print(text, end="")
    return DONE
