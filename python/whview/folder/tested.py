"""Whether the tables after a night keep the tests of the catalogue, and which rows do not. A table that a night of the same catalogue made
and judged has kept them: there only the rows that change are looked at, and those that have cells of them. Of any other one all rows are.
"""

from __future__ import annotations

import csv
import io
import re
from collections import Counter
from collections.abc import Callable, Iterable, Iterator
from dataclasses import dataclass, field
from typing import TYPE_CHECKING

from ..catalogue.table_tests import Reference, TableTest
from ..finding import TOLD, Finding, Place
from . import by_lines
from .headlines import has_judged
from .made import Printed, rows_in
from .rows_of_keys import Cells, Key, cell_of, doubled, first_rows, line_blocks, several
from .sizes import Size, base_sizes

if TYPE_CHECKING:
    from ..catalogue.from_toml import CatalogueView
    from ..catalogue.views import Row
    from ..program import Night as Answer
    from .carried import Night
    from .folder import Folder
    from .records import Records

# A share is compared in whole numbers of so many parts of one.
PARTS = 10**12


@dataclass(frozen=True, slots=True)
class Tested:
    """A view's table after a night, in the tool's own form: how many rows it had, where that is known, has, and changed; all of it, in blocks
    of records; and where its tests held before, the table before, and how often each row comes or leaves.
    """

    view: CatalogueView
    sizes: Size
    blocks: Callable[[], Iterable[bytes]]
    before: Callable[[], bytes] | None = None
    change: dict[bytes, int] = field(default_factory=dict)
    is_in_lines: bool = True

    def cells(self, columns: tuple[int, ...]) -> Cells:
        return Cells(columns, len(self.view.columns))

    @property
    def is_as_before(self) -> bool:
        """Whether its tests held, and it stays."""
        return self.before is not None and not self.change

    def moved(self, columns: tuple[int, ...]) -> Counter[Key]:
        """Of each of these cells how many more rows have them than before."""
        cells = self.cells(columns)
        found: Counter[Key] = Counter()
        for row, count in self.change.items():
            found[cells.of_row(row)] += count
        return found

    def having(self, columns: tuple[int, ...], keys: set[Key]) -> Counter[bytes]:
        """The rows after the night that have these cells, each with its count, of a table whose tests held before."""
        if self.before is None:
            raise ValueError(f"the table of {self.view.name} before the night is not known")
        cells = self.cells(columns)
        found: Counter[bytes] = Counter()
        for row, count in cells.having(self.before(), keys, self.is_in_lines) if keys else ():
            found[row] += count
        for row, count in self.change.items():
            if cells.of_row(row) in keys:
                found[row] += count
        return +found


# ---- the rows that break a test


def of_several(table: Tested, columns: tuple[int, ...]) -> Iterator[bytes]:
    """The rows of which two or more have the same of these cells."""
    cells = table.cells(columns)
    if table.before is None:
        if doubled(cells.of_block(block) for block in table.blocks()):
            often = several(cells.rows(block) for block in table.blocks())
            yield from (row for block in table.blocks() for key, row, _ in cells.rows(block) if key in often)
        return
    rows = table.having(columns, {key for key, count in table.moved(columns).items() if count > 0})
    counts: Counter[Key] = Counter()
    for row, count in rows.items():
        counts[cells.of_row(row)] += count
    yield from (row for row in rows if counts[cells.of_row(row)] > 1)


def with_others(table: Tested, columns: tuple[int, ...], allowed: Callable[[Key], bool]) -> Iterator[bytes]:
    """The rows of a table whose cells are not allowed; where its tests held before, of those that come."""
    cells = table.cells(columns)
    if table.before is not None:
        yield from (row for row, count in table.change.items() if count > 0 and not allowed(cells.of_row(row)))
        return
    for block in table.blocks():
        wrong = {key for key in {found[1:] for found in cells.of_block(block)} if not allowed(key)}
        if wrong:
            yield from (row for key, row, _ in cells.rows(block) if key in wrong)


def without_other(table: Tested, columns: tuple[int, ...], other: Tested, there: tuple[int, ...]) -> Iterator[bytes]:
    """The rows of a table whose cells no row of another one has."""
    if table.before is None or other.before is None:
        numbers = {hash(found[1:]) for block in other.blocks() for found in other.cells(there).of_block(block)}
        whole = Tested(table.view, table.sizes, table.blocks)
        yield from with_others(whole, columns, lambda key: hash(key) in numbers)
        return
    coming = {key for key, count in table.moved(columns).items() if count > 0}
    leaving = {key for key, count in other.moved(there).items() if count < 0}
    known = set(map(other.cells(there).of_row, other.having(there, coming | leaving)))
    lost = leaving - known
    found: Counter[bytes] = table.having(columns, lost) if lost else Counter()
    yield from found
    yield from (row for row in with_others(table, columns, lambda key: key in known or key not in coming) if row not in found)


# ---- one test


class Judge:
    """Judges tests over the tables of a night, which are asked for by the names of their views; None for one that is not known."""

    def __init__(self, tables: Callable[[str], Tested | None], place: Callable[[str, bytes], Place | None]) -> None:
        self.tables, self.place = tables, place

    def findings(self, tests: Iterable[TableTest]) -> list[Finding]:
        """What is told of the tests that are broken."""
        return [finding for test in tests if (table := self.tables(test.view)) for finding in self.of_test(test, table)]

    def of_test(self, test: TableTest, table: Tested) -> list[Finding]:
        """What is told of one of them."""
        if isinstance(test.against, (int, float)):
            return self.of_number(test, test.against, table)
        other = self.tables(test.against.view) if isinstance(test.against, Reference) else None
        if isinstance(test.against, Reference) and other is None or table.is_as_before and (other is None or other.is_as_before):
            return []
        rows, count = first_rows(self.broken(test, table, other), TOLD)
        found = [self.told(test, table, row, other) for row in rows]
        left = f"{test.view}: {count - TOLD:,} more rows break this test, and are not told"
        return found + [Finding(test.place, left, False, count - TOLD)] * (count > TOLD)

    def broken(self, test: TableTest, table: Tested, other: Tested | None) -> Iterator[bytes]:
        """The rows that break a test."""
        match test.against:
            case Reference(column=column) if other:
                return without_other(table, test.columns, other, (column,))
            case frozenset() as values:
                allowed = {(cell_of(value),) for value in values}
                return with_others(table, test.columns, lambda key: key in allowed)
        return of_several(table, test.columns)

    def told(self, test: TableTest, table: Tested, row: bytes, other: Tested | None) -> Finding:
        """What is told of a row: where it stands, or where the test does, if the row is a derived one."""
        names = [table.view.columns[column][0] for column in test.columns]
        cells = (cell.decode() for cell in table.cells(test.columns).of_row(row))
        what = ", ".join(f"{name} {cell}" for name, cell in zip(names, cells))
        match test.against:
            case Reference(column=column) if other:
                why = f"{other.view.name}.{other.view.columns[column][0]} has no {what}"
            case frozenset() as values:
                why = f"{what} is none of {', '.join(sorted(values)[:TOLD])}"
            case _:
                why = f"several rows have {what}, which is {'the' if test.key == 'key' else 'a'} key"
        place = self.place(test.view, row)
        by = f" ({test.place.file}:{test.place.line}:{test.place.column})" if place else ""
        return Finding(place or test.place, f"{test.view}: {why}{by}: {row.decode()}")

    def of_number(self, test: TableTest, bound: int | float, table: Tested) -> list[Finding]:
        """A test of how many rows there are, or change. Where it is not known how many there were, a share is one of those that there are."""
        after, changed = table.sizes.after, table.sizes.changed
        of = after if table.sizes.before is None else table.sizes.before
        if test.key == "least_rows":
            why = f"{after:,} rows are left" if after < bound else ""
        elif test.key == "most_changed_rows":
            why = f"{changed:,} rows change" if changed > bound else ""
        else:
            # A table that was empty has nothing to lose.
            why = f"{changed:,} rows change, and there were {of:,}" if of and changed * PARTS > round(bound * PARTS) * of else ""
        return [Finding(test.place, f"{test.view}: {why}; {test.key} is {bound}")] if why else []


# ---- the tables of a folder and of a night


def of_base(folder: Folder, view: CatalogueView, is_judged: bool) -> Tested:
    """The table of a base view after the changes; it may be known that the night that made it judged it."""
    records, changes = folder.data[view.name], folder.changes.get(view.name)
    change = {by_lines.row_of(row): count for row, count in changes.rows.items() if count} if changes else {}
    held = (lambda: records.content) if is_judged and records.is_made and records.header.is_counted else None
    is_in_lines = records.has_lines and not any(b"\n" in row for row in change)

    def after() -> Iterable[bytes]:
        pieces = folder.after(view)
        return line_blocks(pieces) if is_in_lines else one_block(b"".join(pieces))

    return Tested(view, base_sizes(folder)[view.name], after, held, change, is_in_lines)


def one_block(table: bytes) -> Iterator[bytes]:
    """A table without its header, whose records may go over lines, in one block."""
    yield table[table.find(b"\n") + 1 :]


def of_derived(night: Night, view: CatalogueView, is_judged: bool) -> Tested:
    """The same of a derived view after a night."""
    table, name = night.derived(view.name), view.name
    if isinstance(table, Printed):
        return of_printed(night, view)
    made, file, is_in_lines = table, night.kept.file(name), night.folder.has_lines
    sizes = Size(night.kept.rows.get(name), rows_in(made), night.changed[name])
    change = dict(by_lines.coming(made.change)) if made.change else {}
    is_as_judged = is_judged and (bool(made.change) or night.changed[name] == 0)

    def after() -> Iterable[bytes]:
        pieces = made.content()
        return line_blocks(pieces) if is_in_lines else one_block(b"".join(pieces))

    return Tested(view, sizes, after, file.read_bytes if file and is_as_judged else None, change, is_in_lines)


def of_printed(night: Night, view: CatalogueView) -> Tested:
    """The same of a table that the program printed."""
    answer, name = night.answer, view.name
    rows = sum(by_lines.counted(block) for block in answer.blocks(name)) - (1 if answer.size(name) else 0)
    return Tested(view, Size(night.kept.rows.get(name), rows, night.changed[name]), lambda: printed_blocks(answer, name))


def printed_blocks(answer: Answer, name: str) -> Iterator[bytes]:
    """A table that the program printed, without its header."""
    return line_blocks(block[1:] for block in answer.blocks(name))


def row_in(records: Records, row: bytes) -> int:
    """The line of a row in a file."""
    count = rb"[0-9]+," if records.header.is_counted else b""
    found = re.search(rb"\n" + count + re.escape(row) + rb"\r?(?:\n|\Z)", records.content)
    if found and records.has_lines:
        return records.content.count(b"\n", 0, found.start()) + 2
    return records.lines.get(typed(row, records.view), 1)


def typed(row: bytes, view: CatalogueView) -> Row:
    """A row by its values."""
    cells = next(csv.reader(io.StringIO(row.decode(), newline="")), [""])
    return tuple(int(cell) if kind == "int" else cell for cell, (_, kind) in zip(cells, view.columns))


def place_in(folder: Folder, name: str, row: bytes) -> Place | None:
    """Where a row of a base view stands, in its changes or in its table; None of a derived view."""
    if name not in folder.data:
        return None
    records, changes = folder.data[name], folder.changes.get(name)
    values = typed(row, records.view)
    if changes and changes.rows.get(values, 0) > 0:
        return changes.place(values)
    return Place(records.file, row_in(records, row))


def of_folder(folder: Folder) -> list[Finding]:
    """What is told of the tests of base views over a folder without a fault, before its next night."""
    tables = {view.name: of_base(folder, view, False) for view in folder.bases}
    return Judge(tables.get, lambda name, row: place_in(folder, name, row)).findings(folder.catalogue.tests)


def of_night(night: Night) -> list[Finding]:
    """What is told of all tests over a night that was carried out, and is not decided."""
    folder, named = night.folder, {view.name: view for view in night.folder.views}
    made: dict[str, Tested] = {}
    is_judged = has_judged(folder.state)

    def table(name: str) -> Tested:
        if name not in made:
            view = named[name]
            made[name] = of_base(folder, view, is_judged) if view.is_base else of_derived(night, view, is_judged)
        return made[name]

    return Judge(table, lambda name, row: place_in(folder, name, row)).findings(folder.catalogue.tests)
