"""The first rows that a night changed in a view, each old row beside the new one that took its place."""

from __future__ import annotations

import csv
import io
import os
import re
from collections import Counter
from collections.abc import Iterable, Iterator, Mapping, Sequence
from pathlib import Path
from typing import TYPE_CHECKING, NamedTuple, TypeAlias

from ... import program
from ...bundle import part_pieces
from ...finding import MARK, Failure
from ..reading import records, value_of
from ..stored import Stored, in_answer, of_one
from ..strategy import at_once, written

if TYPE_CHECKING:
    from ...catalogue.from_toml import CatalogueView
    from ...catalogue.views import Cell, Column, Row
    from ..command import Words
    from .facts import Night

FIRST, CANDIDATES = 8, 400
# The first line that is not empty, and its end.
HEADER = re.compile(rb"[\r\n]*([^\r\n]*)[\r\n]*")


# How often each row stands before and after, where both differ.
Counts: TypeAlias = "dict[Row, list[int]]"


class CountedRow(NamedTuple):
    """A row, and how often it counts."""

    row: Row
    times: int


class Pair(NamedTuple):
    """An old row and the new one beside it, of which one may be missing."""

    old: CountedRow | None
    new: CountedRow | None

    @property
    def rows(self) -> list[Row]:
        """Those that are there."""
        return [each.row for each in self if each]


class Lines(NamedTuple):
    """Records of a table, and whether they begin with counts."""

    records: Iterable[bytes]
    is_counted: bool


class Changed(NamedTuple):
    """The first changed rows in pairs; how many rows differ in all; and where the tables were compared how many rows there were, and how many
    left and came, each as often as it counts.
    """

    pairs: list[Pair]
    differ: int
    before: int = 0
    moved: int = 0


def rows_of(lines: Iterable[bytes], columns: Sequence[Column], is_counted: bool = True) -> Iterator[CountedRow]:
    """The rows that these records are, with their counts."""
    text = "\n".join(line.decode(errors="replace") for line in lines)
    for record in filter(None, csv.reader(io.StringIO(text, newline=""))):
        count = int(record.pop(0)) if is_counted else 1
        yield CountedRow(tuple(value_of(cell, kind) for cell, (_, kind) in zip(record, columns)), count)


def is_written(content: bytes) -> bool:
    """Whether a table is as nights write it, so that a line of two tables is a row with one count."""
    return content.startswith((b"#,", b"#\n")) and b"\r" not in content


def header_of(content: bytes) -> list[str]:
    """The header of a table."""
    found = HEADER.match(content.removeprefix(MARK))
    return next(csv.reader([found[1].decode(errors="replace")] if found else []), [])


def names_in(content: bytes) -> list[str]:
    """The columns of a table, without that of the counts."""
    header = header_of(content)
    return header[header[:1] == ["#"] :]


def below(content: bytes) -> list[bytes]:
    """What stands below the header of a table that no night wrote, whose lines may end in any way, in one piece."""
    found = HEADER.match(content)
    return [content[found.end() if found else 0 :]]


def differences(before: bytes, after: bytes, columns: Sequence[Column]) -> Counts:
    """The rows whose counts differ between the texts of two tables."""
    contents = [content.removeprefix(MARK) for content in (before, after)]
    old, new = (records(content) if is_written(content) else below(content) for content in contents)
    are_counted = [header_of(content)[:1] == ["#"] for content in contents]
    if all(map(is_written, contents)):
        return by_rows(Lines(set(old) - set(new), are_counted[0]), Lines(set(new) - set(old), are_counted[1]), columns)
    return by_rows(Lines(old, are_counted[0]), Lines(new, are_counted[1]), columns)


def by_rows(before: Lines, after: Lines, columns: Sequence[Column]) -> Counts:
    """The rows whose counts differ between two tables' lines."""
    found: Counts = {}
    for row, count in rows_of(before.records, columns, before.is_counted):
        found.setdefault(row, [0, 0])[0] += count
    for row, count in rows_of(after.records, columns, after.is_counted):
        found.setdefault(row, [0, 0])[1] += count
    return {row: counts for row, counts in found.items() if counts[0] != counts[1]}


def differing(before: Stored, after: Stored, columns: Sequence[Column]) -> Counts:
    """The same of two stored tables, of which little is held where their records are lines."""
    if before.is_in_lines and after.is_in_lines:
        old, new = of_one(before, after), of_one(after, before)
        if old is not None and new is not None:
            return by_rows(Lines(old, True), Lines(new, True), columns)
    return differences(before.read(), after.read(), columns)


def of_changes(files: Iterable[Path], columns: Sequence[Column]) -> Counts:
    """What files of changes add up to: a row that leaves was there as often, and one that comes is there afterwards."""
    found: Counter[Row] = Counter()
    for row, count in (each for file in files for each in rows_of(below(file.read_bytes()), columns)):
        found[row] += count
    return {row: [max(-count, 0), max(count, 0)] for row, count in found.items() if count}


def alike(one: Row, other: Row) -> int:
    """How many cells of two rows are the same."""
    return sum(left == right for left, right in zip(one, other))


def partner(row: Row, others: Iterable[Row], groups: int | None) -> Row | None:
    """The row that stands beside one that left: of a summary that of its group, otherwise the one most like it, of which a third of the
    cells may differ, and one in any case."""
    if groups is not None:
        return next((other for other in others if other[:groups] == row[:groups]), None)
    best = max(others, key=lambda other: alike(row, other), default=None)
    return best if best is not None and len(row) - alike(row, best) <= max(1, len(row) // 3) < len(row) else None


def by_value(row: Row) -> list[tuple[bool, Cell]]:
    """What rows are sorted by; a column that was a text before stands behind numbers."""
    return [(isinstance(cell, str), cell) for cell in row]


def paired(found: Counts, groups: int | None) -> list[Pair]:
    """Pairs of an old and a new row, by what they show. A row of which more or fewer are there stands on both sides."""
    rows = sorted(found, key=by_value)[:CANDIDATES]
    coming = [row for row in rows if not found[row][0]]
    pairs: list[Pair] = []
    for row in rows:
        before, after = found[row]
        if not before:
            continue
        other = row if after else partner(row, coming, groups)
        if other in coming:
            coming.remove(other)
        pairs.append(Pair(CountedRow(row, before), None if other is None else CountedRow(other, found[other][1])))
    pairs += [Pair(None, CountedRow(row, found[row][1])) for row in coming]
    return sorted(pairs, key=lambda pair: by_value(pair.rows[0]))


def found_in(night: Night, view: CatalogueView, opening: Mapping[str, Stored]) -> Counts | None:
    """The rows of a view that differ, with their counts before and after, or None where they cannot be told any more."""
    before, after, files = night.table_before(view), night.table_after(view), night.changes(view)
    if before and os.path.samefile(before, after):
        return {}
    old, new = opening.get(view.name) or (Stored.of(before) if before else None), Stored.of(after)
    if old is not None:
        return differing(old, new, view.columns) if names_in(old.begin()) == names_in(new.begin()) else None
    return of_changes(files, view.columns) if files else None


def compared(night: Night, view: CatalogueView) -> Changed | None:
    """What differs of a view that was computed anew, from the version before, which may have had no such view; None where that version is
    gone. Where the columns are others all rows differ.
    """
    if not night.before:
        return None
    before, new = night.table_before(view), Stored.of(night.table_after(view))
    # Of a view that is new the table before has the header alone.
    old = Stored.of(before) if before else Stored(new.file, 0, new.begin().find(b"\n") + 1)
    rows = old.rows
    if names_in(old.begin()) != names_in(new.begin()):
        return Changed([], rows + new.rows, rows, rows + new.rows)
    found = differing(old, new, view.columns)
    return Changed(paired(found, groups_of(view))[:FIRST], len(found), rows, sum(abs(now - then) for then, now in found.values()))


def groups_of(view: CatalogueView) -> int | None:
    """How many columns of a summary name the group of a row; None of other views."""
    return None if view.is_base or "keep" in view.table else len(view.table["group"])


def changed(night: Night, view: CatalogueView, opening: Mapping[str, Stored]) -> Changed | None:
    """The first rows of a view that a night changed, or None. `opening` has tables of before the night that no version has."""
    if night.told.anew and not view.is_base:
        return compared(night, view)
    found = found_in(night, view, opening)
    return None if found is None else Changed(paired(found, groups_of(view))[:FIRST], len(found))


def opening(night: Night, words: Words) -> dict[str, Stored]:
    """The derived views' tables before a night, where the version before it has none, or those of other definitions: a night without
    changes makes them. None of them where the program gives none.
    """
    derived = [view for view in night.views if not view.is_base]
    without = [view for view in derived if night.told.anew or not night.table_before(view) and not night.changes(view)]
    bases = [view for view in night.views if view.is_base]
    tables = {view.name: file for view in bases if (file := night.table_before(view))}
    if not without or len(tables) < len(bases):
        return {}
    try:
        printed = program.done(words.program, "night", bundle_of(night, tables))
    except Failure:
        return {}
    names = [view.name for view in derived]
    found = in_answer(printed, names)
    if found is None:
        found = {name: Stored(printed, *place) for name, place in program.Night(printed, 0, names).places.items()}
    return {view.name: found[view.name] for view in without if view.name in found}


def bundle_of(night: Night, tables: Mapping[str, Path]) -> Iterator[bytes]:
    """The bundle of a night without changes, piece by piece."""
    yield from part_pieces("catalogue", night.catalogue.content)
    yield from part_pieces("strategy", written(at_once(night.views)).encode())
    for name, path in tables.items():
        yield from part_pieces(f"data {name}", path.read_bytes())
