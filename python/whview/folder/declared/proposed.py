"""A first catalogue in SQL of CSV files: each table with the kinds that its cells have, and places for views."""

from __future__ import annotations

from collections.abc import Collection, Iterator, Sequence
from typing import TYPE_CHECKING

from ...views.sqlite.reserved import in_quotes
from ..exports import free
from ..proposals import GENERAL, Summary, proposed, singular
from .cells import NUMBER, TRUTHS, Unlike, day_of, moment_of
from .said import Column as SaidColumn

if TYPE_CHECKING:
    from ..exports import Column, Export

# So many letters a name has, and so many digits a number; and how many digits more than the largest one has room.
LONGEST, MOST_DIGITS, ROOM = 47, 15, 3
WHOLES = ("0", "1")
HEAD = "-- Made by whview folder init: the tables with the kinds that their cells have, to be changed as they are wanted. An empty cell is NULL."
PLACE = "-- Views stand here, as you would write them for SQLite, such as"


def are_all(cells: Collection[str], parse: object) -> bool:
    """Whether all cells are values of a kind, as its parser says."""
    column = SaidColumn("", "")
    try:
        return all(parse(cell, column) is not None for cell in cells)  # type: ignore[operator]
    except Unlike:
        return False


def is_again(cell: str) -> bool:
    """Whether a number is written as it is read again: one with zeros before it, or a plus, may be a postcode."""
    whole = cell.lstrip("-").partition(".")[0]
    return NUMBER.fullmatch(cell) is not None and not cell.startswith("+") and (whole == "0" or not whole.startswith("0"))


def of_numbers(cells: Collection[str]) -> str | None:
    """The kind of numbers: whole ones of 64 bits, or those of so many places where their digits fit; else None."""
    parts = [cell.lstrip("-").partition(".") for cell in cells]
    whole, places = max(len(each[0]) for each in parts), max(len(each[2]) for each in parts)
    if not places:
        return "integer" if all(abs(int(cell)) < 2**63 for cell in cells) else None
    return f"numeric({min(MOST_DIGITS, whole + places + ROOM)}, {places})" if whole + places <= MOST_DIGITS else None


def kind_of(column: Column) -> str:
    """The kind that all cells of a column have, but for empty ones; a text is of any cells."""
    cells = column.values - {""}
    if not cells:
        return "text"
    if all(map(is_again, cells)):
        return of_numbers(cells) or "text"
    if all(cell.lower() in TRUTHS and cell not in WHOLES for cell in cells):
        return "boolean"
    return "date" if are_all(cells, day_of) else "timestamp" if are_all(cells, moment_of) else "text"


def key_of(table: Export) -> Column | None:
    """The column that tells the rows of a table apart, if its name or its place says so."""
    if table.is_counted or table.rows < 2:
        return None
    named = (*GENERAL[:5], f"{singular(table.name)}_id")
    return next((each for at, each in enumerate(table.columns) if each.is_key and (not at or each.name in named)), None)


def named_anew(tables: Sequence[Export]) -> None:
    """Gives tables and columns names that a catalogue in SQL may have."""
    taken: list[str] = []
    for table in tables:
        table.name = free(table.name[:LONGEST].rstrip("_") or "table", taken)
        taken.append(table.name)
        names: list[str] = []
        for column in table.columns:
            column.name = free(column.name[:LONGEST], names)
            names.append(column.name)


def table_lines(table: Export) -> Iterator[str]:
    """A table."""
    key = key_of(table)
    yield f"CREATE TABLE {in_quotes(table.name)} ("
    for at, column in enumerate(table.columns, 1):
        yield f"  {in_quotes(column.name)} {kind_of(column)}{' PRIMARY KEY' if column is key else ''}{',' if at < len(table.columns) else ''}"
    yield ");"


def example(summary: Summary) -> str:
    """A view of one table's groups."""
    sums = "".join(f", sum({in_quotes(name)}) AS {in_quotes(name)}" for name in summary.sums)
    group = in_quotes(summary.group)
    return f"CREATE VIEW {summary.name} AS SELECT {group}, count(*) AS n{sums} FROM {in_quotes(summary.over)} GROUP BY {group};"


def examples(tables: Sequence[Export]) -> list[str]:
    """A view for each table that has something to group by; or else how one is written."""
    found = [example(each) for table in tables for each in proposed([table]) if isinstance(each, Summary)]
    table = in_quotes(tables[0].name)
    return found or [f"CREATE VIEW all_of_{tables[0].name[:40]} AS SELECT count(*) AS n FROM {table};"]


def catalogue_text(tables: Sequence[Export]) -> str:
    """The catalogue: the tables, and places for views, which are comments."""
    lines = [HEAD]
    for table in tables:
        lines += ["", *table_lines(table)]
    return "\n".join([*lines, "", PLACE, *(f"-- {each}" for each in examples(tables)), ""])
