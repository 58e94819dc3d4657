"""Columns that come to a base view whose table was kept without them: what its rows that stand have in them, by the key `fill`."""

from __future__ import annotations

import csv
import io
from collections.abc import Iterable, Mapping, Sequence
from typing import TYPE_CHECKING, NamedTuple

from ..finding import MARK, nearest
from .numbers import MOST
from .written import text_of

if TYPE_CHECKING:
    from ..catalogue.from_toml import CatalogueView
    from ..catalogue.views import Cell

KEY = "fill"


class Filled(NamedTuple):
    """A kept table with its new columns, and their names."""

    content: bytes
    columns: list[str]


def faults(view: CatalogueView) -> Iterable[str]:
    """What is wrong with the key of a base view whose columns are known."""
    given, kinds = view.table.get(KEY, {}), dict(view.columns)
    if not isinstance(given, dict):
        yield 'fill has a value for each new column, such as fill = {kind = "none"}'
        return
    for name, value in given.items():
        is_number = type(value) is int and -MOST <= value < MOST
        if name not in kinds:
            yield f"fill has a value for {name}, and there is no such column{nearest(name, list(kinds))}"
        elif kinds[name] == "int" and not is_number:
            yield f"fill has {value!r} for {name}, which is a whole number of 64 bits"
        elif kinds[name] == "text" and not isinstance(value, str):
            yield f'fill has {value!r} for {name}, which is a text, such as "{value}"'


def new_columns(view: CatalogueView, had: Sequence[str]) -> list[str]:
    """The columns of a view that a table had not, where those that it had stand in the same order; else none."""
    names = [name for name, _ in view.columns]
    is_grown = had and [name for name in names if name in had] == had
    return [name for name in names if name not in had] if is_grown else []


def example(view: CatalogueView, columns: Iterable[str]) -> str:
    """How the key is written for these columns."""
    kinds = dict(view.columns)
    return "fill = {" + ", ".join(f"{name} = 0" if kinds[name] == "int" else f'{name} = ""' for name in columns) + "}"


def filled(content: bytes, view: CatalogueView) -> Filled | None:
    """A kept table with its new columns; None of one that has all columns, or whose new ones have no value."""
    if not view.table.get(KEY) or has_all(content, view):
        return None
    try:
        reader = csv.reader(io.StringIO(content.removeprefix(MARK).decode(), newline=""), strict=True)
        header: list[str] = next(filter(None, reader), [])
        had, given = header[header[:1] == ["#"] :], view.table.get(KEY, {})
        new = new_columns(view, had)
        if not new or not isinstance(given, dict) or any(name not in given for name in new):
            return None
        return Filled(table_of(header, reader, [name for name, _ in view.columns], given), new)
    except (UnicodeDecodeError, csv.Error):
        return None


def has_all(content: bytes, view: CatalogueView) -> bool:
    """Whether it is seen by the first line that a table has all columns."""
    names = ",".join(name for name, _ in view.columns)
    return content[: content.find(b"\n")].removeprefix(MARK).rstrip(b"\r") in (names.encode(), f"#,{names}".encode())


def table_of(header: list[str], reader: Iterable[list[str]], names: list[str], given: Mapping[str, Cell]) -> bytes:
    """The records behind a header with the columns of these names, of which those that it has not have the values that are given. A record
    of another length stays, so that it is found.
    """
    names = header[: len(header) - len(set(header) & set(names))] + names
    places: list[tuple[int | None, Cell]] = [(header.index(name), "") if name in header else (None, given[name]) for name in names]

    def grown(record: list[str]) -> Sequence[Cell]:
        if len(record) != len(header):
            return record
        return [value if place is None else record[place] for place, value in places]

    return text_of([names, *map(grown, filter(None, reader))]).encode()
