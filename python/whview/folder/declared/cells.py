"""Cells of CSV as values of the kinds that are declared, and back."""

from __future__ import annotations

import re
from collections.abc import Callable
from datetime import date, datetime
from decimal import Decimal
from typing import TypeAlias

from .said import Column

# What SQLite has of a cell.
Value: TypeAlias = int | float | str | None
TRUTHS = {"true": 1, "t": 1, "yes": 1, "1": 1, "false": 0, "f": 0, "no": 0, "0": 0}
WHOLE, NUMBER = re.compile(r"[+-]?[0-9]{1,19}"), re.compile(r"[+-]?[0-9]{1,30}(\.[0-9]{1,30})?")
MOMENT = re.compile(r"([0-9]{4}-[0-9]{2}-[0-9]{2})[ T]([0-9]{2}:[0-9]{2}:[0-9]{2})(?:\.([0-9]{1,6}))?")
MOST = 2**63 - 1


class Unlike(Exception):
    """A cell is no value of its kind; the text says what it should be."""


def value_of(cell: str, column: Column, null: str) -> Value:
    """The value of a cell."""
    if cell == null and not (column.is_filled and column.kind == "text"):
        if column.is_filled:
            raise Unlike("is never NULL")
        return None
    if column.kind == "text":
        return text_of(cell)
    return PARSERS[column.kind](cell, column)


def text_of(cell: str) -> str:
    """A text, which SQLite takes whole."""
    if "\0" in cell:
        raise Unlike("is a text without a NUL")
    return cell


def whole_of(cell: str, _: Column) -> int:
    """A whole number; the least of 64 bits stands for NULL where it is kept."""
    number = int(cell) if WHOLE.fullmatch(cell) else None
    if number is None or not -MOST <= number <= MOST:
        raise Unlike(f"is a whole number from {-MOST} to {MOST}")
    return number


def truth_of(cell: str, _: Column) -> int:
    """A truth value."""
    if cell.lower() not in TRUTHS:
        raise Unlike("is true or false")
    return TRUTHS[cell.lower()]


def number_of(cell: str, column: Column) -> float:
    """A number of so many digits and places."""
    number = Decimal(cell) if NUMBER.fullmatch(cell) else None
    if number is None or number != round(number, column.places) or abs(number) >= 10 ** (column.digits - column.places):
        raise Unlike(f"is a number of {column.digits} digits, {column.places} of them behind the point")
    return float(number)


def day_of(cell: str, _: Column) -> str:
    """A day."""
    try:
        if len(cell) == 10 and cell.isascii():
            return date.fromisoformat(cell).isoformat()
    except ValueError:
        pass
    raise Unlike("is a day, written 2026-11-28")


def moment_of(cell: str, _: Column) -> str:
    """A moment, with six places of a second or none."""
    found = MOMENT.fullmatch(cell)
    if found:
        day, time, places = found.groups()
        try:
            datetime.fromisoformat(f"{day} {time}")
            return f"{day} {time}" + (f".{places.ljust(6, '0')}" if (places or "").strip("0") else "")
        except ValueError:
            pass
    raise Unlike("is a moment, written 2026-11-28 14:30:00")


PARSERS: dict[str, Callable[[str, Column], Value]] = {"integer": whole_of, "boolean": truth_of, "numeric": number_of, "date": day_of, "timestamp": moment_of}


def cell_of(value: Value, column: Column, null: str) -> str:
    """A value as it is written."""
    if value is None:
        return null
    if column.kind == "boolean" and value in (0, 1):
        return "true" if value else "false"
    if column.kind == "numeric" and not isinstance(value, str):
        return f"{round(Decimal(repr(value)), column.places):.{column.places}f}"
    return repr(value) if isinstance(value, float) else str(value)
