"""Cells of other programs that look like numbers or dates, and are written in another way: what they look like, and what to write."""

from __future__ import annotations

import re

# A whole number that is written as nights write it again: with zeros before it, or a plus, it is a text, such as a postcode.
WHOLE = re.compile(r"0|-?[1-9][0-9]{0,18}")
# Numbers with a comma at each third digit; with a part behind a point or a comma; and with both.
GROUPED, DECIMAL = re.compile(r"[+-]?[0-9]{1,3}(?:,[0-9]{3}){1,6}"), re.compile(r"[+-]?[0-9]+([.,])[0-9]+")
LONG = re.compile(r"[+-]?[0-9]{1,3}(?:(?:,[0-9]{3})+(\.)|(?:\.[0-9]{3})+(,))[0-9]+")
DATE = re.compile(r"([0-9]{4})-([0-9]{2})-([0-9]{2})([ T].*)?|[0-9]{1,2}[./][0-9]{1,2}[./][0-9]{4}")


def digits(cell: str) -> str:
    """A number without what stands between its digits."""
    return re.sub("[.,+]", "", cell)


def is_number(cell: str) -> bool:
    return any(form.fullmatch(cell) for form in (WHOLE, GROUPED, DECIMAL, LONG))


def parts_of(cell: str) -> int:
    """How many digits stand behind the last point or comma of a number."""
    return len(re.split("[.,]", cell)[-1])


def of_numbers(cells: set[str]) -> str:
    """What is told of numbers of which one at least is not whole, or has commas in it."""
    grouped = sorted(filter(GROUPED.fullmatch, cells))
    if all(WHOLE.fullmatch(cell) or GROUPED.fullmatch(cell) for cell in cells):
        return f"has commas within its numbers, so it is a text; write {digits(grouped[0])} for {grouped[0]} to add it up"
    amount = max(sorted(cell for cell in cells if not WHOLE.fullmatch(cell) and not GROUPED.fullmatch(cell)), key=parts_of)
    mark = "comma" if re.findall("[.,]", amount)[-1] == "," else "point"
    return f"has parts behind the {mark}, so it is a text; keep cents, such as {digits(amount)} for {amount}, to add it up"


def of_dates(cells: set[str]) -> str:
    """What is told of dates."""
    known = next(filter(None, map(DATE.match, sorted(cells))))
    example = f", such as {''.join(known.groups()[:3])} for {known[0]}," if known[1] and not known[4] else ""
    return f"has dates as texts, which compare for equality alone; write them as yyyymmdd{example} to sort them"


def told(cells: set[str]) -> str:
    """What is told of the texts of a column, but for empty cells, where they look like numbers or dates; else an empty text."""
    if all(map(is_number, cells)) and not all(map(WHOLE.fullmatch, cells)):
        return of_numbers(cells)
    return of_dates(cells) if all(map(DATE.fullmatch, cells)) else ""


def cure(cell: str) -> str:
    """What is often meant by a cell that is no whole number, or an empty text."""
    if GROUPED.fullmatch(cell):
        return f"write {digits(cell)}"
    if DECIMAL.fullmatch(cell) or LONG.fullmatch(cell):
        return "keep cents"
    return ""
