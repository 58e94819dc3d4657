"""How rows are written: as CSV, as one JSON object, as a JSON object in each line, or as a table for eyes. Each form is made piece by piece."""

from __future__ import annotations

import json
import re
from collections.abc import Callable, Iterable, Iterator, Mapping, Sequence
from enum import StrEnum
from itertools import chain, islice
from typing import TypeAlias, TypeVar

from ..finding import Failure, nearest
from ..status import BAD_WORDS
from .written import text_of

# A cell that is written: SQLite has numbers with a point too, and cells without a value.
Shown: TypeAlias = int | float | str | None
ShownRow: TypeAlias = Sequence[Shown]
# What stands in a JSON object beside its rows.
About: TypeAlias = Mapping[str, int | str | None]


class Form(StrEnum):
    """How rows are written: `LINES` is a JSON object in each line, `TABLE` for eyes."""

    CSV = "csv"
    JSON = "json"
    LINES = "jsonl"
    TABLE = "table"
    PARQUET = "parquet"


# Those that are text.
FORMS = (Form.CSV, Form.JSON, Form.LINES, Form.TABLE)
# How many rows are written at a time; by those of the first time the widths of a table for eyes are found, up to so many letters.
AT_A_TIME, WIDEST = 500, 60
# What writes a text as JSON has it, letters of all languages as they are.
quoted = json.JSONEncoder(ensure_ascii=False).encode
Item = TypeVar("Item")
# Letters that a terminal would obey or that turn the direction of a line.
CONTROLS = re.compile("[\x00-\x1f\x7f-\x9f\u061c\u200e\u200f\u2028-\u202e\u2066-\u2069]")


def form_of(word: str, what: str = "--format", forms: tuple[Form, ...] = FORMS) -> Form:
    """A form by its name."""
    if word not in forms:
        raise Failure(BAD_WORDS, f"{what} is {', '.join(forms[:-1])} or {forms[-1]}, and not {word[:40]!r}{nearest(word, forms)}")
    return Form(word)


def batches(rows: Iterable[Item]) -> Iterator[list[Item]]:
    """The rows, some at a time."""
    rows = iter(rows)
    while batch := list(islice(rows, AT_A_TIME)):
        yield batch


def as_value(cell: Shown) -> str:
    """A cell as JSON has it."""
    return quoted(cell) if isinstance(cell, str) else json.dumps(cell)


def object_writer(names: Iterable[str]) -> Callable[[ShownRow], str]:
    """What writes a row as a JSON object."""
    keys = [f"{quoted(name)}: " for name in names]
    return lambda row: "{" + ", ".join([key + (str(cell) if type(cell) is int else as_value(cell)) for key, cell in zip(keys, row)]) + "}"


def as_csv(names: Sequence[str], rows: Iterable[ShownRow]) -> Iterator[str]:
    yield text_of([names])
    yield from map(text_of, batches(rows))


def as_lines(names: Sequence[str], rows: Iterable[ShownRow]) -> Iterator[str]:
    """A JSON object in each line."""
    return (found + "\n" for found in map(object_writer(names), rows))


def as_json(names: Sequence[str], rows: Iterable[ShownRow], about: About) -> Iterator[str]:
    """One JSON object with what it is about, and its rows, each in a line."""
    yield json.dumps({**about, "rows": []}, ensure_ascii=False).removesuffix("]}")
    between = "\n"
    for found in map(object_writer(names), rows):
        yield between + found
        between = ",\n"
    yield "\n]}\n"


# ---- for eyes


def shown(cell: Shown) -> str:
    """A cell in one line, with what a terminal would obey in numbers."""
    return CONTROLS.sub(lambda found: f"\\u{ord(found[0]):04x}", "" if cell is None else str(cell))


def as_table(names: Sequence[str], rows: Iterable[ShownRow]) -> Iterator[str]:
    """Columns below each other, numbers at the right; a cell that is wider than those of the first rows moves what is behind it."""
    widths: list[int] | None = None
    header: list[ShownRow] = [names]
    for batch in batches(chain(header, rows)):
        cells = [tuple(map(shown, row)) for row in batch]
        if widths is None:
            widths = [min(max(map(len, column)), WIDEST) for column in zip(*cells)]
            yield line(cells.pop(0), widths, names) + line(tuple("-" * width for width in widths), widths, names)
            batch = batch[1:]
        yield "".join(line(*each) for each in zip(cells, [widths] * len(cells), batch))


def line(cells: Iterable[str], widths: Iterable[int], row: Iterable[Shown]) -> str:
    """A row of a table for eyes."""
    numbers = (isinstance(value, (int, float)) for value in row)
    return "  ".join(cell.rjust(width) if is_number else cell.ljust(width) for cell, width, is_number in zip(cells, widths, numbers)).rstrip() + "\n"


def written(form: Form, names: Sequence[str], rows: Iterable[ShownRow], about: About) -> Iterator[str]:
    """The rows in a form, in pieces."""
    if form == Form.JSON:
        return as_json(names, rows, about)
    return {Form.CSV: as_csv, Form.LINES: as_lines, Form.TABLE: as_table}[form](names, rows)
