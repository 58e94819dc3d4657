"""The part of sizes: read by the rules of docs/FORMATS.md, with the first of its faults, and written."""

import csv
import re
from collections.abc import Iterable, Sequence
from typing import TypeAlias

ROWS = ("view", "pre", "post", "change")
WITH_WEIGHTS = (*ROWS, "weight")
MOST_ROWS, MOST_WEIGHT = 2**40, 1000
NUMBER = re.compile(r"[+-]?[0-9]+")


# A view's sizes: its rows before and after the night, how many change and, where the part has the column, its weight.
Size: TypeAlias = tuple[int, ...]


class BadSizes(ValueError):
    """The fault of a part of sizes, as it is printed."""


def is_number(cell: str) -> bool:
    return NUMBER.fullmatch(cell) is not None and -(2**63) <= int(cell) < 2**63


def is_fit(pre: int, post: int, change: int, weight: int = 1) -> bool:
    """Whether a record's numbers are in their ranges, and before and after no further apart than the change."""
    return all(0 <= rows <= MOST_ROWS for rows in (pre, post, change)) and abs(post - pre) <= change and 1 <= weight <= MOST_WEIGHT


def sizes_in(lines: Iterable[str], names: Sequence[str]) -> list[Size]:
    """The sizes of the views of these names, each three numbers of rows and, where the part has the column, the weight."""
    records = [cells for cells in csv.reader(lines) if cells]
    if not records or tuple(records[0]) not in (ROWS, WITH_WEIGHTS):
        raise BadSizes("fault header")
    found: dict[str, Size] = {}
    for number, record in enumerate(records[1:], 2):
        if len(record) != len(records[0]):
            raise BadSizes(f"fault csv {number}")
        name, *cells = record
        if name not in names or name in found:
            raise BadSizes(f"fault sizes {name}")
        if not all(map(is_number, cells)):
            raise BadSizes(f"fault number {number}")
        found[name] = tuple(map(int, cells))
        if not is_fit(*found[name]):
            raise BadSizes(f"fault sizes {name}")
    for name in names:
        if name not in found:
            raise BadSizes(f"fault sizes {name}")
    return [found[name] for name in names]


def part_of(names: Sequence[str], sizes: Sequence[Size]) -> str:
    """The part of these views' sizes, with the column of weights where the sizes have them."""
    header = ",".join(WITH_WEIGHTS[: 1 + max(map(len, sizes), default=3)])
    return "".join(f"{line}\n" for line in ["@sizes", header, *(f"{name},{','.join(map(str, size))}" for name, size in zip(names, sizes))])
