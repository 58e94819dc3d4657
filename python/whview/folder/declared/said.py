"""What a catalogue in SQL was taken apart into, as a folder keeps it for nights and readers: these want no parser."""

from __future__ import annotations

import json
from collections.abc import Mapping
from dataclasses import asdict, dataclass
from hashlib import sha256
from pathlib import Path
from typing import Any

HOME, CATALOGUE = ".taken", "catalogue.toml"


@dataclass(frozen=True, slots=True)
class Column:
    """A column of a table or a view: its name, its kind, of a number its digits and places, and whether it is always there."""

    name: str
    kind: str
    digits: int = 0
    places: int = 0
    is_filled: bool = False


@dataclass(frozen=True, slots=True)
class Expression:
    """A column of a mirror: its name, whether a whole number or a text is kept, and what it is of a row r."""

    name: str
    kind: str
    text: str


@dataclass(frozen=True, slots=True)
class SaidTable:
    """A declared table, the mirror that keeps it, and what that computes; and which cell stands for NULL."""

    name: str
    mirror: str
    null: str
    columns: tuple[Column, ...]
    expressions: tuple[Expression, ...]


@dataclass(frozen=True, slots=True)
class SaidView:
    """A view as it is read: its query, the tables that this is over, and its columns."""

    name: str
    query: str
    over: tuple[str, ...]
    columns: tuple[Column, ...]


@dataclass(frozen=True, slots=True)
class Said:
    """All of a catalogue: the sum of its text, and that of the inner catalogue, by which versions know it."""

    text: str
    inner: str
    tables: tuple[SaidTable, ...]
    views: tuple[SaidView, ...]

    @property
    def null(self) -> str:
        """The cell that stands for NULL in views: that of the tables, where it is the same in all, and else an empty one."""
        words = {each.null for each in self.tables}
        return words.pop() if len(words) == 1 else ""


def sum_of(content: bytes) -> str:
    """By what a text is known."""
    return sha256(content).hexdigest()


def said_of(told: Mapping[str, Any]) -> Said:
    """What a file says."""
    tables = tuple(
        SaidTable(each["name"], each["mirror"], each["null"], tuple(Column(**column) for column in each["columns"]), tuple(Expression(**found) for found in each["expressions"]))
        for each in told["tables"]
    )
    views = tuple(SaidView(each["name"], each["query"], tuple(each["over"]), tuple(Column(**column) for column in each["columns"])) for each in told["views"])
    return Said(told["text"], told["inner"], tables, views)


def is_taken(inner: Path) -> bool:
    """Whether an inner folder keeps what a catalogue in SQL was taken apart into."""
    return (inner / HOME).is_dir()


def put_said(inner: Path, said: Said) -> None:
    """Notes it, by the sum of the inner catalogue."""
    (inner / HOME).mkdir(parents=True, exist_ok=True)
    place = inner / HOME / f"{said.inner}.json"
    part = place.with_suffix(".new")
    part.write_text(json.dumps(asdict(said), indent=1, ensure_ascii=False))
    part.replace(place)


def said_by(inner: Path, catalogue: Path) -> Said | None:
    """What belongs to an inner catalogue, or None where there is none, or nothing is noted of it."""
    if not catalogue.is_file():
        return None
    place = inner / HOME / f"{sum_of(catalogue.read_bytes())}.json"
    return said_of(json.loads(place.read_text())) if place.is_file() else None
