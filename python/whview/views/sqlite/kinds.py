"""The kinds of values that a catalogue of SQL declares, how SQLite has them, and how they are kept as whole numbers and texts."""

from __future__ import annotations

from dataclasses import dataclass

from ..asked import Judged
from ..kinds import NULL_NUMBER, Encoding

APART = r"CASE WHEN ltrim({x}, '\') = 'N' AND {x} <> 'N' THEN '\' || {x} ELSE {x} END"
AS_IT_WAS = r"CASE WHEN substr({k}, 1, 1) <> '\' THEN {k} WHEN {k} = '\N' THEN NULL WHEN ltrim({k}, '\') = 'N' THEN substr({k}, 2) ELSE {k} END"


@dataclass(frozen=True, slots=True)
class Kind:
    """A kind: its name; of a numeric the digits behind the point, and all of them where that is known. Of a column is said whether SQLite takes texts that look
    like numbers for numbers where they are compared with it, and whether it has whole numbers beside others."""

    name: str
    places: int = 0
    digits: int = 0
    is_loose: bool = False
    is_whole: bool = False

    @property
    def is_number(self) -> bool:
        return self.name in ("integer", "boolean", "numeric", "real")

    @property
    def is_text(self) -> bool:
        return self.name in ("text", "date", "timestamp")

    @property
    def affinity(self) -> str:
        """How SQLite declares a column of it."""
        return {"integer": "INTEGER", "boolean": "INTEGER", "numeric": "REAL", "real": "REAL"}.get(self.name, "TEXT")

    @property
    def shown(self) -> str:
        """It, as a catalogue declares it."""
        return f"numeric({self.digits or 18},{self.places})" if self.name == "numeric" else self.name


INTEGER, BOOLEAN, TEXT, DATE, TIMESTAMP = Kind("integer"), Kind("boolean"), Kind("text"), Kind("date"), Kind("timestamp")
REAL, NULL = Kind("real"), Kind("null")


def numeric(places: int, digits: int = 0) -> Kind:
    """A number of so many places."""
    return Kind("numeric", places, digits)


def judged(kind: Kind, is_strict: bool) -> Judged:
    """What is said of an expression of a kind that never fails: truth values are whole numbers in SQLite."""
    name = "number" if kind.is_whole else {"integer": "int8", "boolean": "int8"}.get(kind.name, kind.name)
    modifier = ((kind.digits or 15) << 16 | kind.places) + 4 if kind.name == "numeric" else -1
    return Judged(kind.shown, name, "b", modifier, True, None, None, frozenset(), False, False, is_strict, None, False)


def encoding(found: Judged) -> Encoding | None:
    """How values of a kind are kept, or None where they are not: floats."""
    null = f"'{NULL_NUMBER}'::bigint"
    if found.type == "int8":
        return Encoding("int", "({x})", f"nullif({{k}}, {null})", "", "whole", True)
    if found.type == "numeric" and found.digits:
        unit = 10 ** found.digits[1]
        return Encoding("int", f"CAST(round(({{x}}) * {unit}) AS bigint)", f"nullif({{k}}, {null}) / {unit}.0", "", f"numeric of {found.digits[1]}", True)
    if found.type in ("text", "date", "timestamp"):
        return Encoding("text", APART, AS_IT_WAS, "", "text")
    return None
