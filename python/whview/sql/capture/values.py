"""What columns and expressions of an application's views hold, and how they are written in a catalogue."""

from __future__ import annotations

import re
from datetime import date, datetime, timezone
from typing import NamedTuple

from ..dialect import LEAST, MOST
from .bounded import ANY, Ends, Written
from .parsed import NotTaken
from .turned import MOMENT_FORM, NUMBER_FORM, Told

NAME = re.compile(r"[A-Za-z_][A-Za-z0-9_]{0,63}")
WHOLE, TEXT, DAY, MOMENT, ZONED = "number", "text", "day", "moment", "moment with a zone"
MOMENTS = (MOMENT, ZONED)
# A moment of SQLite that is written otherwise than there by itself.
WRITTEN = f"{MOMENT} written as "
CASTS = {
    **dict.fromkeys(("smallint", "integer", "bigint", "int", "int2", "int4", "int8", "numeric", "decimal"), WHOLE),
    **dict.fromkeys(("text", "character varying", "varchar", "bpchar", "uuid"), TEXT),
    "date": DAY,
    **dict.fromkeys(("timestamp", "timestamp without time zone"), MOMENT),
    **dict.fromkeys(("timestamptz", "timestamp with time zone"), ZONED),
}
# What no column is taken for that is cast to it: texts that are equal by it are not so to the byte.
OF_LITERALS = ("bpchar", "uuid")


class Column(NamedTuple):
    """A column of a view that is taken: its name, what it holds, of numbers how many places, whether a sentinel may stand there, its least and
    largest number, and whether the database has it to the last digit."""

    name: str
    holds: str
    places: int = 0
    may_be_null: bool = False
    bounds: Ends = ANY
    is_exact: bool = True

    @property
    def kind(self) -> str:
        return "text" if self.holds == TEXT else "int"


class Value(NamedTuple):
    """An expression as a catalogue has it, what it holds and how many places; the references in it that may be NULL; whether it is one; and
    whether the database computes it to the last digit."""

    formula: Written
    holds: str
    places: int = 0
    nulls: frozenset[str] = frozenset()
    is_reference: bool = False
    is_exact: bool = True

    @property
    def text(self) -> str | None:
        """What is said, where it is a text that is written."""
        return self.formula["text"] if isinstance(self.formula, dict) else None

    @property
    def reference(self) -> str:
        """The column that it is."""
        if not isinstance(self.formula, str):
            raise NotTaken(f"it has {shown(self.formula)} where a column is wanted")
        return self.formula


def holds(told: Told) -> str | None:
    """What a column of the application's holds, once it is turned."""
    said, form = told.type.lower(), told.form or ""
    if form == NUMBER_FORM:
        return None
    if "timestamp" in said or "datetime" in said:
        is_other = MOMENT_FORM.fullmatch(form) and ("T" in form or "Z" in form)
        return ZONED if said == "timestamptz" else WRITTEN + (form if "Z" in form else form[:19]) if is_other else MOMENT
    return DAY if "date" in said else None


def is_moment(held: str) -> bool:
    """Whether it is a moment, however that is written."""
    return held in MOMENTS or held.startswith(WRITTEN)


def form_wanted(held: str) -> re.Pattern[str] | None:
    """How a text has to be written that is compared with what a column holds, or None."""
    return re.compile(re.escape(held.removeprefix(WRITTEN)).replace("0", r"\d")) if held.startswith(WRITTEN) else FORMS.get(held)


def days(said: str) -> int:
    """A day as a number."""
    return (date.fromisoformat(said.strip()[:10]) - date(1970, 1, 1)).days


def seconds(said: str) -> int:
    """A moment as a number."""
    moment = datetime.fromisoformat(said.strip())
    moment = moment if moment.tzinfo else moment.replace(tzinfo=timezone.utc)
    if moment.microsecond:
        raise NotTaken(f"it compares with {said}, which is no whole second")
    return int(moment.timestamp())


# How a day or a moment is written where its text is compared as its time is.
TIME = r"\d{4}-\d\d-\d\d \d\d:\d\d:\d\d"
FORMS = {DAY: re.compile(r"\d{4}-\d\d-\d\d"), MOMENT: re.compile(TIME), ZONED: re.compile(TIME + r"[+-]\d\d(:\d\d)?")}


def literal(said: str, wanted: str) -> Value:
    """A text as what it is compared with."""
    try:
        form = form_wanted(wanted)
        if form and not form.fullmatch(said):
            raise NotTaken(f"it compares with {said!r}, which is not written as a {wanted}")
        if wanted == DAY:
            return Value(days(said), DAY)
        if is_moment(wanted):
            return Value(seconds(said), wanted)
        whole, _, places = said.strip().partition(".")
        return Value(int(whole + places), WHOLE, len(places))
    except ValueError as fault:
        raise NotTaken(f"it compares with {said!r}, which is no {wanted}") from fault


def scaled(value: Value, places: int) -> Written:
    """A number with so many places."""
    if places == value.places:
        return value.formula
    unit = 10 ** (places - value.places)
    return value.formula * unit if isinstance(value.formula, int) else ["*", value.formula, unit]


def shown(formula: Written) -> str:
    """An expression in words."""
    if isinstance(formula, list):
        sign, *sides = formula
        return f" {sign} ".join(f"({shown(side)})" if isinstance(side, list) and (sign, side[0]) != ("*", "*") else shown(side) for side in sides)
    return str(formula)


def is_wide(value: Written) -> bool:
    """Whether a formula has a number that leaves 64 bits."""
    if isinstance(value, list):
        return any(map(is_wide, value))
    return isinstance(value, int) and not LEAST <= value <= MOST
