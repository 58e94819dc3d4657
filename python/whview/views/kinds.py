"""How a value of each type is kept as a whole number or a text, and read back: to the bit, with NULL a value of its own."""

from __future__ import annotations

import re
from dataclasses import dataclass, replace

from .asked import Judged

NULL_NUMBER, LAST, FIRST = -(2**63), 2**63 - 2, 1 - 2**63
MOST_DIGITS = 18
# A text with one backslash more where it would be taken for NULL, and one without it again.
APART = r"CASE WHEN ltrim({x}, '\') = 'N' AND {x} <> 'N' THEN '\' || {x} ELSE {x} END"
AS_IT_WAS = r"CASE WHEN left({k}, 1) <> '\' THEN {k} WHEN {k} = '\N' THEN NULL WHEN ltrim({k}, '\') = 'N' THEN substr({k}, 2) ELSE {k} END"
# Moments count from 2000, as the server has them: from 1970 the last of them would leave 64 bits.
MOMENT = (
    "CASE WHEN isfinite({x}) THEN ((extract(epoch FROM {x}) - 946684800) * 1000000)::bigint WHEN {x} > '2000-01-01'::{type} THEN {last}"
    " WHEN {x} < '2000-01-01'::{type} THEN {first} END"
)
MOMENT_AGAIN = (
    "CASE {k} WHEN {null} THEN NULL WHEN {last} THEN 'infinity'::timestamp WHEN {first} THEN '-infinity'::timestamp"
    " ELSE '2000-01-01'::timestamp + make_interval(0, 0, 0, ({k} / 86400000000)::integer) + ({k} % 86400000000) * '00:00:00.000001'::interval END"
)
DAY = "CASE WHEN isfinite({x}) THEN ({x} - '2000-01-01'::date)::bigint WHEN {x} > '2000-01-01'::date THEN {last} WHEN {x} < '2000-01-01'::date THEN {first} END"
DAY_AGAIN = "CASE {k} WHEN {null} THEN NULL WHEN {last} THEN 'infinity'::date WHEN {first} THEN '-infinity'::date ELSE '2000-01-01'::date + {k}::integer END"
UNITS = "CASE WHEN {x} = 'NaN'::numeric THEN {last} ELSE ({x} * {unit}::numeric)::bigint END"
UNITS_AGAIN = "CASE {k} WHEN {null} THEN NULL WHEN {last} THEN 'NaN'::numeric ELSE {k}::numeric * {part}::numeric END"
# A double by its bits, in its order, with one zero and one NaN; where the sign is set the rest counts downwards.
BITS = (
    "CASE WHEN {x} = 0 THEN 0 WHEN {x} = 'NaN'::double precision THEN '9221120237041090560'::bigint WHEN {x} < 0 THEN {null} - {bits} ELSE {bits} END"
).replace("{bits}", "('x' || encode(float8send(({x})::double precision), 'hex'))::bit(64)::bigint")
BITS_AGAIN = (
    "CASE WHEN {k} = {null} THEN NULL WHEN {k} = '9221120237041090560'::bigint THEN 'NaN'::double precision ELSE (CASE (abs({k}) >> 52)"
    " WHEN 2047 THEN 'infinity'::double precision WHEN 0 THEN abs({k})::double precision * '4.9406564584124654e-324'::double precision"
    " ELSE ((abs({k}) & 4503599627370495) + 4503599627370496)::double precision * power(2::double precision, (abs({k}) >> 52) - 1075) END)"
    " * CASE WHEN {k} < 0 THEN -1 ELSE 1 END END"
)
SPAN = (
    "concat(extract(year FROM {x}) * 12 + extract(month FROM {x}), ' months ', extract(day FROM {x}), ' days ',"
    " (extract(hour FROM {x}) * 3600 + extract(minute FROM {x}) * 60) * 1000000 + extract(microsecond FROM {x}), ' microseconds')"
)
WHOLES = ("int2", "int4", "int8")
TEXTS = ("text", "varchar")
# Types that are written in one way each, whatever is set, and read back from it; equal ones are written alike.
WRITTEN = frozenset(("uuid", "inet", "cidr", "macaddr", "macaddr8", "name", "oid", "time", "bit", "varbit", "pg_lsn", "xid8"))
# The same, of which equal ones may be written otherwise.
LOOSE = frozenset(("numeric", "json", "jsonb", "tsvector", "xml", "int4range", "int8range", "numrange"))
ELEMENTS = frozenset((*WHOLES, "text", "varchar", "bool", "uuid", "numeric", "inet"))


@dataclass(frozen=True, slots=True)
class Encoding:
    """How an expression x is kept as a whole number or a text, and read back from that as k. `family` says with what it can be joined; values are equal
    exactly where they are kept alike, if it has one. `is_ordered` says that they come in the order of what is kept."""

    kind: str
    encode: str
    decode: str
    type: str
    family: str | None
    is_ordered: bool = False
    collation: str | None = None

    @property
    def null(self) -> str:
        return f"'{NULL_NUMBER}'::bigint" if self.kind == "int" else r"'\N'::text"

    def kept(self, expression: str, is_filled: bool = False) -> str:
        """What is kept of an expression; it is written as often as it is needed."""
        made = filled(self.encode, f"({expression})")
        return made if is_filled else f"coalesce({made}, {self.null})"

    @property
    def without_modifier(self) -> Encoding:
        """The same as what a function makes of it."""
        return replace(self, type=re.sub(r"\([^)]*\)", "", self.type))

    def read(self, kept: str) -> str:
        """What it was, cast to its type where it has one."""
        if not self.type:
            return f"({filled(self.decode, kept)})"
        collation = f" COLLATE {self.collation}" if self.collation else ""
        return f"({filled(self.decode, kept)})::{self.type}{collation}"


def filled(template: str, said: str) -> str:
    """A template with its numbers, and with an expression in it."""
    whole = {"last": LAST, "first": FIRST, "null": NULL_NUMBER}
    for name, number in whole.items():
        template = template.replace("{" + name + "}", f"'{number}'::bigint")
    return template.replace("{x}", said).replace("{k}", said)


def plain_text(encode: str, judged: Judged, family: str | None, decode: str = r"nullif({k}, '\N')") -> Encoding:
    """What is written as a text."""
    return Encoding("text", encode, decode, judged.shown, family)


def of_number(judged: Judged) -> Encoding | None:
    """Whole numbers, truth values and numerics whose digits fit."""
    if judged.type in WHOLES:
        return Encoding("int", "({x})::bigint", "nullif({k}, {null})", judged.shown, "whole", True)
    if judged.type == "bool":
        decode = "CASE {k} WHEN 1 THEN TRUE WHEN 0 THEN FALSE END"
        return Encoding("int", "({x})::integer::bigint", decode, judged.shown, "bool", True)
    digits = judged.digits
    if digits and 0 <= digits[1] <= digits[0] <= MOST_DIGITS:
        unit, part = f"'{10 ** digits[1]}'", f"'{part_of(digits[1])}'"
        encode, decode = UNITS.replace("{unit}", unit), UNITS_AGAIN.replace("{part}", part)
        return Encoding("int", encode, decode, judged.shown, f"numeric of {digits[1]}", True)
    return None


def part_of(places: int) -> str:
    """One unit of so many places."""
    return "0." + "0" * (places - 1) + "1" if places else "1"


def of_time(judged: Judged) -> Encoding | None:
    """Days and moments."""
    if judged.type == "date":
        return Encoding("int", DAY, DAY_AGAIN, judged.shown, "date", True)
    if judged.type in ("timestamp", "timestamptz"):
        again = f"({MOMENT_AGAIN})" if judged.type == "timestamp" else f"timezone('UTC', {MOMENT_AGAIN})"
        first = MOMENT.replace("{type}", judged.type)
        first = first.replace("'2000-01-01'", "'2000-01-01 00:00:00+00'") if judged.type == "timestamptz" else first
        return Encoding("int", first, again, judged.shown, judged.type, True)
    return None


def of_text(judged: Judged) -> Encoding | None:
    """Texts to the letter, and what is written as one."""
    if judged.is_folded:
        return None
    if judged.type in TEXTS or judged.type == "bpchar":
        family = "text" if judged.type in TEXTS else "char"
        return Encoding("text", APART.replace("{x}", "({x})::text"), AS_IT_WAS, judged.shown, family, False, judged.collation)
    if judged.sort == "e":
        return plain_text("textin(enum_out({x}))", judged, f"enum {judged.shown}")
    if judged.type in WRITTEN and judged.is_own:
        return plain_text("({x})::text", judged, judged.type)
    if judged.type == "bytea":
        return Encoding("text", "encode({x}, 'hex')", r"decode(nullif({k}, '\N'), 'hex')", judged.shown, "bytea")
    return None


def of_loose(judged: Judged) -> Encoding | None:
    """What is written as a text, where equal values may be written otherwise; and doubles by their bits."""
    if judged.type in ("float4", "float8"):
        return Encoding("int", BITS, BITS_AGAIN, judged.shown, "float", True)
    if judged.type == "interval":
        return plain_text(SPAN.replace("concat(", "CASE WHEN {x} IS NOT NULL THEN concat(") + " END", judged, None)
    if judged.type in LOOSE and judged.is_own or judged.element in ELEMENTS and judged.is_own:
        return Encoding("text", APART.replace("{x}", "({x})::text"), AS_IT_WAS, judged.shown, None)
    return None


def encoding(judged: Judged) -> Encoding | None:
    """How values of a type are kept, or None where they are not."""
    return of_number(judged) or of_time(judged) or of_text(judged) or of_loose(judged)
