"""Comparisons that hold as they do in mathematics, also where a side leaves 64 bits: a catalogue's own comparison does not hold there."""

from __future__ import annotations

from collections.abc import Callable
from typing import NamedTuple, TypeAlias

from ..dialect import LEAST, MOST
from .turned import DIGITS, MOST_DIGITS_OF_REALS, Told

# A formula as a catalogue has it: a number, a reference, a text in braces, or an array of a sign and its members.
Written: TypeAlias = "int | str | dict[str, str] | list[Written]"
# The least and the largest number.
Ends: TypeAlias = tuple[int, int]
ALWAYS: list[Written] = ["all"]
NEVER: list[Written] = ["any"]
TURNED_ROUND = {"=": "=", "<>": "<>", "<": ">", ">": "<", "<=": ">=", ">=": "<="}
OF_POSTGRESQL = {"bool": (0, 1), "int2": (-(2**15), 2**15 - 1), "int4": (-(2**31), 2**31 - 1)}
ANY = LEAST, MOST


def bounds_of_sqlite(told: Told) -> Ends:
    """The least and the largest number that a column may have, once it is turned: any whole number in any column of them."""
    most = 10**MOST_DIGITS_OF_REALS
    return (-most, most) if DIGITS.fullmatch(told.type.upper()) else ANY


def bounds_of_postgresql(told: Told) -> Ends:
    """The same in PostgreSQL, by the column's type."""
    if told.type == "numeric" and told.digits is not None:
        return 1 - 10**told.digits, 10**told.digits - 1
    return OF_POSTGRESQL.get(told.type, ANY)


class Beyond(NamedTuple):
    """What an expression is where it has no value: at least `above` where a predicate holds, and else at most `below`."""

    is_above: Written
    above: int
    below: int


class Operation(NamedTuple):
    """A formula of two sides: its sign first."""

    sign: str
    left: Written
    right: Written


def parted(formula: list[Written]) -> Operation:
    """A formula of two sides, in its parts."""
    sign, left, right = formula
    return Operation(str(sign), left, right)


def has_none(formula: Written) -> list[Written]:
    """Whether an expression has no value: it does not equal itself then."""
    return ["not", ["=", formula, formula]]


def without_fraction(sign: str, number: int, unit: int) -> tuple[str, int] | list[Written]:
    """The sign and the number by which x is compared where x times a unit is compared with a number; or what holds whatever x is."""
    whole, rest = divmod(number, unit)
    if not rest:
        return sign, whole
    if sign in ("=", "<>"):
        return NEVER if sign == "=" else ALWAYS
    return (">", whole) if sign in (">", ">=") else ("<=", whole)


class Bounds:
    """What is known of expressions by the bounds of the references in them."""

    def __init__(self, of_reference: Callable[[str], Ends]) -> None:
        self.of_reference = of_reference

    def interval(self, formula: Written) -> Ends:
        """The least and the largest number that an expression may be, whether 64 bits hold it or not."""
        if isinstance(formula, int):
            return formula, formula
        if isinstance(formula, str):
            return self.of_reference(formula)
        if isinstance(formula, dict):
            raise TypeError(f"the text {formula} is no number")
        sign, left, right = parted(formula)
        (a, b), (c, d) = self.interval(left), self.interval(right)
        ends = {"+": (a + c, b + d), "-": (a - d, b - c), "*": (a * c, a * d, b * c, b * d)}[sign]
        return min(ends), max(ends)

    def is_sure(self, formula: Written) -> bool:
        """Whether no step of an expression can leave 64 bits."""
        least, most = self.interval(formula)
        return LEAST <= least and most <= MOST and (not isinstance(formula, list) or all(map(self.is_sure, formula[1:])))

    def compared(self, sign: str, left: Written, right: Written) -> list[Written] | None:
        """A predicate that holds where a comparison of these two does, or None where the tests of a catalogue cannot tell."""
        if self.is_sure(left) and self.is_sure(right):
            return [sign, left, right]
        if self.is_sure(left):
            return self.compared(TURNED_ROUND[sign], right, left)
        found = self.beyond(left) if self.is_sure(right) and isinstance(left, list) else None
        least, most = self.interval(right)
        if found is None or not found.below < least <= most < found.above:
            return None
        return self.or_beyond(sign, left, right, found)

    def or_beyond(self, sign: str, left: Written, right: Written, found: Beyond) -> list[Written]:
        """A comparison that holds also where the left side is beyond all that the right side may be."""
        test: list[Written] = [sign, left, right]
        if sign == "=":
            return test
        if sign == "<>":
            return ["any", test, has_none(left)]
        is_there = found.is_above if sign in (">", ">=") else ["not", found.is_above]
        return ["any", test, ["all", has_none(left), is_there]]

    # ---- expressions that have no value

    def beyond(self, formula: list[Written]) -> Beyond | None:
        """What an expression is where it has no value, or None where that is not known."""
        sign, left, right = parted(formula)
        return self.beyond_product(left, right) if sign == "*" else self.beyond_sum(sign, left, right)

    def beyond_product(self, left: Written, right: Written) -> Beyond | None:
        """A product of two factors is large by both; one of more factors only where all but two are fixed, since one may be 0."""
        if isinstance(left, int):
            left, right = right, left
        if self.is_sure(left) and self.is_sure(right):
            if isinstance(right, int):
                return Beyond([">" if right > 0 else "<", left, 0], MOST + 1, LEAST - 1)
            same: list[Written] = [["all", [sign, left, 0], [sign, right, 0]] for sign in "><"]
            return Beyond(["any", *same], MOST + 1, LEAST - 1)
        if not isinstance(right, int) or not right or not isinstance(left, list):
            return None
        inner = self.beyond(left)
        if inner is None:
            return None
        is_above: Written = inner.is_above if right > 0 else ["not", inner.is_above]
        ends = (inner.above * right, inner.below * right) if right > 0 else (inner.below * right, inner.above * right)
        is_far: list[Written] = ["any", ["all", has_none(left), is_above], [">" if right > 0 else "<", left, 0]]
        return Beyond(is_far, min(ends[0], MOST + 1), max(ends[1], LEAST - 1))

    def beyond_sum(self, sign: str, left: Written, right: Written) -> Beyond | None:
        """A sum or a difference of two that have values leaves 64 bits by either; else by the one that has none, if the other is small beside it."""
        if self.is_sure(left) and self.is_sure(right):
            return Beyond([">", left, 0] if sign == "+" else ["<", right, 0], MOST + 1, LEAST - 1)
        if self.is_sure(left) and sign == "+":
            return self.beyond_sum("+", right, left)
        if not self.is_sure(left) and not self.is_sure(right):
            return None
        by, other = (right, left) if self.is_sure(left) else (left, right)
        inner, (least, most) = self.beyond(by) if isinstance(by, list) else None, self.interval(other)
        if inner is None:
            return None
        is_above, rest = inner.is_above, list[Written]()
        if by is right:
            is_above, ends, rest = ["not", inner.is_above], (least - inner.below, most - inner.above), ["<", right, 0]
        elif sign == "+":
            ends, rest = (inner.above + least, inner.below + most), [">", left, 0]
        else:
            ends, rest = (inner.above - most, inner.below - least), ["all", ["=", left, left], ["<", right, 0]]
        return Beyond(["any", ["all", has_none(by), is_above], rest], min(ends[0], MOST + 1), max(ends[1], LEAST - 1))
