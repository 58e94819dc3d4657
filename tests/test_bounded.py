"""Tests of comparisons past 64 bits, in a world of 4 bits, each row of which is gone through."""

import itertools
import operator
import random
from unittest import mock

from whview.sql.capture import bounded
from whview.sql.capture.bounded import ALWAYS, NEVER, Bounds, without_fraction

LEAST, MOST = -8, 7
SIGNS = {"=": operator.eq, "<>": operator.ne, "<": operator.lt, "<=": operator.le, ">": operator.gt, ">=": operator.ge}
COMPUTED = {"+": operator.add, "-": operator.sub, "*": operator.mul}


def exactly(formula, row):
    if not isinstance(formula, list):
        return row.get(formula, formula)
    sign, left, right = formula
    return COMPUTED[sign](exactly(left, row), exactly(right, row))


def value(formula, row):
    """An expression as a catalogue has it: nothing where a step leaves the world."""
    if not isinstance(formula, list):
        return row.get(formula, formula)
    sign, *sides = formula
    left, right = (value(side, row) for side in sides)
    found = None if left is None or right is None else COMPUTED[sign](left, right)
    return found if found is not None and LEAST <= found <= MOST else None


def holds(test, row):
    kind, *members = test
    if kind in ("all", "any"):
        return {"all": all, "any": any}[kind](holds(member, row) for member in members)
    if kind == "not":
        return not holds(members[0], row)
    left, right = (value(side, row) for side in members)
    return left is not None and right is not None and SIGNS[kind](left, right)


def drawn(source, deep):
    if deep == 0 or source.random() < 0.35:
        return source.choice(["x", "y", "z", source.randint(LEAST, MOST), source.randint(-3, 3)])
    return [source.choice("+-**"), drawn(source, deep - 1), drawn(source, deep - 1)]


def test_comparisons_hold_as_in_mathematics_or_are_not_taken():
    source, beyond = random.Random(64), 0
    with mock.patch.multiple(bounded, LEAST=LEAST, MOST=MOST):
        for _ in range(3000):
            ends = {each: tuple(sorted(source.choices(range(LEAST, MOST + 1), k=2))) for each in "xyz"}
            bounds, left, right, sign = Bounds(ends.__getitem__), drawn(source, 3), drawn(source, 2), source.choice(list(SIGNS))
            test = bounds.compared(sign, left, right)
            beyond += bool(test) and test[0] == "any"
            for cells in itertools.product(*(range(least, most + 1) for least, most in ends.values())) if test else ():
                row = dict(zip("xyz", cells))
                assert holds(test, row) == SIGNS[sign](exactly(left, row), exactly(right, row))
    assert beyond > 100


def test_numbers_between_two_that_a_column_may_have():
    for sign, number, unit in itertools.product(SIGNS, range(-25, 26), (1, 10)):
        found = without_fraction(sign, number, unit)
        for x in range(-4, 5):
            held = found is ALWAYS if found in (ALWAYS, NEVER) else SIGNS[found[0]](x, found[1])
            assert held == SIGNS[sign](x * unit, number)
