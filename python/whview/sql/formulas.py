"""A catalogue's formulas in SQL: expressions so that no step raises, and predicates written as flat as an engine's parser wants them."""

from __future__ import annotations

from collections.abc import Callable, Sequence
from dataclasses import dataclass, field

from ..catalogue.views import Formula, Place
from .dialect import Arithmetic
from .tokens import Sql, joined, sql, word

OPPOSITE = {"=": "<>", "<>": "=", "<": ">=", ">=": "<", ">": "<=", "<=": ">"}
ALWAYS, NEVER = sql("1 = 1"), sql("1 = 0")
# So many tests stand in one row without brackets.
ROW = 32


@dataclass(frozen=True, slots=True)
class Test:
    """A test that is written as it is: `how` is None; or tests of which all hold, AND, or one does, OR."""

    how: str | None
    said: Sql | None = None
    tests: list[Test] = field(default_factory=list)

    @property
    def height(self) -> int:
        """How many rows of tests stand within each other."""
        return 0 if self.how is None else 1 + max((each.height for each in self.tests), default=0)

    @property
    def deep(self) -> int:
        """How many operators stand within each other, as it is written."""
        if self.said is not None:
            return 1 + sum(token.said == "(" for token in self.said.tokens)
        return max(each.deep for each in self.tests) + min(len(self.tests), ROW * len(self.tests).bit_length())


def one(said: Sql) -> Test:
    return Test(None, said)


def many(how: str, tests: Sequence[Test]) -> Test:
    """Tests of which all hold or one does; those within them that are of the same kind are taken in."""
    found: list[Test] = []
    for test in tests:
        found += test.tests if test.how == how else [test]
    if len(found) == 1:
        return found[0]
    return Test(how, tests=found) if found else one(ALWAYS if how == "AND" else NEVER)


def bracketed(said: Sql) -> Sql:
    return sql("({said})", said=said)


def row(how: str, tests: Sequence[Test]) -> Sql:
    """Tests in rows, and rows of rows. The deepest comes first, where the parser has least to remember."""
    parts = [bracketed(written(test)) if (how, test.how) == ("AND", "OR") else written(test) for test in tests]
    while len(parts) > ROW:
        parts = [bracketed(joined(parts[at : at + ROW], how)) for at in range(0, len(parts), ROW)]
    return joined(parts, how)


def written(test: Test) -> Sql:
    """A test without brackets round it."""
    if test.how is None:
        return test.said or ALWAYS
    return row(test.how, sorted(test.tests, key=lambda each: -each.height))


def nodes(formula: Formula) -> list[list[Formula]]:
    """The sums, differences and products in an expression, each of which may leave 64 bits."""
    if not isinstance(formula, list):
        return []
    return [formula, *(node for member in formula[1:] for node in nodes(member))]


def places(formula: Formula) -> list[Place]:
    """The columns of a combined row in an expression or a predicate."""
    if isinstance(formula, Place):
        return [formula]
    return [place for member in formula[1:] for place in places(member)] if isinstance(formula, list) else []


def held(formula: Formula) -> int:
    """How many tokens a parser remembers at most: a bracket, and to the right of a sign what stands before it too."""
    if not isinstance(formula, list):
        return 0
    left, right = held(formula[1]), held(formula[2])
    if formula[0] in ("+", "*") and right > left:
        left, right = right, left
    return max(1 + left, 3 + right)


class Formulas:
    """Formulas over a combined row in a dialect's words. `column` gives the SQL of a place in it."""

    def __init__(self, dialect: Arithmetic, column: Callable[[int], Sql]) -> None:
        self.dialect, self.column = dialect, column

    # ---- expressions

    def computed(self, formula: Formula) -> Sql:
        """An expression, computed so that no step raises."""
        if isinstance(formula, Place):
            return self.dialect.cell(self.column(formula))
        if not isinstance(formula, list):
            return self.dialect.number(int(formula))
        sign, left, right = str(formula[0]), formula[1], formula[2]
        if sign in "+*" and held(right) > held(left):
            left, right = right, left
        return sql("({left} {sign} {right})", left=self.computed(left), sign=word(sign), right=self.computed(right))

    def plain(self, formula: Formula) -> Sql:
        """An expression without arithmetic."""
        if isinstance(formula, Place):
            return self.column(formula)
        if isinstance(formula, list):
            raise TypeError(f"{formula!r} has arithmetic")
        return self.dialect.text(formula) if isinstance(formula, str) else self.dialect.whole(formula)

    def tests(self, formula: Formula) -> list[Sql]:
        """What holds where an expression has a value."""
        self.dialect.judge_expression(held(formula))
        return self.dialect.value_tests(formula, self.computed) if nodes(formula) else []

    def value(self, formula: Formula) -> Sql:
        """An expression; where it has no value, anything."""
        return self.dialect.kept(self.computed(formula), self.tests(formula)) if nodes(formula) else self.plain(formula)

    # ---- predicates

    def compared(self, sign: str, left: Formula, right: Formula, wanted: bool) -> Test:
        """A comparison, which is false where a side has no value."""
        sides = [self.computed(side) if nodes(left) or nodes(right) else self.plain(side) for side in (left, right)]
        how = word(sign if wanted else OPPOSITE[sign])
        last = one(sql("{left} {sign} {right}", left=sides[0], sign=how, right=sides[1]))
        tests = [*self.tests(left), *self.tests(right)]
        if wanted:
            return many("AND", [*map(one, tests), last])
        return many("OR", [*(one(sql("NOT {test}", test=test)) for test in tests), last])

    def test(self, formula: Formula, wanted: bool = True) -> Test:
        """Whether a predicate holds, or does not, with `not` brought inward to the comparisons."""
        match formula:
            case True:
                return one(ALWAYS if wanted else NEVER)
            case ["all" | "any" as kind, *members]:
                how = "AND" if (kind == "all") == wanted else "OR"
                return many(how, [self.test(member, wanted) for member in members])
            case ["not", member]:
                return self.test(member, not wanted)
            case [str() as sign, left, right]:
                return self.compared(sign, left, right, wanted)
        raise TypeError(f"{formula!r} is no predicate")

    def holds(self, formula: Formula) -> Sql:
        """A predicate without brackets that stands beside other tests, all of which have to hold."""
        test = self.test(formula)
        self.dialect.judge_test(test.deep)
        return bracketed(written(test)) if test.how == "OR" else written(test)


def both(tests: Sequence[Sql]) -> Sql:
    """All of these tests, which stand without brackets."""
    return joined(tests, "AND") if tests else ALWAYS
