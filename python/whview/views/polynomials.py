"""Numbers over several tables as sums and products of whole numbers of one table each: what they are, whether they are there, and whether they are numbers."""

from __future__ import annotations

from collections.abc import Callable
from dataclasses import dataclass, replace

from . import tree
from .leaves import Leaf, Leaves
from .record import Formula
from .tree import Node

SIGNS = ("+", "-", "*")
NOT, OR = 2, 1


def plus(left: Formula, right: Formula) -> Formula:
    """A sum."""
    return right if left == 0 else left if right == 0 else ["+", left, right]


def minus(left: Formula, right: Formula) -> Formula:
    """A difference."""
    return left if right == 0 else ["-", left, right]


def times(left: Formula, right: Formula) -> Formula:
    """A product."""
    if left == 0 or right == 0:
        return 0
    return right if left == 1 else left if right == 1 else ["*", left, right]


def either(left: Formula, right: Formula) -> Formula:
    """1 where one of two is 1, or both."""
    return minus(plus(left, right), times(left, right))


@dataclass(frozen=True, slots=True)
class Number:
    """A number in units of 10^-places: 0 where it is NULL, or is no number; 1 where it is there; and 1 where it is NaN."""

    value: Formula
    there: Formula
    strange: Formula
    places: int
    type: str


class Polynomials:
    """Makes such numbers of expressions. `number` keeps a leaf and answers columns of its value, of whether it is there and whether it is NaN; `flag` keeps
    a test of one row; `is_strange` says whether a number that is written is strange."""

    def __init__(self, leaves: Leaves, number: Callable[[Leaf], Number | None], flag: Callable[[str, str, frozenset[str]], Formula],
                 is_strange: Callable[[str], bool] = lambda said: False) -> None:
        self.leaves, self.number, self.flag, self.is_strange = leaves, number, flag, is_strange

    def of(self, node: Node) -> Number | None:
        """The number that an expression is, or None where it is no such."""
        leaf = self.leaves.leaf(node)
        if leaf is not None and (found := self.number(leaf)):
            return found
        match tree.kind(node):
            case "A_Expr":
                return self.computed(node)
            case "CaseExpr" if node.arg is None:
                return self.chosen(node)
            case "CoalesceExpr":
                return self.first_there(node)
            case "TypeCast":
                return self.cast(node)
            case "A_Const":
                return self.constant(node)
        return None

    def constant(self, node: Node, type_name: str | None = None) -> Number | None:
        """A number that is written, strange or not."""
        found = constant(node, type_name)
        return replace(found, strange=1) if found is not None and self.is_strange(written(node)) else found

    def cast(self, node: Node) -> Number | None:
        """A number that is cast to a wider one, or a constant that is written as a text."""
        names = [each.sval for each in node.typeName.names]
        if node.typeName.typmods or node.typeName.arrayBounds or names[-1] not in ("numeric", "int8", "int4"):
            return None
        if tree.kind(node.arg) == "A_Const":
            return self.constant(node.arg, names[-1])
        found = self.of(node.arg)
        order = ("int2", "int4", "int8", "numeric")
        if found is None or order.index(names[-1]) < order.index(found.type):
            return None
        return Number(found.value, found.there, found.strange, found.places, names[-1])

    def computed(self, node: Node) -> Number | None:
        """A sum, a difference or a product."""
        sign = tree.operator(node)
        left, right = (self.of(node.lexpr), self.of(node.rexpr)) if sign in SIGNS else (None, None)
        if sign is None or left is None or right is None:
            return None
        there = times(left.there, right.there)
        strange = times(there, either(left.strange, right.strange)) if left.strange or right.strange else 0
        wider = max(left.type, right.type, key=("int2", "int4", "int8", "numeric").index)
        if sign == "*":
            return Number(times(left.value, right.value), there, strange, left.places + right.places, wider)
        places = max(left.places, right.places)
        sides = [times(each.value, 10 ** (places - each.places)) for each in (left, right)]
        value = plus(*sides) if sign == "+" else minus(*sides)
        return Number(times(there, value), there, strange, places, wider)

    def chosen(self, node: Node) -> Number | None:
        """One of several, by tests."""
        rest = self.of(node.defresult) if node.defresult is not None and not is_null(node.defresult) else Number(0, 0, 0, 0, "int2")
        for when in reversed(node.args):
            result = Number(0, 0, 0, 0, "int2") if is_null(when.result) else self.of(when.result)
            test = self.truth(when.expr)
            if rest is None or result is None or test is None:
                return None
            rest = between(test, result, rest)
        return rest

    def first_there(self, node: Node) -> Number | None:
        """The first of several that is there."""
        rest: Number | None = Number(0, 0, 0, 0, "int2")
        for each in reversed(node.args):
            found = self.of(each)
            if found is None or rest is None:
                return None
            rest = between(found.there, found, rest)
        return rest

    def truth(self, node: Node, wanted: bool = True) -> Formula | None:
        """1 where a condition is true, or is false, and 0 else."""
        alias = self.leaves.alias_of(node)
        if self.leaves.leaf(node) is not None and alias:
            text = tree.printed(tree.with_alias(node, "r"))
            return self.flag(alias, f"({text}) IS {'TRUE' if wanted else 'FALSE'}", frozenset(tree.columns_in(node)))
        if tree.kind(node) != "BoolExpr":
            return None
        if node.boolop == NOT:
            return self.truth(node.args[0], not wanted)
        found = [self.truth(each, wanted) for each in node.args]
        if any(each is None for each in found):
            return None
        join = times if (node.boolop == tree.AND) == wanted else either
        made: Formula = found[0] if found[0] is not None else 0
        for each in found[1:]:
            made = join(made, each if each is not None else 0)
        return made


def is_null(node: Node) -> bool:
    """Whether an expression is NULL itself."""
    while tree.kind(node) == "TypeCast":
        node = node.arg
    return tree.kind(node) == "A_Const" and bool(node.isnull)


def between(test: Formula, one: Number, other: Number) -> Number:
    """One number where a test holds, and else another."""
    places = max(one.places, other.places)
    values = [times(each.value, 10 ** (places - each.places)) for each in (one, other)]
    against = minus(1, test)
    wider = max(one.type, other.type, key=("int2", "int4", "int8", "numeric").index)
    pairs = [(values[0], values[1]), (one.there, other.there), (one.strange, other.strange)]
    value, there, strange = (plus(times(test, left), times(against, right)) for left, right in pairs)
    return Number(value, there, strange, places, wider)


def written(node: Node) -> str:
    """A constant's text."""
    said = getattr(node.val, "ival", None)
    return str(said) if said is not None else str(getattr(node.val, "fval", None) or getattr(node.val, "sval", ""))


def constant(node: Node, type_name: str | None = None) -> Number | None:
    """A number that is written; one that would be rounded is none."""
    if node.isnull or node.val is None:
        return None
    whole, _, places = written(node).partition(".")
    if not (whole + places).lstrip("-").isdigit() or places and type_name not in (None, "numeric"):
        return None
    kind = type_name or ("int4" if getattr(node.val, "ival", None) is not None else "numeric" if places else "int8")
    return Number(int(whole + places), 1, 0, len(places), kind)
