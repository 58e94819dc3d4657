"""Of which kind expressions in SQLite's words are, and which of them have a value for each row, whatever stands in it. What has values of several kinds, or
compares a number with a text, is refused: SQLite would go by the affinity of columns, and what is read back has none."""

from __future__ import annotations

import re
from collections.abc import Callable, Sequence
from dataclasses import dataclass

from .. import tree
from ..refused import Refused
from ..total import constant
from ..tree import Node
from .kinds import BOOLEAN, DATE, INTEGER, NULL, REAL, TEXT, TIMESTAMP, Kind, numeric

# Functions by what they answer.
OF_TEXTS = frozenset("lower upper ltrim rtrim substr substring replace hex typeof quote char strftime printf format time".split())
OF_WHOLES = frozenset("length instr unicode unixepoch count row_number rank dense_rank ntile sign".split())
OF_REALS = frozenset("julianday avg total percent_rank cume_dist round".split())
OF_FIRST = frozenset("min max lag lead first_value last_value nth_value abs".split())
OF_ALL = frozenset(("ifnull",))
MOMENTS = {"date": DATE, "datetime": TIMESTAMP}
AGGREGATES = frozenset("count sum avg total min max".split())
KNOWN = OF_TEXTS | OF_WHOLES | OF_REALS | OF_FIRST | OF_ALL | AGGREGATES | MOMENTS.keys() | {"nullif", "iif", "coalesce"}
# Functions that have a value for each row, whatever is given to them.
TOTAL = frozenset("lower upper ltrim rtrim substr substring replace length instr hex typeof unicode ifnull iif date datetime strftime unixepoch".split())
OF_TIME = ("date", "datetime", "strftime", "time", "julianday", "unixepoch")
VARYING = ("now", "localtime", "utc")
# A text that SQLite takes for a number where it is compared with one.
NUMERIC = re.compile(r"\s*[+-]?([0-9]+\.?[0-9]*|\.[0-9]+)([eE][+-]?[0-9]+)?\s*")
ARITHMETIC, COMPARED = ("+", "-", "*", "/", "%"), ("=", "<>", "!=", "<", "<=", ">", ">=")
CASTS = {"int2": INTEGER, "int4": INTEGER, "int8": INTEGER, "text": TEXT, "float4": REAL, "float8": REAL, "real": REAL}
LIKES = (7, 8)
DISTINCTS, NULLIF, IN, BETWEEN = (3, 4), 5, 6, (10, 11, 12, 13)
ELSEWHERE = "which SQLite and PostgreSQL put parentheses in otherwise"


def common(kinds: Sequence[Kind], node: Node) -> Kind:
    """The kind of what is one of several."""
    found = NULL
    for kind in kinds:
        found = both(found, kind, node)
    return found


def both(one: Kind, other: Kind, node: Node) -> Kind:
    """The kind of one of two."""
    if NULL in (one, other) or one == other:
        return other if one == NULL else one
    if one.is_text and other.is_text:
        return TEXT
    if not (one.is_number and other.is_number):
        raise Refused("an expression", f"it is {one.name} or {other.name}", "cast both to one kind", tree.location(node))
    if "real" in (one.name, other.name):
        return REAL
    if "numeric" in (one.name, other.name):
        return numeric(max(one.places, other.places), max(one.digits, other.digits))
    return INTEGER


class Typed:
    """Tells the kinds of expressions, by those of columns and of queries in them."""

    def __init__(self, of_column: Callable[[Node], Kind], of_query: Callable[[Node], Sequence[Kind]]) -> None:
        self.of_column, self.of_query = of_column, of_query

    def kind(self, node: Node) -> Kind:
        """The kind of an expression, all of whose parts are looked at."""
        match tree.kind(node):
            case "ColumnRef":
                return self.of_column(node)
            case "A_Const":
                return kind_of_constant(node)
            case "A_Expr":
                return self.of_operator(node)
            case "BoolExpr":
                return self.all_known(node.args, BOOLEAN)
            case "NullTest" | "BooleanTest":
                return self.all_known([node.arg], BOOLEAN)
            case "CoalesceExpr":
                return common([self.kind(each) for each in node.args], node)
            case "CaseExpr":
                return self.of_case(node)
            case "TypeCast":
                return self.of_cast(node)
            case "FuncCall":
                return self.of_function(node)
            case "SubLink":
                return self.of_sublink(node)
            case "SQLValueFunction":
                return TEXT
        raise Refused(tree.printed(node), "it is no expression that SQLite and this program have alike", "write it by CASE, comparisons and functions", tree.location(node))

    def all_known(self, nodes: Sequence[Node], kind: Kind) -> Kind:
        """A kind, once all of these are looked at."""
        for each in nodes:
            self.kind(each)
        return kind

    def of_operator(self, node: Node) -> Kind:
        """Of an operator, of a test by IN, LIKE or BETWEEN, or of NULLIF."""
        sort, right = int(node.kind), node.rexpr if isinstance(node.rexpr, tuple) else (node.rexpr,)
        if node.lexpr is None:
            return self.kind(node.rexpr)
        if sort == NULLIF:
            self.alike([node.lexpr, *right], node)
            return self.kind(node.lexpr)
        sign = str(node.name[-1].sval)
        if sort == 0 and sign in ARITHMETIC:
            return self.of_arithmetic(sign, self.kind(node.lexpr), self.kind(node.rexpr), node)
        if sort == 0 and sign == "||":
            self.judge_parentheses([node.lexpr, *right], ARITHMETIC)
            return self.all_known([node.lexpr, *right], TEXT)
        if sort in (IN, *BETWEEN, *DISTINCTS) or sort == 0 and sign in COMPARED:
            self.judge_parentheses(right, ("~~", "!~~", "BETWEEN", "IN", "=", "<>"))
            self.alike([node.lexpr, *right], node)
            return BOOLEAN
        if sort in LIKES and sort == 7:
            return self.all_known([node.lexpr, *right], BOOLEAN)
        raise Refused(f"the operator {sign}", "SQLite has none of this name, or reads it otherwise", "write it by comparisons and functions", tree.location(node))

    def judge_parentheses(self, nodes: Sequence[Node], signs: Sequence[str]) -> None:
        """Refuses what stands without parentheses in the tree, where SQLite would set others."""
        for each in nodes:
            is_operator = tree.kind(each) == "A_Expr" and each.lexpr is not None and bool(each.name)
            if is_operator and (each.name[-1].sval in signs or int(each.kind) in (IN, *LIKES, *BETWEEN)):
                raise Refused("an operator within another", f"it is one {ELSEWHERE}", "cast the inner one to what it is, or have it in a query below", tree.location(each))

    def of_arithmetic(self, sign: str, left: Kind, right: Kind, node: Node) -> Kind:
        """Of a sum, a difference, a product, a quotient or a remainder."""
        for each in (left, right):
            if not each.is_number and each != NULL:
                raise Refused(f"the operator {sign}", f"it computes with {each.name}", "cast it to a number", tree.location(node))
        if "real" in (left.name, right.name):
            return REAL
        if "numeric" not in (left.name, right.name):
            return INTEGER
        if sign in "/%":
            return REAL
        return numeric(left.places + right.places if sign == "*" else max(left.places, right.places))

    def alike(self, nodes: Sequence[Node], node: Node) -> None:
        """Refuses a comparison of a number with a text."""
        kinds = [each for each in map(self.kind, nodes) if each != NULL]
        if any(each.is_number != kinds[0].is_number for each in kinds):
            told = " with ".join(dict.fromkeys(each.name for each in kinds))
            raise Refused("a comparison", f"it compares {told}, which goes by the affinity of columns", "write numbers without quotes, and cast texts", tree.location(node))
        if any(each.is_loose for each in kinds) and any(map(self.may_be_number, nodes)):
            raise Refused("a comparison", "of a column of this type SQLite compares what looks like a number as one", "write the whole day, or cast both to text",
                          tree.location(node))

    def may_be_number(self, node: Node) -> bool:
        """Whether a text may look like a number."""
        if self.kind(node) != TEXT:
            return False
        # The day and the moment of now are written with strokes between their numbers.
        if tree.kind(node) == "SQLValueFunction":
            return False
        found = constant(node)
        return found is None or NUMERIC.fullmatch(str(getattr(found.val, "sval", ""))) is not None

    def of_case(self, node: Node) -> Kind:
        """Of one of several expressions."""
        if node.arg is not None:
            self.alike([node.arg, *(each.expr for each in node.args)], node)
        else:
            self.all_known([each.expr for each in node.args], BOOLEAN)
        results = [each.result for each in node.args] + ([node.defresult] if node.defresult is not None else [])
        return common([self.kind(each) for each in results], node)

    def of_cast(self, node: Node) -> Kind:
        """Of what is cast."""
        name = node.typeName.names[-1].sval
        found = CASTS.get(name)
        if found is None or node.typeName.typmods or node.typeName.arrayBounds:
            raise Refused(f"a cast to {name}", "SQLite casts to integer, real and text alone", "cast it to one of these", tree.location(node))
        kind = self.kind(node.arg)
        if not (kind.is_number or kind.is_text or kind == NULL):
            raise Refused("a cast", f"it is of {kind.name}, by whose collation SQLite goes on", "leave it out", tree.location(node))
        return found

    def of_function(self, node: Node) -> Kind:
        """Of a function's answer."""
        name, given = tree.function_name(node) or tree.printed(node), list(node.args or ())
        if name not in KNOWN:
            raise Refused(str(name), "it is no function that is known to give one answer for the same row", "write what it computes, or leave it to who reads", tree.location(node))
        kinds = [self.kind(each) for each in given]
        self.all_known([each.node for each in node.agg_order or ()], TEXT)
        for each in (node.agg_filter, *(ordered_by(node.over) if node.over is not None else ())):
            if each is not None:
                self.kind(each)
        return self.of_answer(str(name), kinds, node)

    def of_answer(self, name: str, kinds: list[Kind], node: Node) -> Kind:
        """Of a function's answer, by the kinds of what it is given."""
        if name in ("sum", "avg", "total") and any(each.name == "real" or not each.is_number and each != NULL for each in kinds):
            cause = f"it adds up {kinds[0].name}, and what floats add up to depends on their order"
            raise Refused(name, cause, "add up whole numbers or numerics, and divide the sum", tree.location(node))
        if name == "sum":
            return numeric(kinds[0].places) if kinds[0].name == "numeric" else INTEGER
        if name in ("iif",):
            return common(kinds[1:], node)
        if name in OF_ALL:
            return common(kinds, node)
        if name in MOMENTS:
            return MOMENTS[name]
        if name in OF_FIRST:
            return kinds[0] if kinds else NULL
        return TEXT if name in OF_TEXTS else INTEGER if name in OF_WHOLES else REAL

    def judge_in(self, tested: Kind, found: Kind, node: Node) -> None:
        """Refuses a test by IN whose sides are of kinds that SQLite compares by how columns are declared."""
        if NULL not in (tested, found) and tested.is_number != found.is_number:
            raise Refused("IN", f"it compares {tested.name} with {found.name}", "cast one of them", tree.location(node))
        if TEXT in (tested, found) and (tested.is_loose or found.is_loose):
            raise Refused("IN", "of a column of this type SQLite compares what looks like a number as one", "cast both to text", tree.location(node))

    def of_sublink(self, node: Node) -> Kind:
        """Of a query in an expression."""
        kinds = self.of_query(node.subselect)
        if node.testexpr is not None:
            tested = node.testexpr.args if tree.kind(node.testexpr) == "RowExpr" else [node.testexpr]
            for one, other in zip(map(self.kind, tested), kinds):
                self.judge_in(one, other, node)
        return kinds[0] if int(node.subLinkType) == 4 else BOOLEAN


def ordered_by(window: Node) -> list[Node]:
    """The expressions by which a window has its rows together and in order, and those of its frame."""
    ordered = [each.node for each in window.orderClause or ()]
    return [each for each in (*(window.partitionClause or ()), *ordered, window.startOffset, window.endOffset) if each is not None]


def kind_of_constant(node: Node) -> Kind:
    """The kind of what is written."""
    if node.isnull or node.val is None:
        return NULL
    match tree.kind(node.val):
        case "Integer":
            return INTEGER
        case "Boolean":
            return BOOLEAN
        case "Float":
            whole, _, places = str(node.val.fval).partition(".")
            return numeric(len(places)) if (whole + places).lstrip("-").isdigit() and len(whole + places) <= 15 else REAL
        case "String":
            return TEXT
    raise Refused("a constant", "it is no number and no text", "write one of these", tree.location(node))


@dataclass(frozen=True, slots=True)
class Total:
    """Tells which expressions have a value of their kind for each row, and the same each time: so that they can be computed as rows come. `moments` has the
    kinds of columns of which a function of time is never one of now."""

    of_column: Callable[[Node], Kind]
    moments: Sequence[str] = ("date", "timestamp")

    def holds(self, node: Node, is_kept: bool = True) -> bool:
        """Whether an expression is so. Sums and products may leave 64 bits, and become doubles then: so they stand only where something else is made of
        them, and are not kept themselves."""
        match tree.kind(node):
            case "ColumnRef" | "A_Const":
                return True
            case "A_Expr":
                return self.of_operator(node, is_kept)
            case "FuncCall":
                return self.of_function(node, is_kept)
            case "CaseExpr":
                tests = [node.arg, *(each.expr for each in node.args)]
                return self.all_hold(tests, False) and self.all_hold([node.defresult, *(each.result for each in node.args)], is_kept)
            case "CoalesceExpr":
                return self.all_hold(node.args, is_kept)
            case "TypeCast" | "NullTest" | "BooleanTest":
                return self.holds(node.arg, False)
            case "BoolExpr":
                return self.all_hold(node.args, False)
        return False

    def all_hold(self, nodes: Sequence[Node | None], is_kept: bool) -> bool:
        """Whether all of these are so that are there."""
        return all(self.holds(each, is_kept) for each in nodes if each is not None)

    def of_operator(self, node: Node, is_kept: bool) -> bool:
        """Whether an operator has a value for whatever stands beside it."""
        sort, sign = int(node.kind), str(node.name[-1].sval) if node.name else ""
        sides = [node.lexpr, *(node.rexpr if isinstance(node.rexpr, tuple) else (node.rexpr,))]
        if sort == 0 and sign in ARITHMETIC and is_kept and not (sign in "/%" and self.is_by_constant(node)):
            return False
        is_handed_on = sort == NULLIF or sort == 0 and sign in ARITHMETIC
        return (sort != 7 or constant(node.rexpr) is not None) and self.all_hold(sides, is_kept and is_handed_on)

    def is_by_constant(self, node: Node) -> bool:
        """Whether something is divided by a whole number that is written and more than nothing."""
        found = constant(node.rexpr)
        return node.lexpr is not None and found is not None and (getattr(found.val, "ival", None) or 0) > 0

    def of_function(self, node: Node, is_kept: bool) -> bool:
        """Whether a function has a value for whatever is given to it."""
        name, given = str(tree.function_name(node)), list(node.args or ())
        if name in OF_TIME:
            return name in TOTAL and self.is_of_fixed_time(name, given)
        if name in ("ifnull", "iif"):
            return self.all_hold(given[:-2], False) and self.all_hold(given[-2:], is_kept)
        return (name in TOTAL or name == "round" and not is_kept) and self.all_hold(given, False)

    def is_of_fixed_time(self, name: str, given: Sequence[Node]) -> bool:
        """Whether a function is of a day or a moment that stands in a column, and not of now."""
        moment = moments_given(name, given)
        words = [each for each in given if each not in moment]
        known = [found.val.sval for each in words if (found := constant(each)) is not None and tree.kind(found.val) == "String"]
        is_moment = bool(moment) and tree.kind(moment[0]) == "ColumnRef" and self.of_column(moment[0]).name in self.moments
        return is_moment and len(known) == len(words) and not any(word in said.lower() for said in known for word in VARYING)


def moments_given(name: str, given: Sequence[Node]) -> Sequence[Node]:
    """Which of what is given to a function of time says the moment."""
    return given[1:2] if name == "strftime" else given[:1]


def moments_in(node: Node) -> set[str]:
    """The columns of which an expression has functions of time."""
    called = [each for each in tree.found(node, "FuncCall") if tree.function_name(each) in OF_TIME]
    return {name for each in called for said in moments_given(str(tree.function_name(each)), list(each.args or ())) for name in tree.columns_in(said)}
