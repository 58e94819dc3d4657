"""What is refused of a view as a whole: what may be otherwise on each reading, what is somebody's own, and what depends on the order of rows."""

from __future__ import annotations

from collections.abc import Iterable, Sequence

from . import tree
from .asked import Called
from .refused import Refused
from .tree import Node

FLOATS = ("double precision", "real")
# What is the same in whatever order floats come.
EXACT = frozenset(("count", "min", "max", "array_agg", "mode", "percentile_disc", "percentile_cont", "lag", "lead", "first_value", "last_value", "nth_value"))
# What is of floats alone.
OF_FLOATS = ("corr", "covar_", "regr_")
ALIKE = "where rows are alike in its order, {what} leaves open which of them come: the view and what is kept may then have others of them"


def function_at(statement: Node, name: str) -> int:
    """Where a function is called first in a query."""
    return min((tree.location(each) for each in tree.found(statement, "FuncCall") if tree.function_name(each) == name), default=-1)


def judge_called(statement: Node, called: Iterable[Called]) -> None:
    """Refuses what a view calls that nights cannot keep, or readers cannot be given again."""
    for each in called:
        name = each.written.partition("(")[0]
        at = function_at(statement, name.rpartition(".")[2])
        if not each.is_own:
            raise Refused(name, "it is not one of the server's own functions, and may read what no night captures", "write what it computes", at)
        if each.volatility == "v":
            raise Refused(name, "it is otherwise each time", "leave it to who reads the view", at)
        is_float = any(kind in each.written for kind in FLOATS)
        if each.sort in "aw" and is_float and name not in EXACT:
            instead = "write it by sums of numerics" if name.startswith(OF_FLOATS) else "cast them to numeric within it"
            raise Refused(each.written, "what floats add up to depends on their order", instead, at)


def judge_order(statement: Node) -> list[str]:
    """Refuses what depends on the order of rows where none is said, and tells of what leaves it open where rows are alike."""
    notes = list[str]()
    for node in tree.walked(statement):
        match tree.kind(node):
            case "SelectStmt":
                notes += order_of(node)
            case "FuncCall":
                judge_function(node)
                if node.over is not None and tree.function_name(node) in ("row_number", "lag", "lead", "first_value", "last_value", "nth_value", "ntile"):
                    notes.append(ALIKE.format(what=f"{tree.function_name(node)} OVER"))
    return list(dict.fromkeys(notes))


def judge_function(node: Node) -> None:
    """Refuses a list of values in no order."""
    name = tree.function_name(node)
    if name in tree.ORDERED and node.over is None and not node.agg_order and not node.agg_distinct:
        raise Refused(str(name), "its values come in any order", "write ORDER BY within it", tree.location(node))


def order_of(statement: Node) -> Sequence[str]:
    """What is told of a SELECT that takes some rows of all."""
    is_limited = statement.limitCount is not None or statement.limitOffset is not None
    is_first = statement.distinctClause is not None and any(each is not None for each in statement.distinctClause)
    for is_there, what in ((is_limited, "LIMIT"), (is_first, "DISTINCT ON")):
        if is_there and not statement.sortClause:
            raise Refused(what, "which rows it takes is open without an order", "write ORDER BY", tree.location(statement))
        if is_there:
            return [ALIKE.format(what=what)]
    return []
