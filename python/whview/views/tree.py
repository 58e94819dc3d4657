"""SQL as PostgreSQL's own parser reads it: the tree, how it is walked and changed, and how it is printed. What the library has stays in this module's
hands: its nodes are told by their kinds."""

from __future__ import annotations

from collections.abc import Callable, Iterator
from typing import Any, TypeAlias

from pglast import ast, parse_sql
from pglast.enums import BoolExprType, JoinType, SetOperation, SubLinkType
from pglast.parser import ParseError
from pglast.stream import RawStream

from .refused import Refused

# A node of the library's tree, and what stands in a place of one.
Node: TypeAlias = Any
INNER, LEFT, RIGHT, FULL = JoinType.JOIN_INNER, JoinType.JOIN_LEFT, JoinType.JOIN_RIGHT, JoinType.JOIN_FULL
AND = BoolExprType.AND_EXPR
NO_SET, UNION = SetOperation.SETOP_NONE, SetOperation.SETOP_UNION
# Queries of which it does not matter how often a row stands in them.
OF_SETS = (SubLinkType.EXISTS_SUBLINK, SubLinkType.ANY_SUBLINK, SubLinkType.ALL_SUBLINK)
CONDITIONS = frozenset(("=", "<>", "!=", "<", "<=", ">", ">=", "~~", "!~~", "~~*", "!~~*", "~", "!~", "~*", "!~*", "@>", "<@", "&&", "?"))
# What a function of these names is depends on the order of rows, where none is said.
ORDERED = frozenset(("array_agg", "string_agg", "json_agg", "jsonb_agg", "json_object_agg", "jsonb_object_agg", "xmlagg"))


def parsed(text: str) -> Node:
    """The SELECT of a text."""
    return parse_sql(text)[0].stmt


def expression(text: str) -> Node:
    """The expression of a text."""
    return parsed(f"SELECT {text}").targetList[0].val


def from_item(text: str) -> Node:
    """What stands in a FROM."""
    return parsed(f"SELECT 1 FROM {text}").fromClause[0]


def printed(node: Node) -> str:
    """A node as SQL, which the parser reads as the same. The library leaves parentheses out where conditions stand in conditions: these are cast to what they
    are then, since a cast has its own."""
    text = str(RawStream()(node))
    if says(text, node):
        return text
    firm = firmly(node)
    text = str(RawStream()(firm))
    if not says(text, firm):
        raise Refused("an expression", "the parser prints it as another one", "write it more simply", location(node))
    return text


def place_of(fault: ParseError, text: str) -> int:
    """Where the parser stopped, in letters, or -1. It says how many letters are in so many bytes as it has read letters."""
    said = fault.args[1] if len(fault.args) > 1 else None
    return len(text[:said].encode()) if isinstance(said, int) else -1


# What is no query and no expression, and is printed as it is.
PARTS = frozenset("RangeVar SortBy TypeName ResTarget JoinExpr RangeSubselect WindowDef GroupingSet RangeFunction RangeTableSample RangeTableFunc LockingClause".split())


def says(text: str, node: Node) -> bool:
    """Whether a text is read as this query or expression; of other nodes that is not asked."""
    if not isinstance(node, ast.Node) or kind(node) in PARTS:
        return True
    try:
        return bool((parsed(text) if kind(node) == "SelectStmt" else expression(text)) == node)
    except ParseError:
        return False


def firmly(node: Node) -> Node:
    """A tree in which each condition within an operator or a test of a condition is cast to what it is."""
    made = with_values(node, {slot: firm_values(value) for slot, value in members(node)})
    if kind(node) not in ("A_Expr", "NullTest", "BooleanTest", "BoolExpr"):
        return made
    return with_values(made, {slot: in_parentheses(value) for slot, value in members(made) if slot in ("lexpr", "rexpr", "arg", "args")})


def firm_values(value: Node) -> Node:
    """The same of what stands in a place of a node."""
    return tuple(map(firm_values, value)) if isinstance(value, tuple) else firmly(value) if is_node(value) else value


def in_parentheses(value: Node) -> Node:
    """A condition, or several, each in the parentheses of a cast."""
    if isinstance(value, tuple):
        return tuple(map(in_parentheses, value))
    is_condition = kind(value) in ("BoolExpr", "NullTest", "BooleanTest") or kind(value) == "A_Expr" and value.name[-1].sval in CONDITIONS
    return with_values(expression("x::boolean"), {"arg": value}) if is_condition else value


def kind(node: Node) -> str:
    """What a node is."""
    return type(node).__name__


def is_node(value: object) -> bool:
    return isinstance(value, ast.Node)


def members(node: Node) -> Iterator[tuple[str, Node]]:
    """The places of a node that have something, nodes or tuples of them."""
    for slot in node.__slots__:
        value = getattr(node, slot, None)
        if isinstance(value, (ast.Node, tuple)):
            yield slot, value


def children(node: Node) -> Iterator[Node]:
    """The nodes right below a node, or in a tuple of nodes."""
    if isinstance(node, tuple):
        for each in node:
            if isinstance(each, tuple):
                yield from children(each)
            elif is_node(each):
                yield each
    elif is_node(node):
        for _, value in members(node):
            if isinstance(value, tuple):
                yield from children(value)
            else:
                yield value


def walked(node: Node) -> Iterator[Node]:
    """A node and all below it, the upper ones first."""
    if is_node(node):
        yield node
    for child in children(node):
        yield from walked(child)


def found(node: Node, wanted: str) -> Iterator[Node]:
    """The nodes of a kind, at a node and below it."""
    return (each for each in walked(node) if kind(each) == wanted)


def changed(node: Node, change: Callable[[Node], Node | None]) -> Node:
    """A copy of a tree in which a node is what `change` makes of it, and what it makes nothing of is gone through; the tree stays as it was."""
    if isinstance(node, tuple):
        return tuple(changed(each, change) for each in node)
    if not is_node(node):
        return node
    made = change(node)
    return made if made is not None else below_changed(node, change)


def below_changed(node: Node, change: Callable[[Node], Node | None]) -> Node:
    """The same of what is below a node."""
    return with_values(node, {slot: changed(value, change) for slot, value in members(node)})


def with_values(node: Node, values: dict[str, Node]) -> Node:
    """A copy of a node with other values in some of its places."""
    made = type(node)()
    for slot in node.__slots__:
        setattr(made, slot, values[slot] if slot in values else getattr(node, slot, None))
    return made


def copied(node: Node) -> Node:
    """A copy of all of a tree."""
    return changed(node, lambda _: None)


def location(node: Node) -> int:
    """Where the first part of a node stands in the text, in letters, or -1."""
    places = [place for each in walked(node) if isinstance(place := getattr(each, "location", None), int) and place >= 0]
    return min(places, default=-1)


# ---- columns


def column(alias: str, name: str) -> Node:
    """A column of an item in a FROM."""
    return ast.ColumnRef(fields=(ast.String(sval=alias), ast.String(sval=name)))


def column_parts(node: Node) -> list[str] | None:
    """The names of a column, or None where it is none, or stands for all columns."""
    if kind(node) != "ColumnRef" or any(kind(each) != "String" for each in node.fields):
        return None
    return [each.sval for each in node.fields]


def aliases_in(node: Node) -> set[str]:
    """The items of a FROM whose columns stand in a tree that is qualified."""
    return {parts[0] for each in found(node, "ColumnRef") if (parts := column_parts(each)) and len(parts) > 1}


def columns_in(node: Node) -> set[str]:
    """The names of the columns in a tree over one item."""
    return {parts[-1] for each in found(node, "ColumnRef") if (parts := column_parts(each))}


def with_alias(node: Node, alias: str) -> Node:
    """The same over an item of another name."""
    def change(each: Node) -> Node | None:
        parts = column_parts(each)
        return column(alias, parts[-1]) if parts else None
    return changed(node, change)


# ---- conditions


def conjuncts(node: Node) -> list[Node]:
    """All that has to hold where a condition does."""
    if node is None:
        return []
    if kind(node) == "BoolExpr" and node.boolop == AND:
        return [each for arg in node.args for each in conjuncts(arg)]
    return [node]


def all_of(nodes: list[Node]) -> Node | None:
    """A condition that holds where all of these do, or None for no condition."""
    if len(nodes) < 2:
        return nodes[0] if nodes else None
    return ast.BoolExpr(boolop=AND, args=tuple(nodes))


def operator(node: Node) -> str | None:
    """The name of a simple operator with two sides, or None."""
    if kind(node) != "A_Expr" or node.kind != 0 or node.lexpr is None or len(node.name) != 1:
        return None
    return str(node.name[0].sval)


def is_cast_to_own(node: Node) -> bool:
    """Whether a cast is into a type that is not the database's own: in a text that the database prints, such a one has its schema."""
    names = [each.sval for each in node.typeName.names]
    return len(names) > 1 and names[0] != "pg_catalog"


def function_name(node: Node) -> str | None:
    """The name of a function of the database's own, or None."""
    if kind(node) != "FuncCall":
        return None
    names = [each.sval for each in node.funcname]
    return str(names[-1]) if len(names) == 1 or names[0] == "pg_catalog" else None


# ---- what a SELECT gives


def output_name(target: Node) -> str | None:
    """The name of an output, which a printed view always has where it is not that of a column."""
    parts = column_parts(target.val)
    return str(target.name) if target.name else parts[-1] if parts else None


def first_select(statement: Node) -> Node:
    """The SELECT whose outputs give a query its names."""
    while statement.op != NO_SET:
        statement = statement.larg
    return statement


def columns_of_values(statement: Node) -> list[str]:
    """The names that the columns of a list of VALUES have by themselves."""
    return [f"column{at}" for at, _ in enumerate(statement.valuesLists[0], 1)]


def selected(statement: Node) -> Node:
    """A list of VALUES as a SELECT of its columns, and any other query as it is."""
    if not statement.valuesLists:
        return statement
    names = columns_of_values(statement)
    made = parsed(f"SELECT {', '.join(f'v.{each} AS {each}' for each in names)} FROM (VALUES (1)) AS v")
    ordered = {slot: value for slot, value in members(statement) if slot not in ("valuesLists", "withClause")}
    item = with_values(made.fromClause[0], {"subquery": with_values(statement, {slot: None for slot in ordered})})
    return with_values(made, {**ordered, "fromClause": (item,)})


def is_recursive(clause: Node) -> bool:
    """Whether a query of a WITH RECURSIVE reads itself, or one behind it."""
    names = [each.ctename for each in clause.ctes]
    return any(read.schemaname is None and read.relname in names[at:] for at, each in enumerate(clause.ctes) for read in found(each.ctequery, "RangeVar"))


def renamed(statement: Node, names: list[str]) -> Node:
    """A query whose first outputs have these names."""
    if statement.op != NO_SET:
        return with_values(statement, {"larg": renamed(statement.larg, names)})
    targets = tuple(with_values(each, {"name": names[at]}) if at < len(names) else each for at, each in enumerate(statement.targetList or ()))
    return with_values(statement, {"targetList": targets or None})


def subselect(statement: Node, alias: str) -> Node:
    """A query in a FROM."""
    return ast.RangeSubselect(lateral=False, subquery=statement, alias=ast.Alias(aliasname=alias))
