"""Queries in a FROM that SQLite is to carry out by themselves. It would take them up into the query round them, where values are turned back. What these are
compared by is no column then, for which SQLite makes an index as it reads. Sets whose left side is one have it in a FROM, since the parser prints parentheses
round it, which SQLite does not read there."""

from __future__ import annotations

from .. import tree
from ..tree import Node


def whole(node: Node) -> Node:
    """A query in which queries that are joined, or stand in the FROM of one within an expression, are carried out by themselves."""
    def change(each: Node) -> Node | None:
        if tree.kind(each) == "SubLink":
            made = tree.below_changed(each, change)
            return tree.with_values(made, {"subselect": with_whole_items(made.subselect)})
        if tree.kind(each) != "SelectStmt":
            return None
        made = from_left(tree.below_changed(each, change))
        is_joined = len(made.fromClause or ()) > 1 or any(tree.kind(item) == "JoinExpr" for item in made.fromClause or ())
        return with_whole_items(made) if is_joined else made
    return tree.changed(node, change)


def from_left(statement: Node) -> Node:
    """A set whose left side is no set."""
    if statement.op == tree.NO_SET or statement.larg.op == tree.NO_SET:
        return statement
    around = tree.parsed("SELECT * FROM (SELECT 1) AS s")
    item = tree.with_values(around.fromClause[0], {"subquery": statement.larg})
    return tree.with_values(statement, {"larg": tree.with_values(around, {"fromClause": (item,)})})


def with_whole_items(statement: Node) -> Node:
    """A query with all queries of its FROM so."""
    if statement.op != tree.NO_SET:
        return tree.with_values(statement, {side: with_whole_items(getattr(statement, side)) for side in ("larg", "rarg")})
    return tree.with_values(statement, {"fromClause": tuple(map(whole_item, statement.fromClause)) if statement.fromClause else None})


def whole_item(item: Node) -> Node:
    """An item of a FROM: a query without an end has one that no row reaches, by which SQLite leaves it where it is."""
    if tree.kind(item) == "JoinExpr":
        return tree.with_values(item, {side: whole_item(getattr(item, side)) for side in ("larg", "rarg")})
    if tree.kind(item) != "RangeSubselect" or item.subquery.limitCount is not None:
        return item
    limit = tree.parsed("SELECT 1 LIMIT -1")
    return tree.with_values(item, {"subquery": tree.with_values(item.subquery, {"limitCount": limit.limitCount, "limitOption": limit.limitOption})})
