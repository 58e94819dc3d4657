"""Queries in a FROM that only choose rows and columns, taken up into the query that reads them, as the database does itself."""

from __future__ import annotations

from . import tree
from .tree import Node

# What a query has that is taken up as it is.
PLAIN = ("targetList", "fromClause", "whereClause")


def is_plain(statement: Node, aggregates: frozenset[str]) -> bool:
    """Whether a query only chooses rows and columns of its items."""
    if statement.op != tree.NO_SET or statement.fromClause is None or any(slot not in PLAIN for slot, _ in tree.members(statement)):
        return False
    # A constant in the place of a column would be the number of an output, where it stands in a GROUP BY.
    if not all(tree.aliases_in(target) for target in statement.targetList or ()):
        return False
    called = [each for target in statement.targetList or () for each in tree.found(target, "FuncCall")]
    return not any(each.over is not None or tree.function_name(each) in aggregates or tree.function_name(each) == "unnest" for each in called)


def is_inner(node: Node) -> bool:
    """Whether an item of a FROM is made by inner joins alone."""
    return tree.kind(node) != "JoinExpr" or (node.jointype == tree.INNER and is_inner(node.larg) and is_inner(node.rarg))


class Pulled:
    """Takes queries up, the innermost first."""

    def __init__(self, aggregates: frozenset[str]) -> None:
        self.aggregates = aggregates

    def query(self, statement: Node) -> Node:
        """A query with all plain ones in its FROM taken up."""
        def below(node: Node) -> Node | None:
            return self.query(node) if tree.kind(node) == "SelectStmt" else None
        statement = tree.below_changed(statement, below)
        if statement.op != tree.NO_SET or not statement.fromClause:
            return statement
        meanings, conditions, items = dict[tuple[str, str], Node](), list[Node](), list[Node]()
        for item in statement.fromClause:
            items += self.item(item, meanings, conditions)
        if not meanings:
            return statement
        where = tree.all_of([*tree.conjuncts(statement.whereClause), *conditions])
        statement = tree.with_values(statement, {"fromClause": tuple(items), "whereClause": where})
        return named_as_before(substituted(statement, meanings), statement)

    def item(self, node: Node, meanings: dict[tuple[str, str], Node], conditions: list[Node]) -> list[Node]:
        """The items that an item becomes; what its columns mean, and which conditions hold beside."""
        if tree.kind(node) == "RangeSubselect" and not node.lateral and is_plain(node.subquery, self.aggregates):
            inner = node.subquery
            for target in inner.targetList or ():
                meanings[node.alias.aliasname, tree.output_name(target) or ""] = target.val
            conditions += tree.conjuncts(inner.whereClause)
            return list(inner.fromClause)
        if tree.kind(node) == "JoinExpr" and node.jointype == tree.INNER:
            sides = [self.item(side, meanings, conditions) for side in (node.larg, node.rarg)]
            if sides != [[node.larg], [node.rarg]]:
                conditions += tree.conjuncts(node.quals)
                return [*sides[0], *sides[1]]
        return [node]


def substituted(node: Node, meanings: dict[tuple[str, str], Node]) -> Node:
    """A tree with what columns mean in the place of them."""
    def change(each: Node) -> Node | None:
        parts = tree.column_parts(each)
        found = meanings.get((parts[0], parts[1])) if parts and len(parts) == 2 else None
        return substituted(found, meanings) if found is not None else None
    return tree.changed(node, change)


def named_as_before(statement: Node, before: Node) -> Node:
    """The outputs under the names that they had."""
    names = [tree.output_name(target) for target in before.targetList or ()]
    targets = tuple(tree.with_values(target, {"name": name or target.name}) for target, name in zip(statement.targetList or (), names))
    return tree.with_values(statement, {"targetList": targets or None})
