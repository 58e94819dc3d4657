"""Of which kinds the columns of a query are, and whether it says of each which row's value it is."""

from __future__ import annotations

from collections.abc import Mapping

from .. import tree
from ..expanded import Item
from ..refused import Refused
from ..tree import Node
from .kinds import Kind
from .typed import AGGREGATES, Typed, both, ordered_by


def ordered(node: Node) -> Node:
    """The expression by which rows are ordered, in whatever collation of SQLite's own."""
    said = node.node
    is_own = tree.kind(said) == "CollateClause" and str(said.collname[-1].sval).lower() in ("nocase", "rtrim", "binary")
    return said.arg if is_own else said


def same(one: Kind, other: Kind, place: Node) -> Kind:
    """The kind of a set's output. Its sides are of one kind of number, since a column is read by the affinity of the first side's."""
    is_one = (one.name, one.places, one.is_whole) == (other.name, other.places, other.is_whole)
    if one.is_number and other.is_number and not is_one:
        raise Refused("a set", f"one side of it is {one.shown}, and the other one {other.shown}", "cast both to integer, or both to real", tree.location(place))
    return both(one, other, place)


def judge_joins(statement: Node) -> None:
    """Refuses a FULL JOIN within a set."""
    for join in tree.found(statement, "JoinExpr"):
        if join.jointype == tree.FULL:
            place, instead = join.quals or statement, "write it as LEFT JOIN, and add the other side's rows by UNION ALL and NOT EXISTS"
            raise Refused("FULL JOIN", "within a set SQLite may have NULL for the constants beside it", instead, tree.location(place))


def judge_right(statement: Node) -> None:
    """Refuses a set whose right side is one, as PostgreSQL's parser has it of INTERSECT behind another set."""
    if statement.rarg.op != tree.NO_SET:
        raise Refused("a set", "SQLite carries sets out from left to right", "have the later one in a FROM: SELECT * FROM (..) AS q", tree.location(statement.rarg))


class Queries:
    """Tells the kinds of queries whose columns are qualified, by those of tables."""

    def __init__(self, items: Mapping[str, Item], kinds: Mapping[str, Mapping[str, Kind]]) -> None:
        self.items, self.kinds = items, kinds
        self.columns = dict[tuple[str, str], Kind]()
        self.typed = Typed(self.of_column, self.of_query)

    def of_column(self, node: Node) -> Kind:
        """The kind of a column of an item."""
        parts = tree.column_parts(node) or ["?"]
        found = self.columns.get((parts[0], parts[-1]))
        if found is None:
            raise Refused(".".join(parts), "it is no column that is known here", "name a column of its FROM", tree.location(node))
        return found

    def of_query(self, statement: Node) -> list[Kind]:
        """The kinds of a query's outputs, all of whose parts are looked at."""
        if statement.op != tree.NO_SET:
            left, right = self.of_query(statement.larg), self.of_query(statement.rarg)
            if len(left) != len(right):
                raise Refused("a set", "its sides have other numbers of columns", "have as many in each", tree.location(statement))
            judge_joins(statement)
            judge_right(statement)
            return [same(one, other, place) for one, other, place in zip(left, right, tree.first_select(statement.rarg).targetList)]
        for item in statement.fromClause or ():
            self.add(item)
        self.judge_parts(statement)
        self.judge_groups(statement)
        return [self.typed.kind(target.val) for target in statement.targetList or ()]

    def add(self, item: Node) -> None:
        """Notes the columns of an item of a FROM."""
        if tree.kind(item) == "JoinExpr":
            self.add(item.larg)
            self.add(item.rarg)
            if item.quals is not None:
                self.typed.kind(item.quals)
        elif tree.kind(item) == "RangeSubselect":
            found = self.of_query(item.subquery)
            names = [str(tree.output_name(each)) for each in tree.first_select(item.subquery).targetList]
            self.columns.update(((item.alias.aliasname, name), kind) for name, kind in zip(names, found))
        else:
            self.columns.update(((item.alias.aliasname, name), kind) for name, kind in self.kinds[item.relname].items())

    def judge_parts(self, statement: Node) -> None:
        """Looks at all parts but the outputs."""
        groups, windows = list(statement.groupClause or ()), [each for window in statement.windowClause or () for each in ordered_by(window)]
        limits = [statement.limitCount, statement.limitOffset]
        for each in (statement.whereClause, statement.havingClause, *groups, *windows, *limits, *map(ordered, statement.sortClause or ())):
            if each is not None:
                self.typed.kind(each)
        for each in tree.found(statement, "FuncCall"):
            self.judge_window(each)

    def judge_window(self, node: Node) -> None:
        """Refuses lists of values, whose order SQLite leaves open."""
        if tree.function_name(node) in ("group_concat", "string_agg", "json_group_array"):
            raise Refused(str(tree.function_name(node)), "its values come in any order", "leave it to who reads the view", tree.location(node))

    def judge_groups(self, statement: Node) -> None:
        """Refuses a column outside of groups and functions, of which SQLite takes any row's value."""
        groups = list(statement.groupClause or ())
        parts = [*(each.val for each in statement.targetList or ()), statement.havingClause, *(each.node for each in statement.sortClause or ())]
        if not groups and not any(self.has_function(each) for each in parts if each is not None):
            return
        for part in parts:
            for column in self.bare(part, groups) if part is not None else ():
                if not self.follows(column, groups):
                    raise Refused(tree.printed(column), "it is neither a group nor in a function, and SQLite takes any row's value", "group by it, or write min(..) of it",
                                  tree.location(column))

    def has_function(self, node: Node) -> bool:
        """Whether a function over rows stands in an expression, and not in a query of its own."""
        if tree.kind(node) == "SelectStmt":
            return False
        is_over_rows = tree.kind(node) == "FuncCall" and node.over is None and tree.function_name(node) in AGGREGATES
        return is_over_rows or any(map(self.has_function, tree.children(node)))

    def bare(self, node: Node, groups: list[Node]) -> list[Node]:
        """The columns in an expression that stand in no group and no function over rows."""
        if any(node == each for each in groups) or tree.kind(node) == "SelectStmt":
            return []
        if tree.kind(node) == "FuncCall" and node.over is None and tree.function_name(node) in AGGREGATES:
            return []
        return [node] if tree.kind(node) == "ColumnRef" else [column for each in tree.children(node) for column in self.bare(each, groups)]

    def follows(self, column: Node, groups: list[Node]) -> bool:
        """Whether a column follows from a key among the groups."""
        alias = (tree.column_parts(column) or ["?"])[0]
        relation = self.items[alias].relation if alias in self.items else None
        return relation is not None and bool(relation.key) and all(tree.column(alias, each) in groups for each in relation.key)
