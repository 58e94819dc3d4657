"""A view's query with the views and named queries below it in their places, each item of a FROM under a name of its own, and each column with its item."""

from __future__ import annotations

from collections.abc import Mapping
from dataclasses import dataclass, field

from . import tree
from .asked import Relation
from .refused import Refused
from .tree import Node

MATERIALIZED = "its rows come by REFRESH, and no night learns of that"


@dataclass(slots=True)
class Item:
    """An item of a FROM: the table it is, or None for anything else, and the names of its columns with what they are in the table."""

    relation: Relation | None
    columns: dict[str, str]


@dataclass(slots=True)
class Scope:
    """The items that columns may be of, by the names that they have in the text: with their new names and their columns; and what a column is that a join by
    USING has made of two."""

    items: dict[str, tuple[str, Item]] = field(default_factory=dict)
    above: Scope | None = None
    merged: dict[str, Node] = field(default_factory=dict)

    def of_column(self, name: str) -> str | None:
        """The new name of the only item, where it has this column."""
        having = [made for made, item in self.items.values() if name in item.columns]
        if len(having) == 1:
            return having[0]
        return self.above.of_column(name) if self.above and not having else None

    def of_both(self, name: str) -> Node | None:
        """What a column is that is of both sides of a join."""
        if name in self.merged:
            return tree.copied(self.merged[name])
        is_here = any(name in item.columns for _, item in self.items.values())
        return self.above.of_both(name) if self.above and not is_here else None

    def item(self, said: str) -> tuple[str, Item] | None:
        """An item by its name in the text."""
        return self.items.get(said) or (self.above.item(said) if self.above else None)


class Expanded:
    """Goes through queries, and notes all items by their new names."""

    def __init__(self, relations: Mapping[tuple[str, str], Relation]) -> None:
        self.relations = relations
        self.items: dict[str, Item] = {}
        # What is an inner view's, by the new name of its item: the view and its text, for who is told of places.
        self.inner: dict[str, Relation] = {}

    def query(self, statement: Node, above: Scope | None = None, named: Mapping[str, Node] | None = None) -> Node:
        """A query, with each column qualified."""
        known = {**(named or {})}
        if statement.withClause is not None:
            statement = self.without_names(statement, known)
        if statement.lockingClause:
            raise Refused(tree.printed(statement.lockingClause[0]), "who reads what is kept locks nothing of its tables", "leave it out", tree.location(statement))
        statement = tree.selected(statement)
        if statement.op != tree.NO_SET:
            sides = {side: self.query(getattr(statement, side), above, known) for side in ("larg", "rarg")}
            return tree.with_values(statement, sides)
        scope = Scope(above=above)
        items = tuple(self.from_item(each, scope, known) for each in statement.fromClause or ())
        values = {slot: value for slot, value in tree.members(statement) if slot not in ("fromClause", "withClause")}
        made = {slot: self.qualified(value, scope, known) for slot, value in values.items()}
        if statement.targetList:
            made["targetList"] = tuple(map(named_as, made["targetList"], statement.targetList))
        return tree.with_values(statement, {**made, "fromClause": items or None})

    def without_names(self, statement: Node, known: dict[str, Node]) -> Node:
        """A query whose named queries are known, to stand where they are read."""
        clause = statement.withClause
        if clause.recursive and tree.is_recursive(clause):
            raise Refused("WITH RECURSIVE", "how deep it goes is known only as it is read", "keep a table of all pairs", tree.location(clause))
        for each in clause.ctes:
            if tree.kind(each.ctequery) != "SelectStmt":
                raise Refused(f"WITH {each.ctename}", "it writes", "leave it out", tree.location(each))
            names = [name.sval for name in each.aliascolnames or ()]
            known[each.ctename] = (tree.renamed(tree.selected(each.ctequery), names), dict(known))
        return tree.with_values(statement, {"withClause": None})

    # ---- items of a FROM

    def made_name(self, item: Item) -> str:
        """A name of its own for an item."""
        name = f"t{len(self.items) + 1}"
        self.items[name] = item
        return name

    def from_item(self, node: Node, scope: Scope, known: Mapping[str, Node]) -> Node:
        """An item with its new name, which is noted."""
        match tree.kind(node):
            case "RangeVar":
                return self.from_named(node, scope, known)
            case "RangeSubselect" if node.subquery.valuesLists and node.subquery.withClause is None:
                return self.from_values(node, scope, known)
            case "RangeSubselect":
                inner = self.query(node.subquery, scope if node.lateral else scope.above, known)
                names = [each.sval for each in node.alias.colnames or ()]
                return self.from_query(tree.renamed(inner, names), node.alias.aliasname, scope, node.lateral)
            case "JoinExpr":
                return self.from_join(node, scope, known)
            case "RangeFunction":
                return self.from_function(node, scope, known)
        raise Refused(tree.printed(node), "this is no table", "write it with tables and queries", tree.location(node))

    def from_named(self, node: Node, scope: Scope, known: Mapping[str, Node]) -> Node:
        """A table, a view, or a query that has a name."""
        said = node.alias.aliasname if node.alias else node.relname
        names = [each.sval for each in node.alias.colnames or ()] if node.alias else []
        if node.schemaname is None and node.relname in known:
            query, visible = known[node.relname]
            inner = self.query(tree.copied(query), None, visible)
            return self.from_query(tree.renamed(inner, names), said, scope)
        if not node.inh:
            raise Refused(f"ONLY {node.relname}", "a capture takes a table with its heirs", "leave ONLY out", tree.location(node))
        relation = self.relations.get((node.schemaname, node.relname))
        if relation is None:
            raise Refused(tree.printed(node), "there is no such table of an application's", "write it over the tables themselves", tree.location(node))
        if relation.letter == "v" and relation.definition:
            return self.from_view(relation, said, names, scope)
        if relation.letter not in "rp":
            cause = MATERIALIZED if relation.letter == "m" else "its rows stand on another server"
            raise Refused(relation.name, cause, "write it over the tables below", tree.location(node))
        columns = dict(zip([*names, *relation.names[len(names):]], relation.names))
        name = self.made_name(Item(relation, columns))
        scope.items[said] = name, self.items[name]
        return tree.from_item(f'"{node.schemaname}"."{node.relname}" AS {name}')

    def from_view(self, view: Relation, said: str, names: list[str], scope: Scope) -> Node:
        """A view, as the query that it is."""
        try:
            inner = self.query(tree.parsed(view.definition or ""))
        except Refused as refused:
            raise refused.located(view.name, view.definition or "") from refused
        made = self.from_query(tree.renamed(inner, [*names, *view.names[len(names):]]), said, scope)
        self.inner[made.alias.aliasname] = view
        return made

    def from_query(self, query: Node, said: str, scope: Scope, is_lateral: bool = False) -> Node:
        """A query in a FROM."""
        outputs = [tree.output_name(each) for each in tree.first_select(query).targetList or ()]
        name = self.made_name(Item(None, {each: each for each in outputs if each}))
        scope.items[said] = name, self.items[name]
        made = tree.subselect(query, name)
        return tree.with_values(made, {"lateral": is_lateral})

    def from_values(self, node: Node, scope: Scope, known: Mapping[str, Node]) -> Node:
        """A list of rows that are written, under the names that its columns have by themselves."""
        said, own = [each.sval for each in node.alias.colnames or ()], tree.columns_of_values(node.subquery)
        within = scope if node.lateral else Scope(above=scope.above)
        query = tree.with_values(node.subquery, {slot: self.qualified(value, within, known) for slot, value in tree.members(node.subquery)})
        name = self.made_name(Item(None, dict(zip([*said, *own[len(said):]], own))))
        scope.items[node.alias.aliasname] = name, self.items[name]
        return tree.with_values(tree.subselect(query, name), {"lateral": node.lateral})

    def from_function(self, node: Node, scope: Scope, known: Mapping[str, Node]) -> Node:
        """A function in a FROM, which stays what it is."""
        if node.coldeflist:
            raise Refused(tree.printed(node), "its columns are what it is read as", "take each value out by ->> and cast it", tree.location(node))
        if node.alias is None:
            raise Refused(tree.printed(node), "its columns have no names", "give them names", tree.location(node))
        said, names = node.alias.aliasname, [each.sval for each in node.alias.colnames or ()] or [node.alias.aliasname]
        made = self.qualified(node.functions, scope, known)
        name = self.made_name(Item(None, {each: each for each in names}))
        scope.items[said] = name, self.items[name]
        alias = tree.from_item(f"x AS {name} ({', '.join(map(quoted_name, names))})").alias
        return tree.with_values(node, {"functions": made, "alias": alias})

    def from_join(self, node: Node, scope: Scope, known: Mapping[str, Node]) -> Node:
        """A join, whose USING is said by equalities."""
        if node.alias is not None:
            raise Refused("a join with a name", "its columns are of two items", "name the columns of its tables", tree.location(node))
        before, merged, sides = scope.merged, list[dict[str, Node]](), list[Node]()
        for side in (node.larg, node.rarg):
            scope.merged = {}
            sides.append(self.from_item(side, scope, known))
            merged.append(scope.merged)
        scope.merged = {**before, **merged[0], **merged[1]}
        quals = self.qualified(node.quals, scope, known) if node.quals else None
        if node.usingClause:
            pairs = {each.sval: [self.of_side(each.sval, *side) for side in zip(sides, merged)] for each in node.usingClause}
            quals = tree.all_of([tree.expression(f"{tree.printed(one)} = {tree.printed(other)}") for one, other in pairs.values()])
            scope.merged.update((name, merged_column(node.jointype, *pair)) for name, pair in pairs.items())
        return tree.with_values(node, {"larg": sides[0], "rarg": sides[1], "quals": quals, "usingClause": None, "isNatural": False})

    def of_side(self, name: str, side: Node, merged: Mapping[str, Node]) -> Node:
        """A column of one side of a join: what a join in it has made of two, or that of the first item that has it."""
        if name in merged:
            return merged[name]
        alias = next(alias for alias in items_of(side) if name in self.items[alias].columns)
        return tree.column(alias, self.items[alias].columns[name])

    # ---- columns

    def qualified(self, value: Node, scope: Scope, known: Mapping[str, Node]) -> Node:
        """An expression each of whose columns has its item, with the queries in it."""
        def change(node: Node) -> Node | None:
            if (counted := self.counted_row(node, scope)) is not None:
                return counted
            if tree.kind(node) == "SubLink":
                test = self.qualified(node.testexpr, scope, known) if node.testexpr else None
                return tree.with_values(node, {"subselect": self.query(node.subselect, scope, known), "testexpr": test})
            return self.qualified_column(node, scope) if tree.kind(node) == "ColumnRef" else None
        return tree.changed(value, change)

    def counted_row(self, node: Node, scope: Scope) -> Node | None:
        """How often a row of a table is there, as `count(t.*)` says it, by a column that is filled in each row; or None for anything else."""
        if tree.function_name(node) != "count" or len(node.args or ()) != 1 or node.agg_distinct or tree.kind(node.args[0]) != "ColumnRef":
            return None
        fields = node.args[0].fields
        there = scope.item(fields[0].sval) if len(fields) == 2 and tree.kind(fields[1]) == "A_Star" else None
        filled = [each.name for each in there[1].relation.columns if each.is_filled] if there and there[1].relation else []
        if there is None or not filled:
            return None
        filtered = self.qualified(node.agg_filter, scope, {}) if node.agg_filter is not None else None
        return tree.with_values(node, {"args": (tree.column(there[0], filled[0]),), "agg_filter": filtered})

    def qualified_column(self, node: Node, scope: Scope) -> Node:
        """A column with its item."""
        parts = tree.column_parts(node)
        if parts is None or len(parts) > 2:
            raise Refused(tree.printed(node), "a whole row is no value here", "name its columns", tree.location(node))
        if len(parts) == 1:
            if (both := scope.of_both(parts[0])) is not None:
                return both
            alias = scope.of_column(parts[0])
            if alias is None:
                raise Refused(tree.printed(node), "it is no column of one of its tables", "name its table", tree.location(node))
            made, item = alias, self.items[alias]
        else:
            there = scope.item(parts[0])
            if there is None:
                raise Refused(tree.printed(node), f"there is no {parts[0]} in its FROM", "name its table", tree.location(node))
            made, item = there
        if parts[-1] not in item.columns:
            raise Refused(tree.printed(node), "it is no column of the table's own", "name a column", tree.location(node))
        return tree.with_values(tree.column(made, item.columns[parts[-1]]), {"location": getattr(node, "location", -1)})


def merged_column(kind: object, left: Node, right: Node) -> Node:
    """What a join makes of two columns that it has made equal: where both sides may be missing, the one that is there."""
    if kind != tree.FULL:
        return right if kind == tree.RIGHT else left
    return tree.expression(f"coalesce({tree.printed(left)}, {tree.printed(right)})")


def named_as(target: Node, before: Node) -> Node:
    """An output under the name that it had before its column got another one."""
    name = tree.output_name(before)
    return target if name in (None, tree.output_name(target)) else tree.with_values(target, {"name": name})


def items_of(node: Node) -> list[str]:
    """The names of the items in a FROM's item, from left to right."""
    if tree.kind(node) == "JoinExpr":
        return [*items_of(node.larg), *items_of(node.rarg)]
    return [node.alias.aliasname] if node.alias else []


def quoted_name(said: str) -> str:
    """A name in quotes."""
    return '"' + said.replace('"', '""') + '"'
