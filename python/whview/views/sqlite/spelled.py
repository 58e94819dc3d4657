"""Queries as somebody wrote them, spelled out: stars by columns, places and names of outputs by what they are, each table in the one schema that there is.
What SQLite has by other names than PostgreSQL's parser is named so that both read it alike."""

from __future__ import annotations

from collections.abc import Mapping, Sequence

from .. import tree
from ..expanded import quoted_name
from ..refused import Refused
from ..tree import Node

SCHEMA = "main"
# Where columns come from: each item of a FROM with the names of its columns, and those that USING has made one of.
Items = list[tuple[str, list[str]]]


class Spelled:
    """Spells queries out. `tables` has the columns of all tables and views."""

    def __init__(self, tables: Mapping[str, Sequence[str]]) -> None:
        self.tables = {name.lower(): (name, list(columns)) for name, columns in tables.items()}

    def query(self, statement: Node, known: Mapping[str, list[str]] | None = None, above: Items | None = None) -> Node:
        """A query; `known` has the queries that have names, with their columns, and `above` the items of the queries round it."""
        known, outer = dict(known or {}), above or []
        if tree.kind(statement) != "SelectStmt" or statement.valuesLists:
            raise Refused("VALUES", "its columns have no kinds", "write a table with these rows", tree.location(statement))
        if statement.withClause is not None:
            statement = self.with_queries(statement, known)
        if statement.op != tree.NO_SET:
            sides = {"larg": statement.larg, "rarg": with_names(statement.rarg)}
            return tree.with_values(statement, {side: self.query(each, known, outer) for side, each in sides.items()})
        if any(each is not None for each in statement.distinctClause or ()):
            raise Refused("DISTINCT ON", "SQLite has none", "join the groups with their largest, or number rows by row_number()", tree.location(statement))
        items, merged = Items(), set[str]()
        made = tuple(self.from_item(each, known, items, merged) for each in statement.fromClause or ())
        statement = tree.with_values(statement, {"fromClause": made or None, "targetList": tuple(self.targets(statement, items, merged))})
        return self.below(self.by_outputs(statement, items, merged), known, [*items, *outer])

    def with_queries(self, statement: Node, known: dict[str, list[str]]) -> Node:
        """A query whose WITH is spelled out, and adds to what is known."""
        # SQLite knows all of them in each, whatever their order is, and asks for no RECURSIVE.
        if tree.is_recursive(statement.withClause):
            cause = "one of its queries reads itself or one behind it, and nights cannot know how deep it goes"
            raise Refused("WITH", cause, "write its levels as queries, each behind those that it reads", tree.location(statement.withClause))
        made = []
        for each in statement.withClause.ctes:
            names = [said.sval for said in each.aliascolnames or ()]
            inner = self.query(named_as(each.ctequery, names), known)
            known[each.ctename] = names or outputs_of(inner)
            made.append(tree.with_values(each, {"ctequery": inner}))
        return tree.with_values(statement, {"withClause": tree.with_values(statement.withClause, {"ctes": tuple(made), "recursive": False})})

    # ---- FROM

    def from_item(self, node: Node, known: Mapping[str, list[str]], items: Items, merged: set[str]) -> Node:
        """An item of a FROM, whose columns are noted."""
        match tree.kind(node):
            case "RangeVar":
                return self.table(node, known, items)
            case "RangeSubselect" if not node.lateral and node.alias is not None:
                inner = self.query(node.subquery, known)
                items.append((node.alias.aliasname, [said.sval for said in node.alias.colnames or ()] or outputs_of(inner)))
                return tree.with_values(node, {"subquery": inner})
            case "JoinExpr" if node.alias is None:
                return self.join(node, known, items, merged)
        raise Refused("an item of FROM", "SQLite has none of this kind, or its columns have no names of their own", "write tables, queries with names, and joins by ON or USING",
                      tree.location(node))

    def join(self, node: Node, known: Mapping[str, list[str]], items: Items, merged: set[str]) -> Node:
        """A join; a NATURAL one is by all columns that both sides have."""
        at = len(items)
        left = self.from_item(node.larg, known, items, merged)
        of_left, middle = [column for _, columns in items[at:] for column in columns], len(items)
        right = self.from_item(node.rarg, known, items, merged)
        of_right = {column for _, columns in items[middle:] for column in columns}
        using = node.usingClause
        if node.isNatural:
            names = [name for name in dict.fromkeys(of_left) if name in of_right]
            using = tree.from_item(f"a JOIN b USING ({', '.join(map(quoted_name, names))})").usingClause if names else None
        merged |= {said.sval for said in using or ()}
        return tree.with_values(node, {"larg": left, "rarg": right, "usingClause": using, "isNatural": False})

    def table(self, node: Node, known: Mapping[str, list[str]], items: Items) -> Node:
        """A table, a view, or a query that has a name."""
        said = node.alias.aliasname if node.alias else node.relname
        if node.schemaname is None and node.relname in known:
            items.append((said, known[node.relname]))
            return node
        found = self.tables.get(node.relname.lower())
        if found is None or node.schemaname not in (None, SCHEMA):
            raise Refused(node.relname, "there is no such table above it in the catalogue", "declare it, or mend its name", tree.location(node))
        items.append((said, found[1]))
        # A table that has its name in other letters goes on by that which the query has for it.
        alias = node.alias or (None if said == found[0] else tree.from_item(f"x AS {quoted_name(said)}").alias)
        return tree.with_values(node, {"schemaname": SCHEMA, "relname": found[0], "alias": alias})

    # ---- outputs

    def targets(self, statement: Node, items: Items, merged: set[str]) -> list[Node]:
        """The outputs, each with a name of its own."""
        found = [each for target in statement.targetList or () for each in self.target(target, items, merged)]
        names = [tree.output_name(each) for each in found]
        for name, each in zip(names, found):
            if name is None:
                raise Refused(tree.printed(each.val), "it has no name", "name it by AS", tree.location(each))
            if [other.lower() for other in names if other].count(name.lower()) > 1:
                raise Refused(f"the column {name}", "two columns have this name", "name one of them otherwise by AS", tree.location(each))
        return found

    def target(self, target: Node, items: Items, merged: set[str]) -> list[Node]:
        """What a star stands for, or an output itself."""
        value = target.val
        if tree.kind(value) != "ColumnRef" or tree.kind(value.fields[-1]) != "A_Star":
            return [target]
        said = value.fields[0].sval if len(value.fields) > 1 else None
        found, there = list[tuple[str, str]](), set[str]()
        for alias, columns in items:
            for column in columns if said in (None, alias) else ():
                if said is None and column in merged and column in there:
                    continue
                there.add(column)
                found.append((alias, column))
        if not found:
            raise Refused(f"{said}.*", f"there is no {said} in its FROM", "name its table", tree.location(target))
        # A column of both sides is told by its name alone.
        values = [tree.expression(quoted_name(column)) if said is None and column in merged else tree.column(alias, column) for alias, column in found]
        return [tree.with_values(target, {"val": value}) for value in values]

    def by_outputs(self, statement: Node, items: Items, merged: set[str]) -> Node:
        """ORDER BY and GROUP BY places and names of outputs, by what these are."""
        targets = {str(tree.output_name(each)): each.val for each in statement.targetList}
        columns = {column for _, each in items for column in each}
        values: dict[str, Node] = {}
        for slot, is_sorted in (("groupClause", False), ("sortClause", True)):
            listed = getattr(statement, slot) or ()
            values[slot] = tuple(self.of_output(each, targets, columns, is_sorted) for each in listed) or None
        for slot in ("havingClause", "whereClause"):
            part = getattr(statement, slot)
            values[slot] = self.named_outputs(part, targets, columns) if part is not None else None
        return tree.with_values(statement, values)

    def of_output(self, node: Node, targets: Mapping[str, Node], columns: set[str], is_sorted: bool) -> Node:
        """What an item of a list means: in an order the name of an output comes before that of a column, and elsewhere after it."""
        below = {"SortBy": "node", "CollateClause": "arg"}.get(tree.kind(node))
        if below is not None:
            return tree.with_values(node, {below: self.of_output(getattr(node, below), targets, columns, is_sorted)})
        number, places = getattr(node.val, "ival", None) if tree.kind(node) == "A_Const" else None, list(targets.values())
        if number is not None:
            if not 1 <= number <= len(places):
                raise Refused(str(number), f"there are {len(places)} columns", "name the column", tree.location(node))
            return no_place(places[number - 1])
        parts = tree.column_parts(node) or []
        if len(parts) == 1 and parts[0] in targets and (is_sorted or parts[0] not in columns):
            return no_place(targets[parts[0]])
        return self.named_outputs(node, targets, columns)

    def named_outputs(self, node: Node, targets: Mapping[str, Node], columns: set[str]) -> Node:
        """An expression in which names of outputs that are no columns mean these."""
        def change(each: Node) -> Node | None:
            parts = tree.column_parts(each) or []
            if tree.kind(each) == "SelectStmt":
                return each
            return targets[parts[0]] if len(parts) == 1 and parts[0] in targets and parts[0] not in columns else None
        return tree.changed(node, change)

    # ---- expressions

    def below(self, statement: Node, known: Mapping[str, list[str]], above: Items) -> Node:
        """A query whose expressions are spelled out."""
        def change(node: Node) -> Node | None:
            if tree.kind(node) == "SubLink":
                values = {"subselect": self.query(with_names(node.subselect), known, above), "testexpr": tree.changed(node.testexpr, change) if node.testexpr else None}
                return tree.with_values(node, values)
            return self.function(node, change) if tree.kind(node) == "FuncCall" else self.operator(node)
        slots = [slot for slot, _ in tree.members(statement) if slot not in ("fromClause", "withClause")]
        values = {slot: tree.changed(getattr(statement, slot), change) for slot in slots}
        quals = {"fromClause": tree.changed(statement.fromClause, lambda node: quals_changed(node, change))} if statement.fromClause else {}
        return tree.with_values(statement, {**values, **quals})

    def operator(self, node: Node) -> Node | None:
        """An equality as SQLite alone writes it."""
        if tree.operator(node) != "==":
            return None
        return tree.below_changed(tree.with_values(node, {"name": tree.expression("a = b").name}), self.operator)

    def function(self, node: Node, change: object) -> Node | None:
        """A function by the name that both know it by."""
        names = [each.sval for each in node.funcname]
        given = tuple(tree.changed(each, change) for each in node.args or ())  # type: ignore[arg-type]
        if names == ["pg_catalog", "btrim"]:
            made = tree.expression("ltrim(rtrim(x))")
            inner = tree.with_values(made.args[0], {"args": given})
            return tree.with_values(made, {"args": (inner, *given[1:])})
        if names[-1] == "time":
            made = tree.expression("strftime('%H:%M:%S', 'now')")
            return tree.with_values(made, {"args": (made.args[0], *(given or made.args[1:]))})
        if names[-1] == "like_escape":
            raise Refused("LIKE .. ESCAPE", "the parser writes it in words that SQLite does not know", "write it by instr or replace", tree.location(node))
        if names[-1] in ("min", "max") and len(given) == 2:
            return lesser(given, ("<", "<=") if names[-1] == "min" else (">=", ">"))
        if names[-1] in ("min", "max") and len(given) > 2:
            raise Refused(names[-1], "it is of more than two values", "write it of two, and again of that", tree.location(node))
        return None


def no_place(node: Node) -> Node:
    """An expression; a whole number that is written is cast to what it is, since it would be the place of an output."""
    is_number = tree.kind(node) == "A_Const" and getattr(node.val, "ival", None) is not None
    return tree.with_values(tree.expression("0::bigint"), {"arg": node}) if is_number else node


def lesser(given: Sequence[Node], signs: tuple[str, str]) -> Node:
    """The one of two values that stands before the other, or NULL where one is NULL. Of two that are alike, as 2 and 2.0, SQLite takes the first one for the
    largest, and the second one for the least."""
    made = tree.expression(f"CASE WHEN a {signs[0]} b THEN a WHEN b {signs[1]} a THEN b END")

    def change(node: Node) -> Node | None:
        parts = tree.column_parts(node)
        return given["ab".index(parts[0])] if parts else None
    return tree.changed(made, change)


def quals_changed(node: Node, change: object) -> Node | None:
    """A join with its condition changed."""
    if tree.kind(node) != "JoinExpr":
        return node if tree.kind(node) in ("RangeSubselect", "RangeVar") else None
    sides = {side: tree.changed(getattr(node, side), lambda each: quals_changed(each, change)) for side in ("larg", "rarg")}
    return tree.with_values(node, {**sides, "quals": tree.changed(node.quals, change) if node.quals is not None else None})  # type: ignore[arg-type]


def with_names(query: Node) -> Node:
    """A query whose outputs have names, where it does not matter which they have."""
    if tree.kind(query) != "SelectStmt" or query.valuesLists:
        return query
    if query.op != tree.NO_SET:
        return tree.with_values(query, {"larg": with_names(query.larg), "rarg": with_names(query.rarg)})
    targets = tuple(each if tree.output_name(each) or is_star(each) else tree.with_values(each, {"name": f"c{at}"}) for at, each in enumerate(query.targetList or (), 1))
    return tree.with_values(query, {"targetList": targets})


def named_as(statement: Node, names: Sequence[str]) -> Node:
    """A query whose outputs have the names that are said for them, where no star stands for several."""
    return statement if any(map(is_star, tree.first_select(statement).targetList or ())) else tree.renamed(statement, list(names))


def is_star(target: Node) -> bool:
    """Whether an output stands for all columns."""
    return tree.kind(target.val) == "ColumnRef" and tree.kind(target.val.fields[-1]) == "A_Star"


def outputs_of(statement: Node) -> list[str]:
    """The names of a query's outputs."""
    return [str(tree.output_name(each)) for each in tree.first_select(statement).targetList]
