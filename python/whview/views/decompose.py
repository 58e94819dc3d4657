"""Takes a query apart: what of each SELECT nights keep, and the same query over that, which readers see."""

from __future__ import annotations

from collections.abc import Callable, Collection, Mapping, Sequence
from dataclasses import dataclass
from functools import partial

from . import tree
from .aggregates import ONCE, Summary
from .asked import Judged, Relation
from .conditions import Conditions, connected, told_apart
from .expanded import Item, items_of
from .keeping import Joined, Keeping
from .leaves import Leaf, Leaves
from .lookups import first_of, has_room
from .refused import Refused
from .sources_of_rows import RowSource
from .tree import Node
from .weighted import Weighted


@dataclass(frozen=True, slots=True)
class View:
    """The view that is taken apart: its name, and the inner views by the items that they are."""

    name: str
    inner: Mapping[str, Relation]


class Blocks:
    """Goes through the SELECTs of a view, the innermost first."""

    def __init__(self, view: View, items: Mapping[str, Item], leaves: Leaves, keeping: Keeping) -> None:
        self.view, self.items, self.leaves, self.keeping = view, items, leaves, keeping
        self.columns = {(relation, name): judged for relation, name, judged in self.plain_columns()}
        self.many = 0

    def plain_columns(self) -> list[tuple[Relation, str, Judged]]:
        """What the server says of the columns of keys."""
        found = []
        for item in self.items.values():
            for name in item.relation.key if item.relation else ():
                judged = self.leaves.told.get((item.relation, tree.printed(tree.column("r", name)))) if item.relation else None
                if item.relation is not None and isinstance(judged, Judged):
                    found.append((item.relation, name, judged))
        return found

    def new_alias(self) -> str:
        """A name for an item of the read view."""
        self.many += 1
        return f"w{self.many}"

    # ---- queries

    def query(self, statement: Node, is_set: bool = False) -> Node:
        """A query over what is kept; of a set it does not matter how often a row stands in it."""
        def below(node: Node) -> Node | None:
            if tree.kind(node) == "RangeSubselect" and node.alias and node.alias.aliasname in self.view.inner:
                return self.inner(node)
            if tree.kind(node) == "SubLink" and node.subLinkType in tree.OF_SETS:
                test = tree.changed(node.testexpr, below) if node.testexpr is not None else None
                return tree.with_values(node, {"testexpr": test, "subselect": self.query(node.subselect, True)})
            return self.query(node) if tree.kind(node) == "SelectStmt" else None
        if statement.op != tree.NO_SET:
            is_of_sets = not statement.all or is_set and statement.op == tree.UNION
            sides = {side: self.query(getattr(statement, side), is_of_sets) for side in ("larg", "rarg")}
            return tree.with_values(statement, sides)
        names = [tree.output_name(target) for target in statement.targetList or ()]
        statement = self.block(tree.below_changed(statement, below), is_set)
        targets = tuple(tree.with_values(each, {"name": name or each.name}) for each, name in zip(statement.targetList or (), names))
        return tree.with_values(statement, {"targetList": targets or None})

    def inner(self, node: Node) -> Node:
        """A view in a FROM, of which a part may be refused."""
        view = self.view.inner[node.alias.aliasname]
        try:
            return tree.with_values(node, {"subquery": self.query(node.subquery)})
        except Refused as refused:
            raise refused.located(view.name, view.definition or "") from refused

    def block(self, statement: Node, is_set: bool) -> Node:
        """A SELECT over what is kept."""
        aliases = [alias for item in statement.fromClause or () for alias in self.tables_in(item)]
        if not aliases:
            return statement
        if self.is_over_rows(statement) and all(self.is_pure(item) for item in statement.fromClause):
            summed = self.summarized(statement, aliases)
            if summed is not None:
                return summed
        return Rows(self, statement, is_set).made()

    def tables_in(self, node: Node) -> list[str]:
        """The tables in an item of a FROM."""
        if tree.kind(node) == "JoinExpr":
            return [*self.tables_in(node.larg), *self.tables_in(node.rarg)]
        alias = node.alias.aliasname if node.alias else ""
        return [alias] if tree.kind(node) == "RangeVar" and alias in self.items and self.items[alias].relation else []

    def is_pure(self, node: Node) -> bool:
        """Whether an item of a FROM is made of tables by inner joins alone."""
        if tree.kind(node) == "JoinExpr":
            return bool(node.jointype == tree.INNER) and self.is_pure(node.larg) and self.is_pure(node.rarg)
        return bool(self.tables_in(node))

    def conditions_in(self, node: Node) -> list[Node]:
        """What the inner joins of an item say."""
        if tree.kind(node) != "JoinExpr":
            return []
        return [*self.conditions_in(node.larg), *self.conditions_in(node.rarg), *tree.conjuncts(node.quals)]

    def is_aggregate(self, node: Node) -> bool:
        """Whether a node is a function over the rows of a group."""
        return tree.kind(node) == "FuncCall" and node.over is None and tree.function_name(node) in self.leaves.aggregates

    def is_own_aggregate(self, node: Node, own: Collection[str], is_inner: bool) -> bool:
        """Whether a node is a function over the rows of a SELECT of these items: in a query within it, that is one over its columns alone."""
        aliases = tree.aliases_in(node) if is_inner else set()
        return self.is_aggregate(node) and (not is_inner or bool(aliases) and aliases <= set(own))

    def is_over_rows(self, statement: Node) -> bool:
        """Whether a SELECT has groups, or is over all rows at once."""
        parts = [statement.targetList or (), statement.havingClause, statement.sortClause or (), statement.windowClause or ()]
        return bool(statement.groupClause) or any(self.has_aggregate(part) for part in parts if part is not None)

    def has_aggregate(self, node: Node) -> bool:
        """Whether a function over rows stands in a tree, and not in a query of its own."""
        if tree.kind(node) == "SelectStmt":
            return False
        return self.is_aggregate(node) or any(map(self.has_aggregate, tree.children(node)))

    def joined(self, group: Sequence[str]) -> Joined:
        """Tables that are joined, as they are kept."""
        relations = {alias: relation for alias in group if (relation := self.items[alias].relation)}
        return Joined(self.keeping, relations, self.columns)

    # ---- groups

    def summarized(self, statement: Node, aliases: list[str]) -> Node | None:
        """A SELECT with groups over a summary that nights keep, or None where they cannot keep it."""
        said = [each for item in statement.fromClause for each in self.conditions_in(item)]
        conditions = told_apart(self.leaves, [*said, *tree.conjuncts(statement.whereClause)], aliases)
        groups = list(statement.groupClause or ())
        leaves = [self.leaves.leaf(each) for each in groups]
        if conditions.left or len(connected(aliases, conditions.equal)) > 1 or any(leaf is None or leaf.encoding.family is None for leaf in leaves):
            return None
        summary = Summary(self.keeping, self.leaves, lambda: self.joined(aliases), conditions, aliases, self.view.name, self.new_alias())
        summary.is_grouped = bool(groups)
        for node, leaf in zip(groups, leaves):
            if leaf is not None:
                summary.group(node, leaf)
        self.depending(statement, summary)
        return self.read(statement, summary)

    def depending(self, statement: Node, summary: Summary) -> None:
        """Columns outside of all groups and functions follow from a key among the groups: the summary is grouped by them too."""
        def change(node: Node, is_inner: bool = False) -> Node | None:
            if any(node == each.node for each in summary.groups) or self.is_own_aggregate(node, summary.order, is_inner):
                return node
            if tree.kind(node) == "ColumnRef" and self.leaves.alias_of(node) in summary.order:
                summary.group(node, self.leaves.column_leaf(node))
            return None
        for part in (statement.targetList, statement.havingClause, statement.sortClause, statement.windowClause, statement.distinctClause):
            tree.changed(part, with_inner(change))

    def read(self, statement: Node, summary: Summary) -> Node:
        """The SELECT over the summary: what had to hold of groups holds of its rows."""
        def change(node: Node, is_inner: bool = False) -> Node | None:
            for each in summary.groups:
                if node == each.node:
                    return tree.column(summary.alias, each.name)
            if not is_inner and (first := summary.first(node)) is not None:
                return first
            return summary.aggregate(node) if self.is_own_aggregate(node, summary.order, is_inner) else None
        gone, changes = ("fromClause", "whereClause", "groupClause", "havingClause"), with_inner(change)
        values = {slot: tree.changed(value, changes) for slot, value in tree.members(statement) if slot not in gone}
        having = tree.changed(statement.havingClause, changes) if statement.havingClause is not None else None
        made = {"fromClause": (summary.item(),), "whereClause": having, "groupClause": None, "havingClause": None}
        return tree.with_values(statement, {**values, **made})


class Rows:
    """A SELECT that is carried out as it is read, over rows of what is kept: of mirrors, and of views that join them. What takes the place of tables stands in
    its FROM by a name alone until all leaves are known."""

    def __init__(self, blocks: Blocks, statement: Node, is_set: bool) -> None:
        self.blocks, self.statement, self.leaves, self.is_set = blocks, statement, blocks.leaves, is_set
        self.sources: dict[str, RowSource] = {}
        self.where = tree.conjuncts(statement.whereClause)
        self.extra: list[Node] = []
        self.weighted = Weighted(self.leaves, self.sources.get, blocks.keeping.words)

    def made(self) -> Node:
        """The SELECT over them."""
        items = self.from_items()
        self.weigh()
        source = self.source_of_firsts()
        values = self.changed_values()
        if source is not None and has_room(len(source.columns)):
            values["distinctClause"] = None
        elif source is not None:
            source.first = None
        where = tree.all_of([self.leafed(each) for each in self.where])
        # An item may read leaves of those before it, which have to be known before any is placed.
        items = [self.leafed(each) for each in items]
        return tree.with_values(self.statement, {**values, "fromClause": tuple(map(self.placed, items)), "whereClause": where})

    def weigh(self) -> None:
        """Where all functions over rows can be told by weights, what is read stands for all rows that are alike."""
        statement = self.statement
        parts = (*(statement.targetList or ()), statement.havingClause, statement.sortClause, statement.windowClause)
        called = [each for part in parts for each in self.aggregates_in(part)]
        is_over_rows = self.blocks.is_over_rows(statement)
        known = all(leaf.alias in self.sources for each in called if (leaf := self.leaf_of(each)))
        takes = known and all(map(self.weighted.takes, called)) if is_over_rows else self.takes_once()
        for source in self.sources.values() if takes else ():
            source.is_weighted = True

    def takes_once(self) -> bool:
        """Whether rows that are alike may be taken once, since it does not matter how often they stand there."""
        statement, limited = self.statement, (self.statement.limitCount, self.statement.limitOffset)
        if any(each.over is not None for target in statement.targetList or () for each in tree.found(target, "FuncCall")):
            return False
        is_distinct = statement.distinctClause is not None and not any(each is not None for each in statement.distinctClause)
        return is_distinct or self.is_set and all(each is None for each in limited)

    def source_of_firsts(self) -> RowSource | None:
        """What rows are read from, if only the first of each group is and indexes tell which that is; and its columns are in their order."""
        statement, sources = self.statement, list(dict.fromkeys(self.sources.values()))
        keys = [each for each in statement.distinctClause or () if each is not None]
        called = [each for target in statement.targetList or () for each in tree.found(target, "FuncCall")]
        is_plain = len(sources) == 1 and all(map(self.blocks.is_pure, statement.fromClause)) and not self.where
        if not keys or not is_plain or not self.blocks.keeping.words.looks_up or self.blocks.is_over_rows(statement) or any(each.over is not None for each in called):
            return None
        found = first_of(self.leaves, keys, statement.sortClause or ())
        leaves = [*found.groups, *(step.leaf for step in found.steps)] if found else []
        if found is None or any(leaf.alias not in self.sources for leaf in leaves):
            return None
        sources[0].first = found
        for leaf in leaves:
            sources[0].column(leaf)
        return sources[0]

    def leaf_of(self, node: Node) -> Leaf | None:
        """The leaf that a function counts or sums."""
        return self.weighted.summed_leaf(str(tree.function_name(node)), node.args[0]) if len(node.args or ()) == 1 else None

    def aggregates_in(self, node: Node) -> list[Node]:
        """The functions over rows in a part of the SELECT, and not in queries of their own."""
        if node is None or tree.kind(node) == "SelectStmt":
            return []
        return [node] if self.blocks.is_aggregate(node) else [each for child in tree.children(node) for each in self.aggregates_in(child)]

    # ---- items

    def from_items(self) -> list[Node]:
        """The items of the FROM: tables that are joined by inner joins alone stand where the first of them stood."""
        pure = [item for item in self.statement.fromClause if self.blocks.is_pure(item)]
        names, rest = self.components(pure, True, False) if pure else ([], [])
        self.where += rest
        items: list[Node] = []
        for item in self.statement.fromClause:
            if not self.blocks.is_pure(item):
                items.append(self.mixed(item, True, False))
            elif item is pure[0]:
                items += [tree.from_item(name) for name in names]
        return items

    def components(self, pure: Sequence[Node], is_open: bool, is_nullable: bool) -> tuple[list[str], list[Node]]:
        """The names of what takes the place of tables which are joined by inner joins, and what has to hold of them and is asked as it is read. Where they
        are open, what WHERE says holds of them; where they are nullable, an outer join may find nothing of them."""
        aliases = [alias for item in pure for alias in self.blocks.tables_in(item)]
        said = [each for item in pure for each in self.blocks.conditions_in(item)]
        outer = [each for each in self.where if tree.aliases_in(each) and tree.aliases_in(each) <= set(aliases)] if is_open else []
        self.where = [each for each in self.where if not any(each is other for other in outer)]
        conditions = told_apart(self.leaves, [*said, *outer], aliases)
        groups = connected(aliases, conditions.equal)
        names = [self.source(conditions, group, is_nullable).alias for group in groups]
        pairs = [pair.node for pair in (*conditions.equal, *conditions.compared)]
        apart = [node for node in pairs if not any(tree.aliases_in(node) <= set(group) for group in groups)]
        return names, [*conditions.left, *apart]

    def source(self, conditions: Conditions, group: Sequence[str], is_nullable: bool) -> RowSource:
        """What rows of these items are read from."""
        blocks = self.blocks
        made = RowSource(blocks.keeping, blocks.joined(group), conditions, group, blocks.new_alias(), blocks.view.name)
        made.is_nullable = is_nullable
        self.sources.update((alias, made) for alias in group)
        return made

    def mixed(self, node: Node, is_open: bool, is_nullable: bool) -> Node:
        """An item of which some part is an outer join, or no table."""
        if self.blocks.is_pure(node):
            names, rest = self.components([node], is_open, is_nullable)
            items = [tree.from_item(name) for name in names]
            made = items[0]
            for item in items[1:]:
                made = join_of(made, item, tree.all_of(rest) if item is items[-1] else None)
            if len(items) == 1 and rest and not is_open:
                return join_of(made, tree.from_item(f"(SELECT 1) AS {self.blocks.new_alias()}"), tree.all_of(rest))
            self.where += rest if len(items) == 1 else []
            return made
        if tree.kind(node) != "JoinExpr":
            return node
        left_open = is_open and node.jointype in (tree.INNER, tree.LEFT)
        right_open = is_open and node.jointype in (tree.INNER, tree.RIGHT)
        left = self.mixed(node.larg, left_open, is_nullable or node.jointype in (tree.RIGHT, tree.FULL))
        right = self.mixed(node.rarg, right_open, is_nullable or node.jointype in (tree.LEFT, tree.FULL))
        return tree.with_values(node, {"larg": left, "rarg": right})

    def placed(self, item: Node) -> Node:
        """An item with the queries in the place of their names."""
        known = {source.alias: source for source in self.sources.values()}

        def change(node: Node) -> Node | None:
            is_name = tree.kind(node) == "RangeVar" and node.schemaname is None and node.relname in known
            return known[node.relname].item() if is_name else None
        return tree.changed(item, change)

    # ---- expressions

    def changed_values(self) -> dict[str, Node]:
        """All parts but FROM and WHERE, over what is read."""
        statement, groups = self.statement, list(self.statement.groupClause or ())
        values = {slot: value for slot, value in tree.members(statement) if slot not in ("fromClause", "whereClause", "groupClause")}
        if not self.blocks.is_over_rows(statement):
            return {slot: self.leafed(value) for slot, value in values.items()}
        made = {slot: self.of_groups(value, groups) for slot, value in values.items()}
        return {**made, "groupClause": tuple([*(self.leafed(each) for each in groups), *self.extra]) or None}

    def leafed(self, value: Node) -> Node:
        """An expression over leaves that are kept."""
        def change(node: Node) -> Node | None:
            alias = self.leaves.alias_of(node)
            if alias is None or alias not in self.sources:
                return None
            leaf, source = self.leaves.leaf(node), self.sources[alias]
            if leaf is None and tree.kind(node) == "ColumnRef":
                leaf = self.leaves.column_leaf(node)
            if leaf is not None and source.is_of_key(leaf):
                return None
            return source.column(leaf) if leaf is not None and (leaf.judged.is_strict or not source.is_nullable) else None
        return tree.changed(value, change)

    def of_groups(self, value: Node, groups: Sequence[Node]) -> Node:
        """An expression over groups: these, functions over their rows, and columns that follow from a key among them."""
        plain = [each for group in groups for each in (tree.walked(group) if tree.kind(group) == "GroupingSet" else [group])]

        own = {alias for item in self.statement.fromClause for alias in items_of(item)}

        def change(node: Node, is_inner: bool = False) -> Node | None:
            if any(node == each for each in plain):
                return self.leafed(node)
            if self.blocks.is_own_aggregate(node, own, is_inner):
                return self.aggregate(node)
            alias = self.leaves.alias_of(node)
            if tree.kind(node) == "ColumnRef" and alias in self.sources and alias is not None:
                made = self.sources[alias].column(self.leaves.column_leaf(node))
                self.extra += [] if made in self.extra else [made]
                return made
            return None
        return tree.changed(value, with_inner(change))

    def aggregate(self, node: Node) -> Node:
        """A function over rows, over what is read."""
        sources = list(dict.fromkeys(self.sources.values()))
        is_weighted = any(source.is_weighted for source in sources)
        if (leaf := self.weighted.extreme_leaf(node)) is not None:
            name = str(tree.function_name(node))
            return tree.expression(f"{name}({self.sources[leaf.alias].extreme(name, leaf)})")
        if not is_weighted or node.agg_distinct or tree.function_name(node) in ONCE:
            return tree.with_values(node, {slot: self.leafed(each) for slot, each in tree.members(node)})
        filtered = self.leafed(node.agg_filter) if node.agg_filter is not None else None
        return self.weighted.written(node, sources, filtered)


def with_inner(change: Callable[..., Node | None]) -> Callable[[Node], Node | None]:
    """What changes the parts of a query as is said, and those of the queries in it as parts of inner ones."""
    inner = partial(change, is_inner=True)
    return lambda node: tree.below_changed(node, inner) if tree.kind(node) == "SelectStmt" else change(node)


def join_of(left: Node, right: Node, quals: Node | None) -> Node:
    """An inner join."""
    made = tree.from_item("a JOIN b ON TRUE")
    return tree.with_values(made, {"larg": left, "rarg": right, "quals": quals if quals is not None else made.quals})
