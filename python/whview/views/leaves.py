"""Leaves: the largest parts of expressions that are computed from one row of one table, as the database captures it."""

from __future__ import annotations

from collections.abc import Callable, Mapping
from dataclasses import dataclass

from . import tree
from .asked import Judged, Relation
from .expanded import Item
from .kinds import Encoding, encoding
from .refused import Refused
from .total import is_total
from .tree import Node

EXPRESSIONS = frozenset((
    "ColumnRef", "A_Expr", "FuncCall", "TypeCast", "CaseExpr", "CoalesceExpr", "MinMaxExpr", "BoolExpr", "NullTest", "BooleanTest", "A_ArrayExpr",
    "A_Indirection", "CollateClause",
))
# By extra_float_digits, bytea_output, IntervalStyle, lc_monetary and DateStyle.
BY_SETTINGS = frozenset(("float4", "float8", "bytea", "interval", "money", "_float4", "_float8", "_bytea", "_interval", "_date", "_timestamp", "_timestamptz"))
WORDS = ("text", "varchar", "bpchar", "name")
WITHIN = ("SubLink", "SelectStmt", "WindowDef", "RowExpr", "SQLValueFunction")


@dataclass(frozen=True, slots=True)
class Leaf:
    """An expression over one row r of the table of an item: what the server says of it, and how it is kept."""

    alias: str
    relation: Relation
    text: str
    judged: Judged
    encoding: Encoding
    is_filled: bool
    reads: frozenset[str]

    @property
    def is_plain(self) -> bool:
        """Whether it is a column as it stands."""
        return len(self.reads) == 1 and self.text == tree.printed(tree.column("r", *self.reads))

    def kept(self) -> str:
        """What is kept of it, in SQL."""
        return self.encoding.kept(self.text, self.is_filled)


class Leaves:
    """What can be said of the expressions of queries, of which the server was asked all at once."""

    def __init__(self, items: Mapping[str, Item], aggregates: frozenset[str], told: Mapping[tuple[Relation, str], Judged | str],
                 kept_as: Callable[[Judged], Encoding | None] = encoding) -> None:
        self.items, self.aggregates, self.told, self.kept_as = items, aggregates, told, kept_as

    def alias_of(self, node: Node) -> str | None:
        """The item, a table, over one row of which an expression is; or None."""
        if tree.kind(node) not in EXPRESSIONS:
            return None
        aliases = tree.aliases_in(node)
        if len(aliases) != 1:
            return None
        (alias,) = aliases
        if alias not in self.items or self.items[alias].relation is None:
            return None
        return None if any(map(self.is_of_rows, tree.walked(node))) else alias

    def is_of_rows(self, node: Node) -> bool:
        """Whether a node looks at more than one row."""
        is_function = tree.kind(node) == "FuncCall" and (tree.function_name(node) in self.aggregates or node.over is not None)
        return is_function or tree.kind(node) in WITHIN

    def wanted(self, statement: Node) -> dict[Relation, dict[str, bool]]:
        """The expressions in a query that may be leaves, of each table, and whether each is a column; keys are asked for in any case."""
        relations = [item.relation for item in self.items.values() if item.relation is not None]
        found: dict[Relation, dict[str, bool]] = {each: {tree.printed(tree.column("r", name)): True for name in each.key} for each in relations}
        for node in tree.walked(statement):
            alias = self.alias_of(node)
            relation = self.items[alias].relation if alias else None
            if relation is not None:
                found.setdefault(relation, {}).setdefault(tree.printed(tree.with_alias(node, "r")), tree.kind(node) == "ColumnRef")
        return found

    def judged(self, node: Node) -> Judged | None:
        """What the server says of an expression over one row, if it takes it for one."""
        alias = self.alias_of(node)
        relation = self.items[alias].relation if alias else None
        found = self.told.get((relation, tree.printed(tree.with_alias(node, "r")))) if relation else None
        return found if isinstance(found, Judged) else None

    def leaf(self, node: Node) -> Leaf | None:
        """The leaf that an expression is, or None where it is none."""
        alias, judged = self.alias_of(node), self.judged(node)
        relation = self.items[alias].relation if alias else None
        if alias is None or judged is None or relation is None:
            return None
        is_column = tree.kind(node) == "ColumnRef"
        if not is_column and (judged.mutable or judged.is_foreign or not is_total(node, judged) or self.is_cast_otherwise(node)):
            return None
        how = self.kept_as(judged)
        if how is None:
            return None
        reads = frozenset(tree.columns_in(node))
        filled = is_column and all(column.is_filled for name in reads if (column := relation.column(name)))
        return Leaf(alias, relation, tree.printed(tree.with_alias(node, "r")), judged, how, filled, reads)

    def is_cast_otherwise(self, node: Node) -> bool:
        """Whether something is cast in a way that may change: written as each session sets for itself, whatever the server says of it; of a type that is
        somebody's own, for which he may make a cast that triggers would call; or into one, since another type may have its name tomorrow."""
        all_casts = list(tree.found(node, "TypeCast"))
        casts = [(each, given) for each in all_casts if (given := self.judged(each.arg)) is not None]
        return any(map(tree.is_cast_to_own, all_casts)) or any(not given.is_own or given.type in BY_SETTINGS and each.typeName.names[-1].sval in WORDS for each, given in casts)

    def column_leaf(self, node: Node) -> Leaf:
        """The leaf that a column is; it is refused where its type cannot be kept."""
        found = self.leaf(node)
        if found is not None:
            return found
        parts, judged = tree.column_parts(node) or ["?"], self.judged(node)
        shown = judged.shown if judged else "none that the database tells"
        raise Refused(f"the column {parts[-1]}", f"its type is {shown}, of which nights keep no values", "leave it out, or have a column of another type", tree.location(node))
