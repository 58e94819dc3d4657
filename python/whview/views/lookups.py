"""Rows that are found by an index of what is kept, so that readers look at one row of a group and not at all of them."""

from __future__ import annotations

from collections.abc import Callable, Sequence
from dataclasses import dataclass

from ..sql.digests import same_texts
from ..sql.postgresql import PostgreSQL
from ..sql.tables import WIDEST_INDEX
from . import tree
from .as_tokens import tokens
from .kinds import Encoding
from .leaves import Leaf, Leaves
from .tree import Node

# How a view says in which order rows come, and where NULL is among them.
DESCENDING, USING, NULLS_FIRST, NULLS_LAST = 2, 3, 1, 2


@dataclass(frozen=True, slots=True)
class Step:
    """An expression by which rows are ordered, from which end they are taken, and whether NULL comes before all else."""

    leaf: Leaf
    is_descending: bool
    is_null_first: bool

    @property
    def is_by_index(self) -> bool:
        """Whether the rows of a group stand in this order in an index."""
        return self.leaf.encoding.kind == "int" and self.leaf.encoding.is_ordered

    @property
    def words(self) -> str:
        """The order, in SQL."""
        return f"{'DESC' if self.is_descending else 'ASC'} NULLS {'FIRST' if self.is_null_first else 'LAST'}"

    def found(self, column: str, table: str, tests: Sequence[str]) -> str:
        """A query for the first value of a column that is kept, where NULL is the least."""
        name, there = "max" if self.is_descending else "min", " AND ".join(tests)
        plain = f"SELECT {name}({column}) AS v FROM {table}" + (f" WHERE {there}" if there else "")
        if self.leaf.is_filled or self.is_descending != self.is_null_first:
            return plain
        null, joint = self.leaf.encoding.null, "AND" if there else "WHERE"
        if not self.is_descending:
            value = f"coalesce(({plain} {joint} {column} > {null}), {null})"
        else:
            value = f"CASE WHEN EXISTS (SELECT 1 FROM {table} WHERE {' AND '.join([*tests, f'{column} = {null}'])}) THEN {null} ELSE ({plain}) END"
        # The planner would look it up again wherever it is named, were this no query with a part of its own.
        return f"SELECT {value} AS v OFFSET 0"


def same(one: str, other: str, how: Encoding) -> str:
    """That two columns of what is kept are equal, as an index over the first finds it."""
    if how.kind == "int":
        return f"{one} = {other}"
    return "(" + PostgreSQL().written([same_texts(tokens(one), tokens(other))])[0] + ")"


def steps_of(leaves: Leaves, sorted_by: Sequence[Node]) -> list[Step] | None:
    """The order that is said, or None where some of it is not kept."""
    found = list[Step]()
    for node in sorted_by:
        leaf = leaves.leaf(node.node)
        if leaf is None or int(node.sortby_dir) == USING:
            return None
        is_descending = int(node.sortby_dir) == DESCENDING
        is_null_first = int(node.sortby_nulls) == NULLS_FIRST or is_descending and int(node.sortby_nulls) != NULLS_LAST
        found.append(Step(leaf, is_descending, is_null_first))
    return found


@dataclass(frozen=True, slots=True)
class First:
    """The first row of each group: the leaves of the groups, and the order of the rows of one."""

    groups: tuple[Leaf, ...]
    steps: tuple[Step, ...]

    @property
    def by_index(self) -> Sequence[Step]:
        """The first steps, as far as an index has them."""
        many = next((at for at, each in enumerate(self.steps) if not each.is_by_index), len(self.steps))
        return self.steps[:many]

    def row(self, table: str, matched: Sequence[str], column_of: Callable[[Leaf], str]) -> str:
        """What stands in a FROM for the first row k of a group, of the rows b of a table that match it: one value after the other is looked up by the index."""
        tests, items = list(matched), list[str]()
        for at, step in enumerate(self.by_index, 1):
            column = f"b.{column_of(step.leaf)}"
            items.append(f"LATERAL ({step.found(column, table, tests)}) AS f{at}")
            tests.append(f"{column} = f{at}.v")
        rest = [f"{step.leaf.encoding.read(f'b.{column_of(step.leaf)}')} {step.words}" for step in self.steps[len(self.by_index):]]
        order = f" ORDER BY {', '.join(rest)}" if rest else ""
        return " CROSS JOIN ".join([*items, f"LATERAL (SELECT b.* FROM {table} WHERE {' AND '.join(tests)}{order} LIMIT 1) AS k"])


def first_of(leaves: Leaves, groups: Sequence[Node], sorted_by: Sequence[Node]) -> First | None:
    """The first row of each group in an order that begins with the groups, if indexes of what is kept tell it."""
    keys, steps = [leaves.leaf(each) for each in groups], steps_of(leaves, sorted_by)
    known = [each for each in keys if each is not None and each.encoding.family is not None]
    if steps is None or len(known) < len(keys):
        return None
    own = {(each.alias, each.text) for each in known}
    found = First(tuple(known), tuple(each for each in steps if (each.leaf.alias, each.leaf.text) not in own))
    return found if found.by_index else None


def has_room(many: int) -> bool:
    """Whether an index has room for so many columns."""
    return many <= WIDEST_INDEX


def first_element(node: Node) -> Node | None:
    """The list whose first element an expression is, or None where it is anything else."""
    if tree.kind(node) != "A_Indirection" or len(node.indirection) != 1 or tree.function_name(node.arg) != "array_agg":
        return None
    place, called = node.indirection[0], node.arg
    is_first = tree.kind(place) == "A_Indices" and not place.is_slice and tree.kind(place.uidx) == "A_Const" and getattr(place.uidx.val, "ival", None) == 1
    plain = called.agg_order and not called.agg_distinct and not called.agg_filter and called.over is None
    return called if is_first and plain else None
