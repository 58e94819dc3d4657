"""What has to hold of items that are joined: what concerns one row of one table, what joins two, what compares two, and what is left to readers."""

from __future__ import annotations

from collections.abc import Iterable, Sequence
from dataclasses import dataclass, field

from . import tree
from .keeping import Joined, is_null
from .leaves import Leaf, Leaves
from .record import MOST_CHILDREN, Formula
from .tree import Node

COMPARED = ("<", "<=", ">", ">=", "<>")


@dataclass(slots=True)
class Pair:
    """Two leaves of two items, and how they are compared."""

    sign: str
    left: Leaf
    right: Leaf
    node: Node


@dataclass(slots=True)
class Conditions:
    """Conditions, told apart."""

    single: dict[str, list[Node]] = field(default_factory=dict)
    equal: list[Pair] = field(default_factory=list)
    compared: list[Pair] = field(default_factory=list)
    left: list[Node] = field(default_factory=list)


def told_apart(leaves: Leaves, nodes: Iterable[Node], aliases: Sequence[str]) -> Conditions:
    """The conditions over these items, each by what it is."""
    found = Conditions()
    for node in nodes:
        alias = leaves.alias_of(node)
        if alias in aliases and alias is not None and leaves.leaf(node) is not None:
            found.single.setdefault(alias, []).append(node)
        elif (pair := pair_of(leaves, node, aliases)) is None:
            found.left.append(node)
        else:
            (found.equal if pair.sign == "=" else found.compared).append(pair)
    return found


def pair_of(leaves: Leaves, node: Node, aliases: Sequence[str]) -> Pair | None:
    """The two leaves that a comparison compares, if they are kept so that this can be seen from what is kept."""
    sign = tree.operator(node)
    if sign not in ("=", *COMPARED):
        return None
    left, right = leaves.leaf(node.lexpr), leaves.leaf(node.rexpr)
    if left is None or right is None or left.alias == right.alias or not {left.alias, right.alias} <= set(aliases):
        return None
    one, other = left.encoding, right.encoding
    if one.family is None or one.family != other.family:
        return None
    return Pair(sign, left, right, node) if sign in ("=", "<>") or (one.is_ordered and other.is_ordered) else None


def connected(aliases: Sequence[str], equal: Sequence[Pair]) -> list[list[str]]:
    """The items in groups, each of which is joined by equalities; none is larger than a view may be over."""
    left, groups = list(aliases), list[list[str]]()
    while left:
        group = [left.pop(0)]
        while len(group) < MOST_CHILDREN and (nearest := next((each for each in left if is_joined(each, group, equal)), None)):
            left.remove(nearest)
            group.append(nearest)
        groups.append([each for each in aliases if each in group])
    return groups


def is_joined(alias: str, group: Sequence[str], equal: Sequence[Pair]) -> bool:
    """Whether an equality joins an item with one of a group."""
    return any({pair.left.alias, pair.right.alias} - {alias} <= set(group) and alias in (pair.left.alias, pair.right.alias) for pair in equal)


def kept_conditions(joined: Joined, conditions: Conditions, group: Sequence[str]) -> tuple[list[tuple[str, str]], list[Formula]]:
    """The equalities that join these items, and their filter, in the words of a catalogue."""
    where: list[Formula] = [["=", single_flag(joined, alias, nodes), 1] for alias in group if (nodes := conditions.single.get(alias))]
    join = list[tuple[str, str]]()
    for pair in within(conditions.equal, group):
        sides = joined.leaf(pair.left), joined.leaf(pair.right)
        join.append(sides)
        # What is NULL equals nothing; where one side is always there, a row that is joined is there on both.
        where += [] if pair.left.is_filled or pair.right.is_filled else [is_null(sides[0], pair.left.encoding)]
    return join, [*where, *(test for pair in within(conditions.compared, group) for test in compared_tests(joined, pair))]


def compared_tests(joined: Joined, pair: Pair) -> list[Formula]:
    """A comparison of two columns, which holds where both are there."""
    sides = joined.leaf(pair.left), joined.leaf(pair.right)
    there = [is_null(side, leaf.encoding) for side, leaf in zip(sides, (pair.left, pair.right)) if not leaf.is_filled]
    return [[pair.sign, sides[0], sides[1]], *there]


def within(pairs: Sequence[Pair], group: Sequence[str]) -> list[Pair]:
    """Those of them whose items are all in a group."""
    return [pair for pair in pairs if {pair.left.alias, pair.right.alias} <= set(group)]


def single_flag(joined: Joined, alias: str, nodes: Sequence[Node]) -> str:
    """The column that says whether a row of an item passes."""
    texts = [f"({tree.printed(tree.with_alias(node, 'r'))})" for node in nodes]
    reads = frozenset(name for node in nodes for name in tree.columns_in(node))
    return joined.flag(alias, " AND ".join(texts), reads)
