"""Functions over rows of a group where what is read stands for several rows: each row of a source says for how many it stands, and what they add up to."""

from __future__ import annotations

from collections.abc import Callable, Sequence

from . import tree
from .aggregates import ONCE, SUMMED
from .leaves import Leaf, Leaves
from .sources_of_rows import RowSource
from .tree import Node
from .words import Sums, Words

SIMPLE = frozenset(("count", "sum", "avg"))


class Weighted:
    """Writes functions over rows anew, for sources whose rows have weights."""

    def __init__(self, leaves: Leaves, source_of: Callable[[str], RowSource | None], words: Words) -> None:
        self.leaves, self.source_of, self.words = leaves, source_of, words

    def takes(self, node: Node) -> bool:
        """Whether a function is one that can be written so."""
        name = tree.function_name(node)
        if name in ONCE or node.agg_distinct and not node.agg_within_group:
            return True
        if name not in SIMPLE or node.agg_order or node.agg_within_group:
            return False
        return bool(node.agg_star) or (len(node.args) == 1 and self.summed_leaf(str(name), node.args[0]) is not None)

    def summed_leaf(self, name: str, given: Node) -> Leaf | None:
        """The leaf that is counted or summed, if its source can add it up."""
        leaf = self.leaves.leaf(given)
        if leaf is None:
            return None
        source = self.source_of(leaf.alias)
        if source is None or source.is_nullable and not leaf.judged.is_strict:
            return None
        if name == "count":
            return leaf
        return leaf if leaf.judged.type in (*SUMMED, "numeric") and leaf.encoding.kind == "int" else None

    def extreme_leaf(self, node: Node) -> Leaf | None:
        """The leaf of which a function is the least or the largest, if its source can tell it of all rows that one stands for."""
        if tree.function_name(node) not in ("min", "max") or node.agg_filter is not None or node.agg_distinct:
            return None
        leaf = self.leaves.leaf(node.args[0])
        source = self.source_of(leaf.alias) if leaf else None
        return leaf if leaf and source and source.is_weighted and (leaf.judged.is_strict or not source.is_nullable) else None

    def written(self, node: Node, sources: Sequence[RowSource], filtered: Node | None) -> Node:
        """Such a function over weights; its condition is over what is read by now."""
        where = f" FILTER (WHERE {tree.printed(filtered)})" if filtered is not None else ""
        name = str(tree.function_name(node))
        if node.agg_star:
            return tree.expression(self.words.whole(f"coalesce(sum({self.weight(sources)}){where}, 0)"))
        leaf = self.summed_leaf(name, node.args[0])
        source = self.source_of(leaf.alias) if leaf else None
        assert leaf is not None and source is not None
        others = [each for each in sources if each is not source]
        there = f"sum({self.times(self.there(leaf, source), others)}){where}"
        if name == "count":
            return tree.expression(self.words.whole(f"coalesce({there}, 0)"))
        return tree.expression(self.total(name, leaf, source, others, there, where))

    def there(self, leaf: Leaf, source: RowSource) -> str:
        """In how many rows a leaf is there."""
        return source.summed(self.words.flag(f"({leaf.text}) IS NOT NULL"), leaf)

    def total(self, name: str, leaf: Leaf, source: RowSource, others: Sequence[RowSource], there: str, where: str) -> str:
        """A sum, or an average."""
        places, words = (leaf.judged.digits or (0, 0))[1], self.words
        total = f"sum({self.times(source.summed(words.units(leaf), leaf), others)}){where}"
        test = words.strange(leaf)
        strange = None if test is None else f"sum({self.times(source.summed(words.flag(test), leaf), others)}){where}"
        sums = Sums(total, places, leaf.judged.type, there, strange)
        return words.total(sums) if name == "sum" else words.mean(sums)

    def weight(self, sources: Sequence[RowSource]) -> str:
        """For how many rows one stands; a side that an outer join has left empty stands for one."""
        return self.words.product([f"coalesce({each.alias}.n, 1)" for each in sources]) or "1"

    def times(self, column: str, others: Sequence[RowSource]) -> str:
        """A sum of one source, as often as the others stand for rows."""
        return self.words.product([f"coalesce({column}, 0)", *(f"coalesce({each.alias}.n, 1)" for each in others)])
