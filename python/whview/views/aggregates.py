"""Functions over rows of a group: counts and sums that nights keep, values that nights keep by group and value, and how readers get what they asked for."""

from __future__ import annotations

from collections.abc import Callable, Sequence
from dataclasses import dataclass

from . import tree
from .asked import named
from .conditions import Conditions, kept_conditions
from .keeping import Joined, Keeping
from .kinds import Encoding
from .leaves import Leaf, Leaves
from .lookups import Step, first_element, first_of, has_room, same
from .polynomials import Number, Polynomials
from .record import Formula, Kept
from .tree import Node
from .words import Sums

# What is the same however often a value stands in a group.
ONCE = frozenset(("min", "max", "bool_and", "bool_or", "every", "bit_and", "bit_or"))
SUMMED = frozenset(("int2", "int4", "int8"))


@dataclass(frozen=True, slots=True)
class Group:
    """What a summary is grouped by: the expression, the leaf, the name of the column, and that of what it is kept as."""

    node: Node
    leaf: Leaf
    name: str
    kept: str


class Summary:
    """A summary of joined items, and what beside it is kept by group and value. Counts and sums are columns of the summary."""

    def __init__(self, keeping: Keeping, leaves: Leaves, joined: Callable[[], Joined], conditions: Conditions, order: Sequence[str], view: str, alias: str) -> None:
        self.keeping, self.leaves, self.make_joined, self.conditions, self.order, self.view, self.alias = keeping, leaves, joined, conditions, order, view, alias
        self.joined = joined()
        self.join, self.where = kept_conditions(self.joined, conditions, order)
        self.groups: list[Group] = []
        self.is_grouped = False
        self.sums: list[tuple[str, Formula]] = []
        self.layers = 0
        self.joins: list[str] = []
        self.polynomials = Polynomials(leaves, self.number, self.joined.flag, keeping.words.is_strange)

    # ---- groups

    def group(self, node: Node, leaf: Leaf) -> Node:
        """The column of a group's expression, which the summary is grouped by from now on."""
        for each in self.groups:
            if each.node == node:
                return tree.column(self.alias, each.name)
        at = len(self.groups) + 1
        self.groups.append(Group(node, leaf, f"g{at}", f"e{at}"))
        return tree.column(self.alias, f"g{at}")

    # ---- sums

    def summed(self, formula: Formula) -> str:
        """A sum of the summary, by its name; of what is 1 in each row that is the count."""
        if formula == 1:
            return f"{self.alias}.n"
        if formula == 0:
            return "0"
        for name, known in self.sums:
            if known == formula:
                return f"{self.alias}.{name}"
        self.sums.append((f"s{len(self.sums) + 1}", formula))
        return f"{self.alias}.{self.sums[-1][0]}"

    def number(self, leaf: Leaf) -> Number | None:
        """The columns that keep a number: its value, where it is there, and where it is NaN."""
        judged, words = leaf.judged, self.keeping.words
        if judged.type not in (*SUMMED, "numeric") or leaf.encoding.kind != "int":
            return None
        value = self.joined.reference(leaf.alias, "int", words.units(leaf), leaf.reads)
        there: Formula = 1 if leaf.is_filled else self.joined.flag(leaf.alias, f"({leaf.text}) IS NOT NULL", leaf.reads)
        test = words.strange(leaf)
        strange: Formula = 0 if test is None else self.joined.flag(leaf.alias, test, leaf.reads)
        return Number(value, there, strange, (judged.digits or (0, 0))[1], judged.type)

    # ---- what is asked for

    def aggregate(self, node: Node) -> Node:
        """An expression over the summary's row in the place of a function over the rows of a group."""
        name = tree.function_name(node) or ""
        text = None if node.agg_distinct or node.agg_order or node.agg_within_group else self.counted(name, node) or self.extreme(name, node)
        return tree.expression(text if text is not None else self.by_value(name, node))

    def first(self, node: Node) -> Node | None:
        """An expression over the summary's row in the place of the first element of a list in an order, if that can be looked up."""
        called = first_element(node)
        text = self.first_value(called) if called is not None else None
        return tree.expression(text) if text is not None else None

    def counted(self, name: str, node: Node) -> str | None:
        """Where counts and sums tell it, in SQL."""
        if name == "count" and node.agg_star:
            test: Formula | None = 1 if node.agg_filter is None else self.polynomials.truth(node.agg_filter)
            return None if test is None else self.keeping.words.whole(self.summed(test))
        if len(node.args or ()) != 1:
            return None
        filtered: Formula | None = 1 if node.agg_filter is None else self.polynomials.truth(node.agg_filter)
        if filtered is None:
            return None
        if name == "count":
            return self.of_count(node.args[0], filtered)
        if name in ("bool_and", "bool_or", "every"):
            return self.of_truth(node.args[0], filtered, name)
        return self.of_sum(node.args[0], filtered, name) if name in ("sum", "avg") else None

    def of_count(self, given: Node, filtered: Formula) -> str | None:
        """How many are there."""
        leaf = self.leaves.leaf(given)
        if leaf is None:
            found = self.polynomials.of(given)
            return None if found is None else self.keeping.words.whole(self.summed(product(filtered, found.there)))
        there: Formula = 1 if leaf.is_filled else self.joined.flag(leaf.alias, f"({leaf.text}) IS NOT NULL", leaf.reads)
        return self.keeping.words.whole(self.summed(product(filtered, there)))

    def of_truth(self, given: Node, filtered: Formula, name: str) -> str | None:
        """Whether all hold, or one does."""
        yes, no = self.polynomials.truth(given), self.polynomials.truth(given, False)
        if yes is None or no is None:
            return None
        true, false = (self.summed(product(filtered, each)) for each in (yes, no))
        found = f"{true} > 0" if name == "bool_or" else f"{false} = 0"
        return f"CASE WHEN {true} + {false} > 0 THEN {found} END"

    def of_sum(self, given: Node, filtered: Formula, name: str) -> str | None:
        """A sum, or an average, with its places and its type."""
        found = self.polynomials.of(given)
        if found is None:
            return None
        total, there = self.summed(product(filtered, found.value)), self.summed(product(filtered, found.there))
        strange = self.summed(product(filtered, found.strange)) if found.strange else None
        sums = Sums(total, found.places, found.type, there, strange)
        return self.keeping.words.total(sums) if name == "sum" else self.keeping.words.mean(sums)

    # ---- what is looked up by group and value

    def is_of_these(self, leaf: Leaf | None) -> bool:
        """Whether a leaf is one of the items that the summary is of."""
        return leaf is not None and leaf.alias in self.order

    def extreme(self, name: str, node: Node) -> str | None:
        """The least or the largest of a leaf that comes in its order, in the rows that pass a filter: found by an index of groups and values."""
        leaf = self.leaves.leaf(node.args[0]) if name in ("min", "max") and len(node.args or ()) == 1 else None
        passing = self.leaves.leaf(node.agg_filter) if node.agg_filter is not None else None
        is_known = leaf is not None and self.keeping.words.looks_up and self.is_of_these(leaf) and Step(leaf, False, False).is_by_index
        if leaf is None or not is_known or node.agg_filter is not None and not self.is_of_these(passing):
            return None
        by_group = ByGroup(self, [leaf], passing)
        if not has_room(len(by_group.outputs)):
            return None
        column = f"b.{by_group.column(leaf)}"
        tests = " AND ".join([*by_group.tests, f"{column} > {leaf.encoding.null}"])
        return leaf.encoding.without_modifier.read(f"(SELECT {name}({column}) FROM {by_group.table()} WHERE {tests})")

    def first_value(self, called: Node) -> str | None:
        """The value of the first row of a group in an order: found by an index of groups and what orders them."""
        leaf, order = self.leaves.leaf(called.args[0]), first_of(self.leaves, [], called.agg_order)
        if leaf is None or order is None or not self.keeping.words.looks_up or leaf.judged.element is not None:
            return None
        if not all(map(self.is_of_these, [leaf, *(step.leaf for step in order.steps)])):
            return None
        by_group = ByGroup(self, [*(step.leaf for step in order.steps), leaf], None)
        if not has_room(len(by_group.outputs)):
            return None
        row = order.row(by_group.table(), by_group.tests, by_group.column)
        return f"(SELECT {leaf.encoding.without_modifier.read(f'k.{by_group.column(leaf)}')} FROM {row})"

    # ---- what is kept by group and value

    def by_value(self, name: str, node: Node) -> str:
        """What the values of a group tell, which are kept each once with its count."""
        joined = self.make_joined()
        join, where = kept_conditions(joined, self.conditions, self.order)
        groups: list[tuple[str, Formula]] = [(each.name, joined.leaf(each.leaf)) for each in self.groups]
        self.layers += 1
        values, q = dict[str, tuple[str, str, Encoding]](), f"q{self.layers}"

        def change(each: Node) -> Node | None:
            leaf = self.leaves.leaf(each) if self.leaves.alias_of(each) in self.order else None
            if leaf is None and tree.kind(each) == "ColumnRef" and self.leaves.alias_of(each) in self.order:
                leaf = self.leaves.column_leaf(each)
            if leaf is None:
                return None
            reference = joined.leaf(leaf)
            values.setdefault(leaf.alias + leaf.text, (f"v{len(values) + 1}", reference, leaf.encoding))
            return tree.column(q, values[leaf.alias + leaf.text][0])
        made = tree.below_changed(node, change)
        joined.complete()
        outputs = [*groups, *((column, reference) for column, reference, _ in values.values())]
        kept = self.keeping.view(Kept("", joined.over(), join, where, outputs, True), self.view)
        return self.read_values(name, made, kept, list(values.values()), q)

    def read_values(self, name: str, node: Node, kept: Kept, values: Sequence[tuple[str, str, Encoding]], q: str) -> str:
        """How they are read: from all values of all groups."""
        names = {str(reference): column for column, reference in kept.outputs}
        table = f"{named(self.keeping.schema, kept.name)} AS b"
        shown = ", ".join(f"{each.read(f'b.{named(names[of])}')} AS {said}" for said, of, each in values)
        many = "" if node.agg_distinct or name in ONCE else self.keeping.words.times("b.n")
        if not self.groups:
            return f"(SELECT {tree.printed(node)} FROM (SELECT {shown or '1'} FROM {table}{many}) AS {q})"
        keys = [each.name for each in self.groups]
        listed = ", ".join([f"b.{named(key)}" for key in keys] + [shown] * bool(shown))
        by = ", ".join(f"{q}.{named(key)}" for key in keys)
        self.joins.append(f"(SELECT {by}, {tree.printed(node)} AS m FROM (SELECT {listed} FROM {table}{many}) AS {q} GROUP BY {by})")
        return f"{self.alias}.m{len(self.joins)}"

    # ---- the item of the FROM

    def item(self) -> Node:
        """The summary, with a row for each group; without groups with one row, whatever there is."""
        references = [(each.name, self.joined.leaf(each.leaf)) for each in self.groups]
        self.joined.complete()
        groups: list[tuple[str, Formula]] = [(name, reference) for name, reference in references]
        kept = self.keeping.view(Kept("", self.joined.over(), self.join, self.where, groups, True, self.sums), self.view)
        columns = {str(reference): name for name, reference in kept.outputs}
        sums = dict(kept.sums)
        shown = [f"{each.leaf.encoding.read(f'k.{named(columns[reference])}')} AS {each.name}, k.{named(columns[reference])} AS {each.kept}"
                 for each, (_, reference) in zip(self.groups, references)]
        numbers = ["n", *sums]
        shown += [f"k.{name}" if self.is_grouped else f"coalesce(sum(k.{name}), 0) AS {name}" for name in numbers]
        shown += [f"j{at}.m AS m{at}" for at in range(1, len(self.joins) + 1)]
        on = [" AND ".join(f"j{at}.{named(each.name)} = k.{named(columns[reference])}" for each, (_, reference) in zip(self.groups, references))
              for at in range(1, len(self.joins) + 1)]
        joins = "".join(f" LEFT JOIN {said} AS j{at} ON {test}" for at, (said, test) in enumerate(zip(self.joins, on), 1))
        return tree.from_item(f"(SELECT {', '.join(shown)} FROM {named(self.keeping.schema, kept.name)} AS k{joins}) AS {self.alias}")


class ByGroup:
    """The summary of the same items by its groups, by whether a row passes, and by some leaves: its index has them in this order."""

    def __init__(self, summary: Summary, leaves: Sequence[Leaf], passing: Leaf | None) -> None:
        self.summary, self.joined = summary, summary.make_joined()
        self.join, self.where = kept_conditions(self.joined, summary.conditions, summary.order)
        self.outputs: list[tuple[str, Formula]] = [(each.name, self.joined.leaf(each.leaf)) for each in summary.groups]
        self.tests = [same(f"b.{each.name}", f"{summary.alias}.{each.kept}", each.leaf.encoding) for each in summary.groups]
        self.names = dict[tuple[str, str], str]()
        if passing is not None:
            self.outputs.append(("f", self.joined.flag(passing.alias, passing.text, passing.reads)))
            self.tests.append("b.f = 1")
        for leaf in leaves:
            if (leaf.alias, leaf.text) not in self.names:
                self.names[leaf.alias, leaf.text] = f"v{len(self.names) + 1}"
                self.outputs.append((self.column(leaf), self.joined.leaf(leaf)))

    def column(self, leaf: Leaf) -> str:
        """The column that keeps a leaf."""
        return self.names[leaf.alias, leaf.text]

    def table(self) -> str:
        """The table of it, under the name b."""
        self.joined.complete()
        kept = self.summary.keeping.view(Kept("", self.joined.over(), self.join, self.where, self.outputs, True), self.summary.view)
        return f"{named(self.summary.keeping.schema, kept.name)} AS b"


def product(left: Formula, right: Formula) -> Formula:
    """A product in which 1 and 0 are left out."""
    if left == 0 or right == 0:
        return 0
    return right if left == 1 else left if right == 1 else ["*", left, right]
