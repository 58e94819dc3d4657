"""Where a read view takes rows from: mirrors or joined views, read back row by row under the names that the query has for them."""

from __future__ import annotations

from collections.abc import Callable, Mapping, Sequence

from . import tree
from .asked import named
from .conditions import Conditions, kept_conditions
from .firsts import by_key, column_of
from .keeping import Joined, Keeping
from .leaves import Leaf
from .lookups import First, has_room, same
from .record import Formula, Kept
from .tree import Node
from .words import Words


class RowSource:
    """Items of a FROM that are joined, as one item of the read view, with the leaves that it asks for as columns. With weights each of its rows stands for n,
    all that have these leaves, and has what these add up to; without, each stands for itself."""

    def __init__(self, keeping: Keeping, joined: Joined, conditions: Conditions, group: Sequence[str], alias: str, view: str) -> None:
        self.keeping, self.joined, self.alias, self.view = keeping, joined, alias, view
        self.join, self.where = kept_conditions(joined, conditions, group)
        self.columns: dict[tuple[str, str], tuple[str, str, Leaf]] = {}
        self.sums: dict[str, str] = {}
        self.extremes: dict[tuple[str, str, str], tuple[str, str, Leaf]] = {}
        self.is_weighted = False
        # Where only the first row of each group is read.
        self.first: First | None = None
        # Where an outer join finds nothing, all columns are NULL, also those of expressions that would not be.
        self.is_nullable = False

    def column(self, leaf: Leaf) -> Node:
        """The column of a leaf in the read view."""
        key = leaf.alias, leaf.text
        if key not in self.columns:
            self.columns[key] = f"c{len(self.columns) + 1}", self.joined.leaf(leaf), leaf
        return tree.column(self.alias, self.columns[key][0])

    def is_of_key(self, leaf: Leaf) -> bool:
        """Whether an expression is computed as it is read, since it reads nothing but columns of a key, which are kept in any case."""
        return not self.is_weighted and not leaf.is_plain and leaf.reads <= set(self.joined.mirrors[leaf.alias].key)

    def summed(self, expression: str, leaf: Leaf) -> str:
        """The column of what a row expression adds up to, in SQL."""
        reference = self.joined.reference(leaf.alias, "int", expression, leaf.reads)
        return f"{self.alias}.{self.sums.setdefault(reference, f's{len(self.sums) + 1}')}"

    def extreme(self, name: str, leaf: Leaf) -> str:
        """The column of the least or the largest of a leaf in all rows that one stands for, in SQL."""
        key = name, leaf.alias, leaf.text
        if key not in self.extremes:
            self.extremes[key] = f"m{len(self.extremes) + 1}", self.joined.leaf(leaf), leaf
        return f"{self.alias}.{self.extremes[key][0]}"

    def item(self) -> Node:
        """The item of the FROM, once all leaves are asked for."""
        self.joined.complete()
        if self.first is not None:
            return self.of_first(self.first)
        if len(self.joined.mirrors) == 1 and (not self.is_weighted or self.has_key()):
            return self.of_mirror()
        return self.of_summary() if self.is_weighted else self.of_view()

    def has_key(self) -> bool:
        """Whether each row of one table has leaves of its own, as those have that have its key."""
        (mirror,) = self.joined.mirrors.values()
        plain = {name for _, _, leaf in self.columns.values() for name in leaf.reads if tree.printed(tree.column("r", name)) == leaf.text}
        return bool(mirror.key) and plain.issuperset(mirror.key)

    def of_mirror(self) -> Node:
        """The rows of one table that pass."""
        (mirror,) = self.joined.mirrors.values()
        tests = [test(formula, self.keeping.words) for formula in self.where]
        where = f" WHERE {' AND '.join(tests)}" if tests else ""
        shown = self.shown({reference: column_of(reference) for _, reference, _ in self.columns.values()})
        if self.is_weighted:
            shown += [f"{self.keeping.words.constant(1)} AS n", *(f"k.{named(column_of(reference))} AS {name}" for reference, name in self.sums.items())]
            shown += [f"{leaf.encoding.read(f'k.{named(column_of(reference))}')} AS {name}" for name, reference, leaf in self.extremes.values()]
        many = "" if mirror.key else self.keeping.words.times('k."#"')
        return tree.from_item(f"(SELECT {', '.join(shown) or '1'} FROM {named(self.keeping.schema, mirror.name)} AS k{many}{where}) AS {self.alias}")

    def outputs(self) -> list[tuple[str, Formula]]:
        """The leaves, as a view keeps them."""
        return [(name, reference) for name, reference, _ in self.columns.values()]

    def shown(self, names: Mapping[str, str]) -> list[str]:
        """The leaves as they are read, from columns of these names."""
        return [f"{leaf.encoding.read(f'k.{named(names[reference])}')} AS {name}" for name, reference, leaf in self.columns.values()]

    def of_view(self) -> Node:
        """The rows of a joined view."""
        kept = self.keeping.view(Kept("", self.joined.over(), self.join, self.where, self.outputs() or [("one", 1)]), self.view)
        shown = self.shown({str(reference): name for name, reference in kept.outputs})
        many = self.keeping.words.times('k."#"')
        return tree.from_item(f"(SELECT {', '.join(shown) or '1'} FROM {named(self.keeping.schema, kept.name)} AS k{many}) AS {self.alias}")

    def of_summary(self) -> Node:
        """All rows that have the same leaves as one, with their number and what they add up to."""
        sums: list[tuple[str, Formula]] = [(name, reference) for reference, name in self.sums.items()]
        kept = self.keeping.view(Kept("", self.joined.over(), self.join, self.where, self.outputs(), True, sums), self.view)
        names, numbers = {str(reference): name for name, reference in kept.outputs}, dict(zip(self.sums.values(), (name for name, _ in kept.sums)))
        shown = [*self.shown(names), "k.n", *(f"k.{kept_as} AS {name}" for name, kept_as in numbers.items())]
        joins = ""
        for (function, _, _), (name, reference, leaf) in self.extremes.items():
            joins += self.joined_extreme(function, name, reference, leaf, names)
            shown.append(f"{leaf.encoding.without_modifier.read(f'{name}.m')} AS {name}" if self.is_looked_up(leaf) else f"{name}.m AS {name}")
        return tree.from_item(f"(SELECT {', '.join(shown)} FROM {named(self.keeping.schema, kept.name)} AS k{joins}) AS {self.alias}")

    def shown_at(self, at: Callable[[str], str]) -> list[str]:
        """The leaves as they are read, from where each column of what is kept stands."""
        return [f"{leaf.encoding.read(at(reference))} AS {name}" for name, reference, leaf in self.columns.values()]

    def of_first(self, first: First) -> Node:
        """The first row of each group, where a mirror's key does not find it: groups are kept by themselves, and rows by what they are grouped and ordered
        by, in this order."""
        by_its_key = by_key(self.keeping, self.joined, self.join, self.where, first)
        if by_its_key is not None:
            return tree.from_item(f"({by_its_key.item(self.view, self.shown_at)}) AS {self.alias}")
        kept_as = {(each.alias, each.text): self.columns[each.alias, each.text] for each in first.groups}
        groups: list[tuple[str, Formula]] = [(name, reference) for name, reference, _ in kept_as.values()]
        kept, by_group = (self.keeping.view(Kept("", self.joined.over(), self.join, self.where, outputs, True), self.view) for outputs in (self.outputs(), groups))
        names = {str(reference): name for name, reference in by_group.outputs}
        matched = [same(f"b.{name}", f"g.{names[reference]}", leaf.encoding) for name, reference, leaf in kept_as.values()]
        row = first.row(f"{named(self.keeping.schema, kept.name)} AS b", matched, lambda leaf: self.columns[leaf.alias, leaf.text][0])
        shown = self.shown({str(reference): name for name, reference in kept.outputs})
        return tree.from_item(f"(SELECT {', '.join(shown)} FROM {named(self.keeping.schema, by_group.name)} AS g CROSS JOIN {row}) AS {self.alias}")

    def is_looked_up(self, leaf: Leaf) -> bool:
        """Whether the least or the largest of a leaf is found by an index."""
        return self.keeping.words.looks_up and leaf.encoding.is_ordered and has_room(len(self.columns) + 1)

    def joined_extreme(self, function: str, name: str, reference: str, leaf: Leaf, names: Mapping[str, str]) -> str:
        """What joins the least or the largest of a leaf, of the view that keeps it by the leaves and by itself."""
        outputs: list[tuple[str, Formula]] = [*self.outputs(), ("v", reference)]
        kept = self.keeping.view(Kept("", self.joined.over(), self.join, self.where, outputs, True), self.view)
        table, keys = f"{named(self.keeping.schema, kept.name)} AS b", [said for said, _, _ in self.columns.values()]
        if self.is_looked_up(leaf):
            matched = [same(f"b.{key}", f"k.{named(names[of])}", each.encoding) for key, of, each in self.columns.values()]
            there = " AND ".join([*matched, f"b.v > {leaf.encoding.null}"])
            return f" LEFT JOIN LATERAL (SELECT {function}(b.v) AS m FROM {table} WHERE {there}) AS {name} ON TRUE"
        by = ", ".join(f"b.{key}" for key in keys)
        on = " AND ".join(f"{name}.{key} = k.{named(names[of])}" for key, of, _ in self.columns.values()) or "TRUE"
        listed = f"{by}, " if by else ""
        grouped = f" GROUP BY {by}" if by else ""
        return f" LEFT JOIN (SELECT {listed}{function}({leaf.encoding.read('b.v')}) AS m FROM {table}{grouped}) AS {name} ON {on}"


def test(formula: Formula, words: Words) -> str:
    """A comparison of one column of what is kept, in SQL."""
    assert isinstance(formula, list)
    sign, reference, value = formula
    shown = f"'{value['text']}'" if isinstance(value, dict) else words.constant(int(str(value)))
    return f"k.{named(column_of(str(reference)))} {sign} {shown}"
