"""The first row of each group, where the key of one mirror finds it: beside the mirrors nothing but the groups is kept for it then."""

from __future__ import annotations

from collections.abc import Callable, Mapping, Sequence
from dataclasses import dataclass, field, replace

from .asked import named, quoted
from .divided import references
from .keeping import Joined, Keeping
from .leaves import Leaf
from .lookups import First
from .record import Formula, Kept, Mirror

# Two columns that a join makes equal, each with its mirror.
Pairs = Sequence[tuple[str, str]]


def column_of(reference: str) -> str:
    """The bare name of a column."""
    return reference.partition(".")[2]


def mirror_of(reference: str) -> str:
    """The mirror that a column is of."""
    return reference.partition(".")[0]


def plain_number(leaf: Leaf) -> str | None:
    """The column that a leaf is as it stands, if it is kept as a number."""
    return next(iter(leaf.reads)) if leaf.is_plain and leaf.encoding.kind == "int" else None


def key_begins_with(mirror: Mirror, first: First) -> bool:
    """Whether a mirror's key has the columns of the groups first, and then those of the order."""
    groups, steps = ([plain_number(leaf) for leaf in leaves] for leaves in (first.groups, [each.leaf for each in first.steps]))
    many = len(groups)
    is_longer = many < len(mirror.key)
    return is_longer and set(mirror.key[:many]) == set(groups) and all(one == other for one, other in zip(mirror.key[many:], steps))


@dataclass(slots=True)
class Sides:
    """The mirrors beside the one of the rows, in an order in which each has one row at most for a group: with what it is joined by."""

    groups: frozenset[str]
    joined_by: dict[str, list[tuple[str, str]]] = field(default_factory=dict)

    def is_known(self, reference: str) -> bool:
        """Whether a column is the same in all rows of a group."""
        return reference in self.groups or mirror_of(reference) in self.joined_by

    def pairs(self, mirror: Mirror, join: Pairs) -> list[tuple[str, str]]:
        """The columns of a mirror that equal known ones."""
        turned = [*join, *((right, left) for left, right in join)]
        return [(own, other) for own, other in turned if mirror_of(own) == mirror.name and self.is_known(other)]

    def grow(self, mirrors: Sequence[Mirror], join: Pairs) -> None:
        """Takes up all that are joined by their keys."""
        left = list(mirrors)
        while found := next((each for each in left if self.is_led_to(each, join)), None):
            self.joined_by[found.name] = self.pairs(found, join)
            left.remove(found)

    def is_led_to(self, mirror: Mirror, join: Pairs) -> bool:
        """Whether there is one row at most of a mirror for those that are known."""
        return bool(mirror.key) and {column_of(own) for own, _ in self.pairs(mirror, join)}.issuperset(mirror.key)


class ByKey:
    """Joined mirrors, of which one has the rows, in the order of its key."""

    def __init__(self, keeping: Keeping, mirrors: Sequence[Mirror], main: Mirror, sides: Sides, where: Sequence[Formula], first: First) -> None:
        self.keeping, self.main, self.sides, self.where, self.first = keeping, main, sides, where, first
        self.items = {main.name: "k", **{each.name: f"d{at}" for at, each in enumerate((each for each in mirrors if each is not main), 1)}}

    def item(self, view: str, shown: Callable[[Callable[[str], str]], list[str]]) -> str:
        """A query for the first row of each group, once the leaves are asked for; `shown` reads them from columns by where these stand. What is joined is found
        by the group alone, before a row is looked for."""
        outputs: list[tuple[str, Formula]] = [(column_of(each), each) for each in sorted(self.sides.groups)]
        kept = self.keeping.view(Kept("", [self.main.name], [], [], outputs, True), view)
        groups = {str(reference): name for name, reference in kept.outputs}
        joins = "".join(f" JOIN {self.table(name)} AS {self.items[name]} ON {self.equal(pairs, groups)}" for name, pairs in self.sides.joined_by.items())
        matched = [f"b.{named(column_of(each))} = g.{named(name)}" for each, name in sorted(groups.items())]
        row = self.first.row(f"{self.table(self.main.name)} AS b", matched, lambda leaf: named(str(plain_number(leaf))))
        tests = " AND ".join(map(self.test, self.where))
        return f"SELECT {', '.join(shown(self.at)) or '1'} FROM {self.table(kept.name)} AS g{joins} CROSS JOIN {row}{f' WHERE {tests}' if tests else ''}"

    def table(self, name: str) -> str:
        return named(self.keeping.schema, name)

    def at(self, reference: str) -> str:
        """Where a column stands."""
        return f"{self.items[mirror_of(reference)]}.{named(column_of(reference))}"

    def equal(self, pairs: Pairs, groups: Mapping[str, str]) -> str:
        """That columns of a mirror equal those that are known of a group."""
        sides = [(self.at(own), f"g.{named(groups[other])}" if other in groups else self.at(other)) for own, other in pairs]
        return " AND ".join(f"{own} = {other}" for own, other in sides)

    def test(self, formula: Formula) -> str:
        """A comparison of a column with a number or a text."""
        assert isinstance(formula, list)
        sign, reference, value = formula
        shown = quoted(value["text"]) if isinstance(value, dict) else self.keeping.words.constant(int(str(value)))
        return f"{self.at(str(reference))} {sign} {shown}"


def by_key(keeping: Keeping, joined: Joined, join: Pairs, where: Sequence[Formula], first: First) -> ByKey | None:
    """How the first row of each group is found by the key of one mirror, if it is: what it is joined with, and what is asked, is the same for a group."""
    aliases = {each.alias for each in (*first.groups, *(step.leaf for step in first.steps))}
    if len(aliases) != 1 or joined.kept_of:
        return None
    mirrors, main = list(joined.mirrors.values()), joined.mirrors[next(iter(aliases))]
    groups = frozenset(f"{main.name}.{plain_number(each)}" for each in first.groups)
    others, asked = [each for each in mirrors if each is not main], [references(formula) for formula in where]
    is_of_groups = all(mirror_of(each) != main.name or each in groups for pair in join for each in pair)
    is_of_sides = all(len(list(each)) == 1 and mirror_of(next(iter(each))) != main.name for each in asked)
    sides = Sides(groups)
    sides.grow(others, join)
    if not (key_begins_with(main, first) and is_of_groups and is_of_sides and len(sides.joined_by) == len(others)):
        return None
    # Behind the whole key nothing is left to order.
    return ByKey(keeping, mirrors, main, sides, where, replace(first, steps=first.steps[: len(main.key) - len(groups)]))
