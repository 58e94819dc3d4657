"""What is kept, divided into warehouses, each of as many views and columns as a catalogue may have. A mirror is one table for all of them, of which each has the
columns that its views read."""

from __future__ import annotations

from collections.abc import Iterable, Sequence
from dataclasses import dataclass, field, replace

from .record import MOST_COLUMNS, MOST_VIEWS, Decomposition, Formula, Kept, Mirror
from .refused import Refused


@dataclass(slots=True)
class Part:
    """A warehouse: the views that it keeps, and of each mirror that it reads the names of the columns."""

    kept: dict[str, Kept] = field(default_factory=dict)
    columns: dict[str, set[str]] = field(default_factory=dict)

    def with_more(self, other: Part) -> Part:
        """What two of them have."""
        names = {*self.columns, *other.columns}
        return Part({**self.kept, **other.kept}, {each: self.columns.get(each, set()) | other.columns.get(each, set()) for each in names})

    @property
    def size(self) -> int:
        """How many views it has."""
        return len(self.kept) + len(self.columns)

    @property
    def has_room(self) -> bool:
        """Whether a catalogue may have all of it."""
        return self.size <= MOST_VIEWS and all(len(each) <= MOST_COLUMNS for each in self.columns.values())


def references(formula: Formula) -> Iterable[str]:
    """The columns in an expression, each behind the name of its view."""
    if isinstance(formula, str):
        return [formula]
    return [each for member in formula[1:] for each in references(member)] if isinstance(formula, list) else []


class Divided:
    """Divides a decomposition."""

    def __init__(self, decomposition: Decomposition) -> None:
        self.decomposition = decomposition
        self.mirrors = {each.name: each for each in decomposition.mirrors}
        self.kept = {each.name: each for each in decomposition.kept}

    def parts(self) -> list[Decomposition]:
        """The warehouses, of which there is one where that has room for all."""
        many = len(self.mirrors) + len(self.kept)
        if many <= MOST_VIEWS and all(len(each.columns) <= MOST_COLUMNS for each in self.mirrors.values()):
            return [self.decomposition]
        found: list[Part] = []
        for each in self.kept.values():
            self.put(found, self.needed(each), f"the view {each.name}")
        for mirror in self.mirrors.values():
            for names in self.left_of(mirror, found):
                self.put(found, Part(columns={mirror.name: {*mirror.key, *names}}), f"the table {mirror.table}")
        return [self.made(each) for each in found]

    def put(self, found: list[Part], wanted: Part, what: str) -> None:
        """Puts something into the warehouse that grows the least by it, or into a new one."""
        if not wanted.has_room:
            cause = f"more than {MOST_VIEWS} views would be read for it, or more than {MOST_COLUMNS} columns of a table"
            raise Refused(what, cause, "have fewer conditions and columns in it")
        grown = [(more.size - one.size, at, more) for at, one in enumerate(found) if (more := one.with_more(wanted)).has_room]
        if grown:
            _, at, more = min(grown, key=lambda each: each[:2])
            found[at] = more
        else:
            found.append(wanted)

    def needed(self, kept: Kept) -> Part:
        """What a view is made from, and itself."""
        found = Part({kept.name: kept})
        listed = [each for pair in kept.join for each in pair]
        listed += [each for formula in (*kept.where, *(one for _, one in (*kept.outputs, *kept.sums))) for each in references(formula)]
        for name in kept.over:
            mirror = self.mirrors.get(name)
            columns = {said for view, _, said in (each.partition(".") for each in listed) if view == name}
            if mirror is None:
                below = self.needed(self.kept[name])
                found = Part({**below.kept, **found.kept}, Part(columns=found.columns).with_more(below).columns)
            else:
                found = found.with_more(Part(columns={name: {*mirror.key, *(columns or {mirror.columns[0].name})}}))
        return found

    def left_of(self, mirror: Mirror, found: Sequence[Part]) -> list[list[str]]:
        """The columns of a mirror that only readers read, in pieces that have room beside its key."""
        there = set[str]().union(*(each.columns.get(mirror.name, set()) for each in found))
        left, most = [each.name for each in mirror.columns if each.name not in there], MOST_COLUMNS - len(mirror.key)
        return [left[at : at + most] for at in range(0, len(left), most)]

    def made(self, part: Part) -> Decomposition:
        """A warehouse, with its views in their order."""
        mirrors = [replace(each, columns=[column for column in each.columns if column.name in part.columns[each.name]])
                   for each in self.mirrors.values() if each.name in part.columns]
        return Decomposition(mirrors, [each for each in self.kept.values() if each.name in part.kept])
