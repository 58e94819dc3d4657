"""How an engine says what a read view is made of: values turned back, sums in units, rows as often as they count. PostgreSQL's words; others have theirs
beside their own types."""

from __future__ import annotations

from dataclasses import dataclass
from typing import Protocol

from .asked import Judged
from .kinds import Encoding, encoding, part_of
from .leaves import Leaf

WHOLES = ("int2", "int4", "int8")
SMALL = ("int2", "int4")


@dataclass(frozen=True, slots=True)
class Sums:
    """What a sum or an average is made of, in SQL: its units of 10^-places, the type of what is added up, in how many rows it is there, and in how many it is
    strange, if it can be."""

    units: str
    places: int
    type: str
    there: str
    strange: str | None


class Words(Protocol):
    """The words of an engine. `looks_up` says whether indexes of what is kept find single rows."""

    looks_up: bool

    def encoding(self, judged: Judged) -> Encoding | None:
        """How values of a type are kept, or None where they are not."""

    def whole(self, said: str) -> str:
        """A whole number as a count has it."""

    def constant(self, number: int) -> str:
        """A whole number that is written."""

    def times(self, many: str) -> str:
        """What stands behind an item of a FROM whose rows come so many times."""

    def flag(self, test: str) -> str:
        """1 where a test of a row is true, and else 0."""

    def units(self, leaf: Leaf) -> str:
        """A number in its units, and 0 where it is not there."""

    def strange(self, leaf: Leaf) -> str | None:
        """A test whether a number is one by which a sum becomes something else than the others, or None where none is."""

    def is_strange(self, said: str) -> bool:
        """Whether a number that is written is such a one."""

    def product(self, factors: list[str]) -> str:
        """A product of whole numbers, of any width."""

    def total(self, sums: Sums) -> str:
        """A sum, or NULL where nothing is there."""

    def mean(self, sums: Sums) -> str:
        """Such a sum, divided by how many are there."""


# The planner takes a series of unknown length for a thousand rows, and would have a view over it compiled for a second. Most rows stand there once, and that is
# what it expects of these conditions, which hold of each number.
TIMES = " CROSS JOIN LATERAL (SELECT FROM generate_series(1, {many}) AS s (x) WHERE s.x * 0 = 0 AND 0 * s.x = 0) AS times"


class PostgreSQLWords:
    """PostgreSQL's."""

    looks_up = True

    def encoding(self, judged: Judged) -> Encoding | None:
        return encoding(judged)

    def whole(self, said: str) -> str:
        return f"({said})::bigint"

    def constant(self, number: int) -> str:
        return f"'{number}'::bigint"

    def times(self, many: str) -> str:
        return TIMES.format(many=many)

    def flag(self, test: str) -> str:
        return f"(CASE WHEN {test} THEN 1 ELSE 0 END)::bigint"

    def units(self, leaf: Leaf) -> str:
        if leaf.judged.type in WHOLES:
            return f"coalesce(({leaf.text})::bigint, 0)"
        shown, unit = f"CASE WHEN {self.strange(leaf)} THEN 0 ELSE ({leaf.text}) END", 10 ** (leaf.judged.digits or (0, 0))[1]
        return f"coalesce((({shown}) * '{unit}'::numeric)::bigint, 0)"

    def strange(self, leaf: Leaf) -> str | None:
        return None if leaf.judged.type in WHOLES else f"({leaf.text}) = 'NaN'::numeric"

    def is_strange(self, said: str) -> bool:
        return False

    def product(self, factors: list[str]) -> str:
        return " * ".join(f"{each}::numeric" for each in factors)

    def exact(self, units: str, places: int) -> str:
        """A sum with its places."""
        return f"({units})::numeric * '{part_of(places)}'::numeric" if places else f"({units})::numeric"

    def total(self, sums: Sums) -> str:
        return self.unless_strange(sums, f"({sums.units})::bigint" if sums.type in SMALL else self.exact(sums.units, sums.places))

    def mean(self, sums: Sums) -> str:
        return self.unless_strange(sums, f"{self.exact(sums.units, sums.places)} / ({sums.there})::numeric")

    def unless_strange(self, sums: Sums, said: str) -> str:
        """What a sum or an average is, unless a NaN is among what is added up."""
        strange_first = f"WHEN {sums.strange} > 0 THEN 'NaN'::numeric " if sums.strange else ""
        return f"CASE {strange_first}WHEN {sums.there} > 0 THEN {said} END"
