"""SQLite's words for what a read view is made of. Its whole numbers have 64 bits, and numbers with places are doubles there."""

from __future__ import annotations

from ..asked import Judged
from ..kinds import Encoding
from ..leaves import Leaf
from ..words import Sums
from .kinds import Kind, encoding

# The table of whole numbers from 1, by which rows come as often as they count.
NUMBERS = "~numbers"


class SQLiteWords:
    """SQLite's."""

    # What is kept is read whole into SQLite, without indexes.
    looks_up = False

    def encoding(self, judged: Judged) -> Encoding | None:
        return encoding(judged)

    def keeps(self, kind: Kind) -> bool:
        """Whether what is computed of a row, and is of a kind, is kept so that it is read as it was."""
        return kind.name not in ("real", "null") and (kind.is_number or kind.is_text)

    def whole(self, said: str) -> str:
        return said

    def constant(self, number: int) -> str:
        return f"'{number}'::bigint"

    def times(self, many: str) -> str:
        return f' JOIN "{NUMBERS}" AS often ON often.i <= {many}'

    def flag(self, test: str) -> str:
        return f"CASE WHEN {test} THEN 1 ELSE 0 END"

    def units(self, leaf: Leaf) -> str:
        digits = leaf.judged.digits
        return f"coalesce(CAST(round(({leaf.text}) * {10 ** digits[1]}) AS bigint), 0)" if digits else f"coalesce({leaf.text}, 0)"

    def strange(self, leaf: Leaf) -> str | None:
        return None

    def is_strange(self, said: str) -> bool:
        return False

    def product(self, factors: list[str]) -> str:
        return " * ".join(factors)

    def total(self, sums: Sums) -> str:
        said = f"({sums.units}) / {10 ** sums.places}.0" if sums.type == "numeric" else sums.units
        return f"CASE WHEN {sums.there} > 0 THEN {said} END"

    def mean(self, sums: Sums) -> str:
        return f"CASE WHEN {sums.there} > 0 THEN ({sums.units}) / {10 ** sums.places}.0 / ({sums.there}) END"
