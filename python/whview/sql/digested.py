"""Texts of any length in the tables that --create makes in PostgreSQL. What sees to it that a row or a group stands once is over digests where it is
over texts, and so is an index by which tables are joined; a text by which somebody may ask has a hash index, which has room for all and finds it as it
is. The catalogue's keys stay as they are, since the application may refer to them."""

from __future__ import annotations

from collections.abc import Iterable, Sequence

from .access import ByColumns
from .digests import in_index
from .shape import Spot
from .steps import Term
from .tables import WIDEST_INDEX
from .tokens import Sql, joined, name, sql


class ByDigests(ByColumns):
    """The indexes of these tables, and how rows are found by them. Tables that were made otherwise have their own, by which the same rows are found."""

    def unique_places(self, v: int) -> Sequence[int]:
        """The places of what stands once where an index over digests sees to it, or none."""
        is_keyed = not self.shape.is_summary(v) and v in self.tables.said_keys
        places = range(self.shape.groups(v))
        is_wanted = not is_keyed and v not in self.shape.plain and len(places) <= WIDEST_INDEX and any(self.tables.is_text(v, place) for place in places)
        return places if is_wanted else ()

    def constraint_of(self, v: int, columns: list[Sql]) -> Sql | None:
        """None where an index sees to it, which has the constraint's name."""
        return None if self.unique_places(v) else super().constraint_of(v, columns)

    def listed(self, v: int, places: Iterable[int]) -> Sql:
        return listed_in_index(self.tables.users(v), self.tables.kinds(v), places)

    def indexes(self) -> list[Sql]:
        return [each for v in range(len(self.views)) for each in [*self.unique_of(v), *self.indexes_of(v)]]

    def unique_of(self, v: int) -> list[Sql]:
        """The index over digests, and beside it one of the first column, by which it finds nobody's own question where that is a text."""
        places, tables = self.unique_places(v), self.tables
        if not places:
            return []
        made = sql("CREATE UNIQUE INDEX {index} ON {table} ({listed})", index=name(tables.said(v, "~key")), table=tables.table(v), listed=self.listed(v, places))
        return [made, *([self.hashed(v, "~text", places[0])] if tables.is_text(v, places[0]) else [])]

    def hashed(self, v: int, suffix: str, place: int) -> Sql:
        return sql("CREATE INDEX {index} ON {table} USING hash ({column})", index=name(self.tables.said(v, suffix)), table=self.tables.table(v),
                   column=self.tables.users(v)[place])

    def indexes_of(self, u: int) -> list[Sql]:
        """Those by which a table is joined, but for what its key serves: over one text alone a hash index, unless there is one."""
        found = []
        for at, columns in enumerate(self.tables.asked_for()[u], 1):
            if columns == self.key_places(u):
                continue
            if len(columns) == 1 and self.tables.is_text(u, columns[0]):
                found += [] if list(self.unique_places(u)[:1]) == list(columns) else [self.hashed(u, f"~{at}", columns[0])]
            else:
                made = "CREATE INDEX {index} ON {table} ({listed})"
                found.append(sql(made, index=name(self.tables.said(u, f"~{at}")), table=self.tables.table(u), listed=self.listed(u, columns)))
        return found

    # ---- how rows are found: what stands in an index over digests beside what is compared

    def same(self, v: int, count: int | None = None) -> Sql:
        places, pairs = self.unique_places(v), list(zip(self.tables.read(v), self.tables.cells(v, "d")))[:count]
        digests = [same_digests(*pairs[place]) for place in places if place < len(pairs) and self.tables.is_text(v, place)]
        return joined([super().same(v, count), *digests], "AND")

    def matched(self, v: int, term: Term, pair: tuple[Spot, Spot]) -> Sql:
        plain, operand, column = super().matched(v, term, pair), term[pair[1].child], pair[1].column
        is_digested = not operand.is_change and self.tables.is_text(operand.view, column) and any(each.is_change for each in term) and any(
            column in columns and len(columns) > 1 and columns != self.key_places(operand.view) for columns in self.tables.asked_for()[operand.view])
        if not is_digested:
            return plain
        return sql("{plain} AND {digests}", plain=plain, digests=same_digests(*(self.tables.spot(term, spot) for spot in pair)))


def same_digests(one: Sql, other: Sql) -> Sql:
    return sql("{one} = {other}", one=in_index(one), other=in_index(other))


def listed_in_index(columns: Sequence[Sql], kinds: Sequence[str], places: Iterable[int]) -> Sql:
    """Columns as they stand in an index: a text by its digest."""
    return joined([sql("({said})", said=in_index(columns[place])) if kinds[place] == "text" else columns[place] for place in places])
