"""How rows of captured tables are found, and what stands in their keys and indexes."""

from __future__ import annotations

from collections.abc import Iterable, Mapping, Sequence
from typing import TYPE_CHECKING

from ..access import ByColumns
from ..creation import declared_columns
from ..digested import listed_in_index
from ..digests import same_texts
from ..engine import Engine
from ..keys import Keys
from ..shape import Spot
from ..steps import Operand, Term
from ..tables import WIDEST_INDEX, Tables
from ..tokens import Sql, joined, name, sql, text
from .computed import traced

if TYPE_CHECKING:
    from .sources import Source


class CapturedAccess(ByColumns):
    """Tables of the night's own, whose keys are those of the tables that they mirror."""

    def __init__(self, tables: Tables[Engine], keys: Mapping[int, tuple[int, ...]]) -> None:
        super().__init__(tables, keys)
        self.name_all()

    def name_all(self) -> None:
        """Names that are cut are told apart in the order in which they are asked for first: whatever is written, that of the views."""
        indexes = self.tables.asked_for()
        for v in range(len(self.views)):
            self.constraint(v, self.key_of(v, {}))
            more = range(1, len(indexes[v]) + 1)
            for suffix in (*more, *(() if self.views[v].over else ("changes", "capture", "parting"))):
                self.tables.said(v, f"~{suffix}")
        for v in self.steps.base():
            self.tables.said(v, "~logged")

    # ---- keys

    def key_of(self, v: int, sources: Mapping[int, Source]) -> list[str]:
        """The names of the columns of a view's key: what the night goes by, or that of the table that it mirrors."""
        if v in self.keys:
            return [self.views[v].columns[place][0] for place in self.keys[v]]
        return list(sources[v].key) if v in sources else []

    def columns_with_key(self, v: int, key: Sequence[str]) -> list[Sql]:
        """The columns of a table, whose key is the source's where it has one."""
        constraint = self.constraint(v, key)
        return [*declared_columns(self.tables, v), *([constraint] if constraint else [])]

    def constraint(self, v: int, key: Sequence[str]) -> Sql | None:
        """That each key, or each row or group, stands once; nothing where that is of too many columns, or of none."""
        columns = [name(self.tables.columns[v].of(said)) for said in key] or self.tables.users(v)[: self.shape.groups(v)]
        return self.constraint_of(v, columns)

    def is_digested(self, v: int, place: int) -> bool:
        """Whether a column stands in indexes by its digest."""
        return False

    def indexed(self, v: int) -> list[Sql]:
        """The indexes of a table are made anew, by the columns by which views are joined with it."""
        return [*self.unindexed(v), *self.indexes_of(v)]

    def unindexed(self, v: int) -> list[Sql]:
        """These indexes go."""
        many = len(self.tables.asked_for()[v])
        return [sql("DROP INDEX IF EXISTS {index}", index=self.dialect.table(self.tables.said(v, f"~{at}"))) for at in range(1, many + 1)]


def captured_keys(tables: Tables[Engine]) -> dict[int, tuple[int, ...]]:
    """Of each view that has one the places of its key. A text of a joined view's key has to be one of a key of the application's: in no index of
    its own has a text by which only a view is grouped to have room."""
    found, views, shape = Keys(tables.catalogue, tables.shape).found, tables.views, tables.shape
    of_base = {(u, place) for u, key in found.items() if not views[u].over for place in key}
    texts = {v: [place for place in key if tables.is_text(v, place)] for v, key in found.items() if views[v].over and not shape.is_summary(v)}
    return {v: key for v, key in found.items() if all(traced(shape, v, place) in of_base for place in texts.get(v, ()))}


class KeyedAccess(CapturedAccess):
    """The same in PostgreSQL, where texts have any length. The catalogue's keys are keys of the application's tables too, whose own indexes have room
    for them; all other indexes are over digests where they are over texts."""

    def is_digested(self, v: int, place: int) -> bool:
        return self.tables.is_text(v, place)

    def is_keyed(self, v: int) -> bool:
        return v in self.keys and not self.shape.is_summary(v)

    def is_told_by_key(self, v: int) -> bool:
        """Whether each row of a view's table counts once."""
        return v in self.keys or self.shape.is_summary(v)

    def key(self, v: int) -> tuple[int, ...]:
        return self.keys[v] if self.is_keyed(v) else ()

    def counts_once(self, operand: Operand) -> bool:
        return super().counts_once(operand) or (operand.view in self.keys and not operand.is_change)

    # ---- indexes

    def unique_places(self, v: int, key: Sequence[str]) -> Sequence[int]:
        """The places of what stands once in a view's table where an index over digests sees to it, or none."""
        names = [column for column, _ in self.views[v].columns]
        places = [names.index(said) for said in key] if key and not self.shape.is_summary(v) else range(self.shape.groups(v))
        is_wanted = not self.is_keyed(v) and len(places) <= WIDEST_INDEX and any(self.tables.is_text(v, place) for place in places)
        return places if is_wanted else ()

    def constraint(self, v: int, key: Sequence[str]) -> Sql | None:
        """None where an index sees to it, which has the constraint's name."""
        if not self.unique_places(v, key):
            return super().constraint(v, key)
        self.tables.said(v, "~key")
        return None

    def unique_of(self, v: int, key: Sequence[str]) -> list[Sql]:
        """The index that sees to it that each row or group stands once, where no constraint does."""
        places, tables = self.unique_places(v, key), self.tables
        made = "CREATE UNIQUE INDEX {index} ON {table} ({listed})"
        return [sql(made, index=name(tables.said(v, "~key")), table=tables.table(v), listed=self.listed(v, places))] if places else []

    def listed(self, v: int, places: Iterable[int]) -> Sql:
        return listed_in_index(self.tables.users(v), self.tables.kinds(v), places)

    def with_key(self, v: int, key: Sequence[str]) -> list[Sql]:
        """What sees to it that each row or group stands once, by the columns of this key or by all."""
        constraint = self.constraint(v, key)
        return [sql("ALTER TABLE {table} ADD {key}", table=self.tables.table(v), key=constraint)] if constraint else self.unique_of(v, key)

    def without_key(self, v: int) -> list[Sql]:
        """What sees to it that each row or group stands once goes, be it a constraint or an index, without a word where it is not there."""
        key = self.tables.said(v, "~key")
        table, index = self.tables.table(v), self.dialect.table(key)
        (said,) = self.dialect.written([table])
        is_constraint = sql("EXISTS (SELECT 1 FROM pg_constraint AS k WHERE k.conrelid = to_regclass({table}) AND k.conname = {key})", table=text(said),
                            key=text(key))
        is_index = sql("to_regclass({index}) IS NOT NULL", index=text(self.dialect.written([index])[0]))
        dropped = (
            (is_constraint, sql("ALTER TABLE {table} DROP CONSTRAINT {key}", table=table, key=name(key))),
            (is_index, sql("DROP INDEX {index}", index=index)),
        )
        return [each for test, statement in dropped for each in self.dialect.only_where(test, [statement])]

    # ---- how rows are found

    def found_by(self, v: int, pairs: Iterable[tuple[int, Sql, Sql]]) -> Sql:
        """Whether a row of a view's table is one of a change, by the pairs of their columns with their places."""
        return joined([same_texts(a, b) if self.tables.is_text(v, place) else sql("{a} = {b}", a=a, b=b) for place, a, b in pairs], "AND")

    def group(self, v: int) -> Sql:
        pairs = [(place, a, b) for place, (a, b) in enumerate(zip(self.tables.read(v), self.tables.cells(v, "d")[: self.shape.groups(v)]))]
        return self.found_by(v, pairs) if pairs else sql("1 = 1")

    def matched(self, v: int, term: Term, pair: tuple[Spot, Spot]) -> Sql:
        """Whether two columns are equal by which a child is joined, the second of which is its own: as its indexes want it."""
        a, b = (self.tables.spot(term, spot) for spot in pair)
        operand, column = term[pair[1].child], pair[1].column
        plain, key = sql("{a} = {b}", a=a, b=b), self.key(operand.view)
        if operand.is_change or not self.tables.is_text(operand.view, column) or not any(each.is_change for each in term):
            return plain
        is_in_others = any(column in columns and columns != key for columns in self.tables.asked_for()[operand.view])
        if column not in key:
            return same_texts(a, b)
        return sql("{plain} AND {same}", plain=plain, same=same_texts(a, b)) if is_in_others else plain
