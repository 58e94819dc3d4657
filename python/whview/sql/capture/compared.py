"""What a table of the nights ought to have, and what it has: a mirror with the changes that wait beside its table, a view beside what its
definition gives over the tables below it."""

from __future__ import annotations

import hashlib
from collections.abc import Mapping, Sequence
from typing import TYPE_CHECKING, NamedTuple

from ..dialect import COUNT, summed
from ..tokens import Sql, joined, number, sql, word

if TYPE_CHECKING:
    from .live import LiveScript, Session
    from .sources import Source


class Query(NamedTuple):
    """A query: the template of its columns, that of its rest, and what stands in their holes."""

    columns: str
    rest: str
    parts: dict[str, Sql]


class Compared:
    """The relations that are compared, by the numbers of views; `instead` has those that stand for tables which are not as they should be."""

    def __init__(self, script: LiveScript, sources: Mapping[int, Source]) -> None:
        self.script, self.dialect, self.sources = script, script.dialect, sources
        self.kept_wanted: dict[int, Sql] = {}

    # ---- what there is, and what there ought to be

    def held(self, v: int, suffix: str = "") -> Sql:
        """The rows of a table, or of a mirror's changes."""
        count = self.dialect.read_count(sql("t.{count}", count=COUNT)) if self.script.shape.is_counted(v) else number(1)
        return self.listed(v, self.script.tables.read(v), count, sql("{table} AS t", table=self.script.tables.table(v, suffix)))

    def listed(self, v: int, cells: Sequence[Sql], count: Sql, rows: Sql) -> Sql:
        """Rows with their counts, in columns that are called as those of working tables."""
        shown = joined([sql("{cell} AS {column}", cell=cell, column=column) for cell, column in zip(cells, self.script.tables.cells(v))])
        return sql("SELECT {shown}, {count} AS n FROM {rows}", shown=shown, count=count, rows=rows)

    def there(self, v: int) -> Sql:
        """The rows of a table, and of a mirror also the changes that wait."""
        parts = [self.held(v), *([] if self.script.views[v].over else [self.held(v, "~changes")])]
        return joined(parts, "UNION ALL")

    def wanted(self, v: int) -> Sql:
        """The rows of a table as the application's tables or the tables below it give them."""
        if v in self.kept_wanted:
            return self.listed(v, self.script.tables.cells(v, "k"), sql("k.n"), sql("{table} AS k", table=self.kept_wanted[v]))
        if v in self.sources:
            source = self.sources[v]
            return self.listed(v, [column.said for column in source.columns], number(1), sql("{source} AS r", source=source.said))
        term = self.script.steps.whole(v)
        combined = sql("({term}) AS r", term=self.script.terms.term(v, term))
        if not self.script.shape.is_summary(v):
            return self.listed(v, self.typed(v, self.script.tables.cells(v, "r")), sql("r.n"), combined)
        cells = self.script.tables.cells(v, "r")[: self.script.shape.groups(v)]
        grouped = sql("GROUP BY {cells}", cells=joined(cells)) if cells else sql("")
        rows = self.listed(v, self.typed(v, [*cells, *self.sums(v)]), number(1), combined)
        # Over no rows there is no group, also where nothing is grouped by.
        return sql("{rows} {grouped} HAVING count(*) > 0", rows=rows, grouped=grouped)

    def keep_wanted(self, session: Session, v: int) -> None:
        """What there ought to be is a table of this transaction from here on, where queries have no room for it."""
        kept = session.set_aside(f"night~wanted{v}", self.wanted(v))
        if kept is not None:
            self.kept_wanted[v] = kept

    def sums(self, v: int) -> list[Sql]:
        """The count and the sums of a group of combined rows."""
        halves = [self.dialect.halves(sql("r.n"))]
        halves += [self.dialect.times(sql("r.n"), sql("r.{sum}", sum=word("s", place))) for place in range(2, self.script.shape.sums(v) + 1)]
        return [self.dialect.whole_of(summed(each)) for each in halves]

    def typed(self, v: int, cells: Sequence[Sql]) -> Sequence[Sql]:
        """Cells as they stand in a table."""
        kinds = self.script.tables.kinds(v)
        return [self.dialect.typed(cell, kind) for cell, kind in zip(cells, kinds)]

    def instead(self, v: int) -> Sql:
        """What stands for a table that is not as it should be, where another view is over it."""
        columns = [*self.script.tables.users(v), *([COUNT] if self.script.shape.is_counted(v) else [])]
        cells = [sql("{cell} AS {column}", cell=cell, column=column) for cell, column in zip([*self.script.tables.cells(v, "w"), sql("w.n")], columns)]
        rows = self.wanted(v) if self.script.views[v].over else self.after_last_night(v)
        return sql("(SELECT {cells} FROM {rows})", cells=joined(cells), rows=self.named(v, rows, "w"))

    def after_last_night(self, v: int) -> Sql:
        """The rows of a table of the application's without the changes that wait."""
        waiting = self.listed(v, self.script.tables.cells(v, "l"), sql("- l.n"), self.named(v, self.held(v, "~changes"), "l"))
        both, cells = self.named(v, joined([self.wanted(v), waiting], "UNION ALL"), "a"), self.script.tables.cells(v, "a")
        rows = self.listed(v, cells, sql("sum(a.n)"), both)
        return sql("{rows} GROUP BY {cells} HAVING sum(a.n) > 0", rows=rows, cells=joined(cells))

    def named(self, v: int, rows: Sql, of: str) -> Sql:
        """Rows as a relation with columns c1, c2, .. and n."""
        return sql("({rows}) AS {of}", rows=rows, of=word(of))

    # ---- digests, which tell whether two relations have the same rows as often, in whatever order these come

    def digest(self, v: int, rows: Sql) -> Query:
        """A query for how many rows there are, and their digest."""
        digest = self.dialect.digest(joined(self.script.tables.cells(v, "d")))
        return Query("coalesce(sum(d.n), 0), {digest}", "FROM {rows}", {"rows": self.named(v, rows, "d"), "digest": digest})

    # ---- row by row

    def difference(self, v: int) -> Sql:
        """The rows that are there another number of times than they should be: how many more there should be, and how many in all, and how many
        the table itself has."""
        cells = self.script.tables.cells(v, "g")
        apart = joined([*cells, *self.dialect.exactly(cells)])
        sides = [("w.n, w.n AS wanted, 0 AS held", "w", self.wanted(v)), ("- h.n, 0, h.n", "h", self.held(v))]
        sides += [] if self.script.views[v].over else [("- l.n, 0, 0", "l", self.held(v, "~changes"))]
        both = joined([sql("SELECT {cells}, " + numbers + " FROM {rows}", cells=joined(self.script.tables.cells(v, of)), rows=self.named(v, rows, of))
                       for numbers, of, rows in sides], "UNION ALL")
        shown = joined([sql("{cell} AS {column}", cell=cell, column=column) for cell, column in zip(cells, self.script.tables.cells(v))])
        return sql("SELECT {shown}, sum(g.n) AS n, sum(g.wanted) AS wanted, sum(g.held) AS held FROM ({both}) AS g GROUP BY {apart} HAVING sum(g.n) <> 0",
                   shown=shown, both=both, apart=apart)


class Digest:
    """The digest of rows that SQLite is given as a function: a sum, so that the order is nothing and a row that stands twice counts twice."""

    def __init__(self) -> None:
        self.sum = 0

    def step(self, count: int, *cells: int | str) -> None:
        hashed = hashlib.blake2b(repr(cells).encode(errors="surrogatepass"), digest_size=8).digest()
        self.sum += (count or 0) * int.from_bytes(hashed, "little")

    def finalize(self) -> str:
        return str(self.sum)
