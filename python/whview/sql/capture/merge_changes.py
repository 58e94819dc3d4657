"""Changes of nights over mirrors in PostgreSQL: one statement adds up a view's change and finds how often each row stands in its table and where, and one
counts what leaves, stays and comes."""

from __future__ import annotations

from collections.abc import Iterable

from ..block import Block, counter, many, once
from ..block_steps import Rows
from ..culprits import Asked
from ..dialect import COUNT, MOST
from ..groups import Groups
from ..postgresql import LIMITS, PostgreSQL
from ..steps import Net
from ..tables import WIDEST_INDEX, Part, Tables
from ..terms import Terms
from ..tokens import Sql, joined, name, number, sql, word
from .access import KeyedAccess
from .culprits import CapturedCulprits

# Of views without keys by how many rows their tables grow, and how many change.
SUMS = ("more", "moved")


def switched(said: str, *ways: str) -> list[Sql]:
    return [sql("SET LOCAL {way} = {said}", way=word(f"enable_{way}"), said=word(said)) for way in ways]


def without(made: list[Sql], *ways: str) -> list[Sql]:
    """Statements for which PostgreSQL does not go a way, if there is another."""
    return [*switched("off", *ways), *made, *switched("on", *ways)]


def all_equal(pairs: Iterable[tuple[Sql, Sql]]) -> Sql:
    return joined([sql("{a} = {b}", a=a, b=b) for a, b in pairs], "AND")


class MergeChanges(Part[PostgreSQL]):
    """The statements of such changes."""

    def __init__(self, tables: Tables[PostgreSQL], access: KeyedAccess, block: Block, groups: Groups, culprits: CapturedCulprits) -> None:
        super().__init__(tables)
        self.access, self.block, self.groups, self.culprits = access, block, groups, culprits

    def net(self, step: Net) -> list[Sql]:
        """What stands in a table of changes is added up, where equal rows add up and opposite ones cancel, and leaves it: the same rows, since a
        night is one snapshot."""
        v, changes = step.view, self.tables.changes(step.view)
        taken = sql("WITH taken AS (DELETE FROM {changes})", changes=changes)
        return self.added(v, Rows(lambda _: changes, self.tables.users(v), COUNT, number(0)), taken)

    def added(self, v: int, rows: Rows, taken: Sql = sql("")) -> list[Sql]:
        """The rows of a change are kept with what stands in the table of each, and counted."""
        made = self.block.in_64_bits_first(lambda terms: once(self.placed_rows(v, self.added_up(terms, v, rows))))
        counted = self.block.counted(v, self.tables.working(v, "net"), self.judging(v), taken)
        return [*self.looked_up(v, made), counted, *self.block.analyzed(v)]

    def looked_up(self, v: int, made: Sql) -> list[Sql]:
        """A statement that looks rows up: one by one, by a key in its order. How many there are PostgreSQL takes from when a table was last
        vacuumed: none, so that it would also look up alone what no index finds."""
        if (len(self.access.key(v)) or self.shape.width(v)) > WIDEST_INDEX:
            return without([made], "nestloop")
        return without([made], "hashjoin", "hashagg") if self.access.is_keyed(v) else [made]

    def added_up(self, terms: Terms, v: int, rows: Rows) -> Sql:
        """Rows added up, and with a key how many there are with it; NULL where a count leaves 64 bits. Numbers of 16 bits add up to one of 64."""
        total, cells = sql("sum({counted}::smallint)" if terms.raises else "sum({counted})", counted=rows.counted), rows.cells
        key = [cells[place] for place in self.access.key(v)]
        pair = [sql("count(*) OVER (PARTITION BY {key})", key=joined(key))] if self.access.is_keyed(v) else []
        grouped = [*key, *(cell for place, cell in enumerate(cells) if place not in self.access.key(v))]
        kept = total if terms.raises else sql("CASE WHEN {total} BETWEEN {limits} THEN {total}::bigint END", total=total, limits=LIMITS)
        return sql("SELECT {shown} FROM {rows} GROUP BY {grouped} HAVING {total} <> 0", shown=joined([*cells, kept, *pair]), rows=rows.read(terms),
                   grouped=joined(grouped), total=total)

    def placed_rows(self, v: int, rows: Sql) -> Sql:
        """The statement that makes a table of the rows of a change, each with how often it stands in the view's, and the place of it or of the row
        with its key."""
        cells, read, pair = self.tables.cells(v, "g"), self.tables.read(v), [word("pair")] if self.access.is_keyed(v) else []
        pairs = list(zip(read, cells))
        on = self.access.found_by(v, [(place, *each) for place, each in enumerate(pairs)])
        on = all_equal([pairs[place] for place in self.access.key(v)]) if self.access.key(v) else on
        rest = [each for place, each in enumerate(pairs) if self.access.key(v) and place not in self.access.key(v)]
        was = sql("coalesce(t.{count}, 0)", count=COUNT)
        if rest:
            was = sql("CASE WHEN {same} THEN {was} ELSE 0 END", same=all_equal(rest), was=was)
        return sql(
            "CREATE TEMPORARY TABLE {net} ON COMMIT DROP AS SELECT {cells}, g.n, {was} AS was, t.ctid AS place {pair} FROM ({rows}) AS g ({own})"
            " LEFT JOIN {table} AS t ON {on}", net=name(self.tables.working_name(v, "net")), cells=joined(cells), was=was,
            pair=sql(", g.pair") if pair else sql(""), rows=rows, own=joined([*self.tables.cells(v), word("n"), *pair]), table=self.tables.table(v), on=on,
        )

    def judging(self, v: int) -> dict[str, Sql]:
        """What is counted of the rows d of a change, and what is told where it is refused: by a key each row leaves, comes, or is one of two of
        which one leaves and one comes."""
        most, summed = self.dialect.whole(MOST), "greatest(least(coalesce(sum({each}), 0), {most}), - {most})::bigint"
        if self.access.is_keyed(v):
            tests = {"gone": "d.n = -1 AND d.pair = 1", "stay": "d.n = 1 AND d.place IS NOT NULL AND d.pair = 2", "come": "d.n = 1 AND d.place IS NULL"}
            sums = dict[str, Sql]()
        else:
            tests = {"gone": "d.n = - d.was", "stay": "d.was > 0 AND d.n > - d.was", "come": "d.was = 0 AND d.n > 0"}
            sums = {kind: sql(summed, each=sql(each), most=most) for kind, each in zip(SUMS, ("d.n", "abs(d.n)"))}
        counted = {kind: many(sql(test)) for kind, test in tests.items()}
        refusals = [
            (sql("{wrong} > 0", wrong=many(sql("d.n < - d.was"))), self.tables.told_absent(v)),
            (sql("{large} > 0", large=many(sql("d.n IS NULL OR d.n > 0 AND d.n > {most} - d.was", most=most))), self.tables.told_large(v)),
        ]
        if self.access.is_keyed(v):
            refusals.append((sql("count(*) <> {gone} + {come} + 2 * {stay}", **counted), self.tables.told_torn(v)))
        strange = {"strange": many(self.culprits.strange_numbers(v, self.tables.cells(v, "d"))) for _ in self.culprits.computed_with.get(v, ())[:1]}
        return {"rows": sql("count(*)"), **counted, **sums, "told": self.block.first_told(refusals), **strange}

    def judge(self, v: int) -> list[Sql]:
        strange = sql("{strange} > 0", strange=counter("strange", v))
        rows = sql("{net} AS d", net=self.tables.working(v, "net"))
        return [*self.judged(v), *self.culprits.strange_refused(v, strange, rows, self.tables.cells(v, "d"))]

    def judged(self, v: int) -> list[Sql]:
        """A refusal of what is absent, too large or otherwise than its key, by what was told of it, with the rows that did it."""
        return self.culprits.refused_as_told(v, self.out_of_range(v) if self.shape.is_summary(v) else [(sql("TRUE"), self.culprits.wrong_rows(v))])

    def out_of_range(self, v: int) -> list[Asked]:
        """Queries for the rows by which a number leaves 64 bits."""
        return self.culprits.of_changes(v, self.groups.groups_beyond(v) if self.shape.is_summary(v) else None)
