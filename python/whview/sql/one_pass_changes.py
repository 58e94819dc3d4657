"""Changes of nights over tables of one's own in PostgreSQL: one statement adds up a view's change and finds of each row how often it stands in the table,
where, and what becomes of it, and one counts what leaves, stays and comes."""

from __future__ import annotations

from collections.abc import Callable

from .access import RowAccess
from .acts import CHANGED, COMES, LEAVES, RECOUNTED, becomes
from .block import Block, Refusal, counter, joins, many, once
from .block_steps import Rows
from .changes import emptied_of
from .culprits import Culprits
from .dialect import COUNT, MOST
from .one_pass_checks import OnePassChecks
from .one_pass_groups import OnePassGroups
from .postgresql import PostgreSQL
from .steps import Net
from .tables import Part, Tables, is_other
from .tokens import END_OF_STATEMENT, Sql, Token, body, joined, name, number, sql, text, word

ALL_AT_ONCE = joins(nestloop="off", mergejoin="off")
ALONE = sql("PERFORM set_config({loop}, nested, TRUE), set_config({merge}, merged, TRUE)", loop=text("enable_nestloop"), merge=text("enable_mergejoin"))
# The columns of a key, which are known when a night is carried out: where they stand in a text is filled then.
KEY = word("the_key")


def filled(query: Sql, key: Sql) -> Sql:
    """A query as a text in which a key stands."""
    parts, found = [list[Token]()], list[Sql]()
    for token in query.tokens:
        if token == KEY.tokens[0]:
            parts.append([])
        else:
            parts[-1].append(token)
    for part in parts:
        found += [key, body(Sql(part))] if found else [body(Sql(part))]
    return joined(found, "||")


class OnePassChanges(Part[PostgreSQL]):
    """The statements of such changes."""

    def __init__(self, tables: Tables[PostgreSQL], access: RowAccess, block: Block, checked: OnePassChecks, groups: OnePassGroups, culprits: Culprits) -> None:
        super().__init__(tables)
        self.access, self.block, self.checked, self.groups, self.culprits = access, block, checked, groups, culprits

    def added(self, v: int, rows: Rows) -> list[Sql]:
        """The change of a view, with what becomes of each row, is kept and counted. Where no index finds rows of the table, or none that is unique
        and as many rows change as the table has pages, none is looked up alone."""
        found, indexed, pages = (self.checked.known(said, v) for said in ("is_found", "is_indexed", "pages"))
        counted_rows = sql("is_bare := NOT {indexed} OR {many} > {pages}", indexed=indexed, many=rows.many, pages=pages)
        chosen = [sql("is_bare := NOT {found}", found=found), self.dialect.where(sql("is_bare"), counted_rows)]
        put = self.put_together(v, lambda *known: self.changed(v, rows, *known))
        at_once = [*chosen, self.dialect.where(sql("is_bare"), ALL_AT_ONCE), put, self.dialect.where(sql("is_bare"), ALONE)]
        query = sql("SELECT {numbers} FROM {net} AS d", numbers=joined(self.judging(v).values()), net=self.tables.working(v, "net"))
        judged = sql("EXECUTE {query} INTO {into}", query=body(query), into=joined([counter(kind, v) for kind in self.judging(v)]))
        return [*self.dialect.counted(self.tables.told_large(v), at_once), judged, *self.block.analyzed(v)]

    def changed(self, v: int, rows: Rows, key: Sql | None = None, is_unique: bool = False) -> Sql:
        """Equal rows added up, each with a number of its own where the table may have several of it; by a key in its order, so that they are looked
        up in it."""
        kinds = [self.dialect.kinds[kind] for kind in self.tables.kinds(v)]
        named = [sql("{cell}::{kind} AS {own}", cell=cell, kind=kind, own=word("c", at)) for at, (cell, kind) in enumerate(zip(rows.cells, kinds), 1)]
        own = [sql("p.{own}", own=word("c", at)) for at in range(1, len(rows.cells) + 1)]
        return sql("SELECT {id} AS id, {own}, sum(p.n)::bigint AS n FROM (SELECT {named}, {counted} AS n FROM {rows}) AS p GROUP BY {grouped}"
                   " HAVING sum(p.n) <> 0", id=sql("NULL::bigint" if is_unique else "row_number() OVER ()"), own=joined(own), named=joined(named),
                   counted=rows.counted, rows=rows.read(self.block.exact), grouped=joined([key, *own] if key else own))

    def net(self, step: Net) -> list[Sql]:
        v, table = step.view, sql("{table} AS t", table=self.tables.changes(step.view))
        counted = self.dialect.read_count(sql("t.{count}", count=COUNT))
        return self.added(v, Rows(lambda _: table, self.tables.read(v), counted, sql("(SELECT count(*) FROM {table})", table=table)))

    def judge(self, v: int) -> list[Sql]:
        """What is refused of the change by itself, and what it would take with it."""
        return [*self.judged(v), *self.taken(v)]

    def judged(self, v: int) -> list[Sql]:
        """A refusal by what was told where the rows were counted; of groups whose sums leave 64 bits with the rows that did it."""
        told, beyond = counter("told", v), text(self.tables.told_range(v))
        found = self.culprits.of_changes(v, self.groups.groups_beyond(v)) if self.shape.is_summary(v) else []
        return self.culprits.refused_as_told(v, [(sql("{told} = {beyond} AND {test}", told=told, beyond=beyond, test=test), query) for test, query in found])

    def emptied(self) -> list[Sql]:
        """The changes are used up; where there were none, nothing is done."""
        return [each for v in self.steps.base() for each in self.block.then(counter("there", v), emptied_of(self.tables, v))]

    # ---- the pass over a change

    def put_together(self, v: int, changed: Callable[..., Sql]) -> Sql:
        """The rows of a change with what becomes of each; a key is known where the table has been looked at."""
        alone = once(self.kept(v, self.by_itself(v, changed())))
        if not self.has_pairs(v):
            return alone
        key = self.checked.known("key_columns", v)
        one, some = (sql("EXECUTE {query}", query=filled(self.kept(v, self.paired(v, changed(KEY, is_unique), is_unique)), key)) for is_unique in (True, False))
        return sql("IF {key} IS NULL THEN {alone}{end} ELSE SET LOCAL enable_hashagg = off{end} IF {found} THEN {one}{end} ELSE {some}{end} END IF{end}"
                   " SET LOCAL enable_hashagg = on{end} END IF", key=key, alone=alone, one=one, some=some, end=END_OF_STATEMENT,
                   found=self.checked.known("is_found", v))

    def kept(self, v: int, rows: Sql) -> Sql:
        return sql("CREATE TEMPORARY TABLE {net} ON COMMIT DROP AS {rows}", net=name(self.tables.working_name(v, "net")), rows=rows)

    def has_pairs(self, v: int) -> bool:
        """Whether a view may have a key of some of its columns."""
        return self.shape.has_pairs(v)

    def looked_up(self, v: int, changed: Sql, is_unique: bool = False) -> Sql:
        """Each row of a change beside the row of the table, or beside each of them: how often it was there, and the place. In a table without
        counts a row that comes is not there where each stands once, as the unique index sees to."""
        cells, each, same = joined(self.tables.cells(v, "d")), sql("OVER (PARTITION BY d.id)"), self.access.same(v)
        was, nth = sql("count(t.ctid) {each}", each=each), sql("row_number() {each}", each=each)
        if is_unique or self.shape.is_counted(v):
            was, nth = sql("CASE WHEN t.ctid IS NULL THEN 0 ELSE {held} END", held=self.held(v)), number(1)
        if is_unique and not self.shape.is_counted(v):
            leaves = [sql("{read} = CASE WHEN d.n < 0 THEN {cell} END", read=read, cell=cell) for read, cell in zip(self.tables.read(v), self.tables.cells(v, "d"))]
            same = joined(leaves, "AND")
        return sql("SELECT d.id, {cells}, d.n, {was} AS was, t.tableoid AS part, t.ctid AS place, {nth} AS nth FROM ({changed}) AS d LEFT JOIN {table} AS t"
                   " ON {same}", cells=cells, was=was, nth=nth, changed=changed, table=self.tables.table(v), same=same)

    def held(self, v: int) -> Sql:
        """How often a row of the table counts."""
        return self.dialect.read_count(sql("t.{count}", count=COUNT)) if self.shape.is_counted(v) else number(1)

    def act(self, v: int) -> Sql:
        """What becomes of a row f that was looked up; of equal rows without counts as many leave as the change says."""
        if self.shape.is_counted(v):
            return sql("CASE WHEN f.n > {most} - f.was OR f.n < - f.was THEN 0 WHEN f.was + f.n = 0 THEN 1 WHEN f.was = 0 THEN 3 ELSE 2 END",
                       most=self.dialect.whole(MOST))
        return sql("CASE WHEN f.n > 0 THEN 3 WHEN f.nth + f.n <= 0 THEN 1 ELSE 0 END")

    def acting(self, v: int, looked_up: Sql) -> Sql:
        """The rows p of a change with what becomes of each by itself."""
        return sql("SELECT f.*, {act} AS act FROM ({found}) AS f", act=self.act(v), found=looked_up)

    def by_itself(self, v: int, changed: Sql) -> Sql:
        """Of equal rows the first counts for all."""
        return sql("SELECT p.id, {cells}, CASE WHEN p.nth = 1 THEN p.n ELSE 0 END AS n, p.was, p.part, p.place, p.act FROM ({rows}) AS p"
                   " WHERE p.nth = 1 OR p.act = 1", cells=joined(self.tables.cells(v, "p")), rows=self.acting(v, self.looked_up(v, changed)))

    def paired(self, v: int, changed: Sql, is_unique: bool) -> Sql:
        """The same where a row that leaves and one that comes with its key, and no other has it, are one that changes."""
        comes = sql("p.act = 3") if self.shape.is_counted(v) else sql("p.act = 3 AND p.n = 1 AND p.was = 0")
        leaves = sql("p.act = 1") if self.shape.is_counted(v) else sql("p.act = 1 AND p.n = -1")
        rows = sql(
            "SELECT p.*, {comes} AS comes, count(*) FILTER (WHERE p.nth = 1) OVER k = 2 AND bool_or({comes}) OVER k AND max(p.place) FILTER (WHERE {leaves})"
            " OVER k IS NOT NULL AS pair, max(p.part) FILTER (WHERE {leaves}) OVER k AS old_part, max(p.place) FILTER (WHERE {leaves}) OVER k AS old_place"
            " FROM ({rows}) AS p WINDOW k AS (PARTITION BY {key})",
            comes=comes, leaves=leaves, key=KEY, rows=self.acting(v, self.looked_up(v, changed, is_unique)),
        )
        return sql(
            "SELECT q.id, {cells}, CASE WHEN q.nth = 1 THEN q.n ELSE 0 END AS n, q.was, CASE WHEN q.pair AND q.comes THEN q.old_part ELSE q.part END AS part,"
            " CASE WHEN q.pair AND q.comes THEN q.old_place ELSE q.place END AS place,"
            " CASE WHEN NOT q.pair THEN q.act WHEN q.comes THEN 4 ELSE 0 END AS act FROM ({rows}) AS q WHERE q.nth = 1 OR q.act = 1",
            cells=joined(self.tables.cells(v, "q")), rows=rows,
        )

    def judging(self, v: int) -> dict[str, Sql]:
        """What is counted of the rows d of a change, and what is told where it is refused."""
        counted, most = self.shape.is_counted(v), self.dialect.whole(MOST)
        tests = {kind: many(becomes(act)) for kind, act in (("gone", LEAVES), ("stay", RECOUNTED), ("come", COMES), ("other", CHANGED))}
        tests["rows"] = sql("count(*)")
        if not counted:
            tests["come"] = sql("least(coalesce(sum(d.n) FILTER (WHERE d.act = 3), 0), {most})::bigint", most=most)
        return {**tests, "told": self.block.first_told(self.refused(v))}

    def refused(self, v: int) -> list[Refusal]:
        """What is refused of the rows of a change, and with which words."""
        absent = (sql("{wrong} > 0", wrong=many(sql("d.n < 0 AND d.n < - d.was"))), self.tables.told_absent(v))
        if not self.shape.is_counted(v):
            return [absent]
        large = sql("{large} > 0", large=many(sql("d.n > 0 AND d.n > {most} - d.was", most=self.dialect.whole(MOST))))
        return [(sql("count(*) <> max(d.id)"), self.tables.told_twice(v)), absent, (large, self.tables.told_large(v))]

    # ---- what a change would take with it

    def taken(self, v: int) -> list[Sql]:
        return [*self.spared(v), *self.cascades(v)]

    def spared(self, v: int) -> list[Sql]:
        return self.block.then(sql("{come} > 0", come=counter("come", v)), self.checked.spared(v, sql("SELECT 1")))

    def cascades(self, v: int) -> list[Sql]:
        gone, other = counter("gone", v), counter("stay" if self.shape.is_summary(v) else "other", v)
        queries = self.groups.moved_groups(v) if self.shape.is_summary(v) else self.moved_rows(v)
        return self.block.then(sql("{gone} > 0 OR {other} > 0", gone=gone, other=other), self.checked.cascades(v, *queries))

    def moved_rows(self, v: int) -> tuple[Sql, Sql]:
        """Queries for rows that leave, and for pairs of which one column p of a reference r is another one after the night."""
        net = self.tables.working(v, "net")
        changed = is_other(zip(self.tables.cells(v, "o"), self.tables.cells(v, "w")))
        moved = sql("SELECT 1 FROM {net} AS o JOIN {net} AS w ON w.part = o.part AND w.place = o.place WHERE o.act = 0 AND w.act = 4"
                    " AND {changed}", net=net, changed=changed)
        return sql("SELECT 1 FROM {net} AS d WHERE d.act = 1", net=net), moved
