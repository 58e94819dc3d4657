"""Summaries in nights of PostgreSQL: each group that changes is found once, with its sums before and after and its place. Where views are over a summary, or
more has to be looked at, these groups are kept, and else they are put by the statement that finds them."""

from __future__ import annotations

from collections.abc import Callable, Mapping
from dataclasses import dataclass
from functools import partial

from .access import RowAccess
from .block import Block, Refusal, counter, many, once
from .block_comps import GroupSums
from .culprits import Culprits
from .postgresql import PostgreSQL
from .tables import Cell, Part, Tables, assigned, inserted
from .terms import Terms
from .tokens import Sql, joined, number, sql, text, word

# What becomes of a group d: it leaves, it stays with other sums, or it comes. One that would have fewer rows than none is refused, and put nowhere.
GONE, STAY, COME = (sql(f"d.place IS {there} NULL AND d.a1 {sign} 0") for there, sign in (("NOT", "="), ("NOT", ">"), ("", ">")))
# The sums after a night, and those before it and after it.
AFTER, BOTH = "a", "oa"


@dataclass(frozen=True, slots=True)
class Placing:
    """What tells where a row t stands: each column with how it is read and its type. Where no index sees to it that a group stands once, each is
    numbered, so that one which was found twice is noticed."""

    read: Mapping[str, str]
    types: Mapping[str, str]
    is_numbered: bool

    @property
    def names(self) -> list[Sql]:
        return list(map(word, self.read))

    def at(self, of: str) -> Sql:
        """Whether a row t stands where a row of a change says."""
        return joined([sql(f"{read} = {{of}}.{said}", of=word(of)) for said, read in self.read.items()], "AND")

    def shown(self) -> list[Sql]:
        return [sql(f"{read} AS {said}") for said, read in self.read.items()]

    def declared(self) -> list[Sql]:
        return [sql(f"{said} {kind}") for said, kind in self.types.items()]


# Tables of one's own may be in parts, and those of the nights are not.
IN_PARTS = Placing({"part": "t.tableoid", "place": "t.ctid"}, {"part": "oid", "place": "tid"}, True)
ALONE = Placing({"place": "t.ctid"}, {"place": "tid"}, False)


class Groups(Part[PostgreSQL]):
    """The statements of a summary's change, and those that put its groups."""

    def __init__(self, tables: Tables[PostgreSQL], access: RowAccess, block: Block, culprits: Culprits, placing: Placing) -> None:
        super().__init__(tables)
        self.access, self.block, self.culprits, self.placing, self.sums = access, block, culprits, placing, GroupSums(tables)

    # ---- how groups are found

    def numbered(self, letters: str) -> list[Sql]:
        """The column of a group's number, where it is kept and has one."""
        return [word("id")] if self.placing.is_numbered and letters == BOTH else []

    def summed(self, v: int, letters: str) -> list[Sql]:
        return [each for letter in letters for each in self.tables.summed_columns(v, letter)]

    def columns(self, v: int, letters: str) -> list[Sql]:
        """The columns of the groups that are found."""
        cells = self.tables.cells(v)[: self.shape.groups(v)]
        return [*self.numbered(letters), *cells, *self.summed(v, letters), *self.tables.lost_column(v), *self.placing.names]

    def found(self, terms: Terms, v: int, letters: str) -> Sql:
        """Each group that changes, with its sums and its place."""
        groups, lost = self.shape.groups(v), self.tables.lost_column(v)
        cells, added, read = self.tables.cells(v)[:groups], self.tables.summed_columns(v, "s"), self.tables.read(v)[groups:]
        template = "coalesce({was}, 0)::bigint + d.{sum}::bigint" if terms.raises else "coalesce({was}, 0)::numeric + d.{sum}"
        sums = {"o": [sql("coalesce({was}, 0)", was=was) for was in read], "a": [sql(template, was=was, sum=each) for was, each in zip(read, added)]}
        own = [sql("d.{each}", each=each) for each in [*self.numbered(letters), *cells]]
        shown = [*own, *(each for letter in letters for each in sums[letter]), *(sql("d.{each}", each=each) for each in lost), *self.placing.shown()]
        given, rows = joined([*cells, *added, *lost]), sql("({added})", added=self.sums.of(terms, v))
        if self.numbered(letters):
            rows, given = sql("(SELECT row_number() OVER (), k.* FROM {rows} AS k)", rows=rows), sql("id, {given}", given=given)
        return sql("SELECT {shown} FROM {rows} AS d ({given}) LEFT JOIN {table} AS t ON {same}", shown=joined(shown), rows=rows, given=given,
                   table=self.tables.table(v), same=self.access.group(v))

    # ---- what is counted and refused of them

    def judging(self, v: int, letters: str) -> dict[str, Sql]:
        """What is counted of the groups d that change, and what is told where they are refused."""
        counted = {kind: many(test) for kind, test in (("gone", GONE), ("stay", STAY), ("come", COME))}
        lost = {"lost": sql("coalesce(sum(d.lost), 0)") for _ in self.tables.lost_column(v)}
        return {"rows": sql("count(*)"), **counted, "told": self.block.first_told(self.refused(v, letters)), **lost}

    def beyond(self, v: int) -> Sql:
        """Whether a sum of a group d leaves 64 bits."""
        return joined([self.dialect.is_lost(each) for each in self.tables.summed_columns(v, "a", "d")], "OR")

    def refused(self, v: int, letters: str) -> list[Refusal]:
        """What is refused of groups; of those that are put at once a sum that leaves 64 bits does not come into its column."""
        twice = [(sql("count(*) <> max(d.id)"), self.tables.told_group_twice(v)) for _ in self.numbered(letters)]
        large = [(sql("{many} > 0", many=many(self.beyond(v))), self.tables.told_range(v))] if letters == BOTH else []
        return [*twice, *large, (sql("{many} > 0", many=many(sql("d.a1 < 0"))), self.tables.told_absent(v))]

    def lost(self, v: int) -> list[Sql]:
        """A refusal of a sum over an output without a value."""
        if not self.shape.checked(v):
            return []
        queries = self.culprits.of_changes(v, self.groups_beyond(v))
        return self.dialect.only_where(sql("lost > 0"), self.culprits.raised_with(text(self.tables.told_range(v)), queries))

    def groups_beyond(self, v: int) -> Sql:
        """The groups whose sums leave 64 bits in a night."""
        shown = joined([sql("d.{cell}", cell=cell) for cell in self.tables.cells(v)[: self.shape.groups(v)]] or [number(1)])
        return sql("SELECT {shown} FROM ({found}) AS d ({columns}) WHERE {beyond}", shown=shown, found=self.found(self.block.exact, v, AFTER),
                   columns=joined(self.columns(v, AFTER)), beyond=self.beyond(v))

    # ---- groups that are kept

    def kept(self, v: int) -> list[Sql]:
        """The groups that change are kept and counted by one statement."""
        keep = partial(self.keep, v)
        return [self.block.made(v, "beside", self.beside_columns(v)), self.if_direct(v, keep, keep(self.block.exact)), *self.lost(v)]

    def if_direct(self, v: int, made: Callable[[Terms], Sql], sure: Sql) -> Sql:
        """A statement that is sure; where it computes a term itself, it is tried in 64 bits first."""
        return self.block.in_64_bits(made, [sure]) if self.shape.is_direct(v) else sure

    def beside_columns(self, v: int) -> list[Sql]:
        numbers = [sql("{each} numeric", each=each) for each in [*self.summed(v, BOTH), *self.tables.lost_column(v)]]
        own = [sql("{each} bigint", each=each) for each in self.numbered(BOTH)]
        return [*own, *self.tables.typed_cells(v, self.shape.groups(v)), *numbers, *self.placing.declared()]

    def keep(self, v: int, terms: Terms) -> Sql:
        told = [*self.numbered(BOTH), *self.summed(v, AFTER), *self.tables.lost_column(v), word("place")]
        put = sql("WITH put AS (INSERT INTO {beside} ({columns}) {found} RETURNING {told})", beside=self.tables.working(v, "beside"),
                  columns=joined(self.columns(v, BOTH)), found=self.found(terms, v, BOTH), told=joined(told))
        return self.block.counted(v, word("put"), self.judging(v, BOTH), put)

    def rows(self, v: int) -> list[Sql]:
        """The rows before leave, and those after come, for the views over this one, where nothing is refused."""
        cells, beside, net = self.tables.cells(v)[: self.shape.groups(v)], self.tables.working(v, "beside"), self.tables.working(v, "net")
        gone, come = (
            sql("SELECT {cells}, {sign} FROM {beside} AS d WHERE {test}", cells=joined([*cells, *self.tables.summed_columns(v, letter)]), sign=number(sign),
                beside=beside, test=sql(test))
            for letter, sign, test in (("o", -1, "d.place IS NOT NULL"), ("a", 1, "d.a1 <> 0"))
        )
        both = sql("INSERT INTO {net} ({own}, n) {gone} UNION ALL {come}", net=net, own=joined(self.tables.cells(v)), gone=gone, come=come)
        made = [self.block.made(v, "net", [*self.tables.typed_cells(v), sql("n bigint")]), once(both), *self.block.analyzed(v)]
        return self.block.then(sql("{told} IS NULL", told=counter("told", v)), made)

    # ---- groups that are put

    def group_cells(self, v: int) -> tuple[list[Cell], list[Cell]]:
        """The columns with sums, and all of them, each with what it gets of a group d."""
        groups = self.shape.groups(v)
        cells = list(zip(self.tables.users(v), [*self.tables.cells(v, "d")[:groups], *self.tables.summed_columns(v, "a", "d")]))
        return cells[groups:], cells

    def leaves(self, v: int, change: Sql) -> Sql:
        return sql("DELETE FROM {table} AS t USING {change} AS d WHERE {at} AND {gone}", table=self.tables.table(v), change=change, at=self.placing.at("d"), gone=GONE)

    def stays(self, v: int, change: Sql) -> Sql:
        return sql("UPDATE {table} AS t SET {sets} FROM {change} AS d WHERE {at} AND {stay}", table=self.tables.table(v),
                   sets=assigned(self.group_cells(v)[0]), change=change, at=self.placing.at("d"), stay=STAY)

    def comes(self, v: int, change: Sql) -> Sql:
        return inserted(self.tables.table(v), self.group_cells(v)[1], sql("{change} AS d WHERE {come}", change=change, come=COME))

    def at_once(self, v: int, terms: Terms) -> Sql:
        """One statement for a change and its Inst: it counts what was put, and gives the places of groups that leave, as hardly any does."""
        change, done = word("put"), {"stay": self.stays, "come": self.comes}
        put = sql("put ({columns}) AS ({found})", columns=joined(self.columns(v, AFTER)), found=self.found(terms, v, AFTER))
        parts = [put, *(sql("{kind} AS ({made} RETURNING 1)", kind=word(kind), made=made(v, change)) for kind, made in done.items())]
        judging = {**self.judging(v, AFTER), **{kind: sql("(SELECT count(*) FROM {kind})", kind=word(kind)) for kind in done}}
        torn = sql("{stay} + {come} <> {put}", stay=judging["stay"], come=judging["come"], put=many(sql("d.a1 > 0")))
        judging["told"] = self.block.first_told([*self.refused(v, AFTER), (torn, self.tables.told_torn(v))])
        judging |= {f"{said}s": sql("array_agg(d.{said}) FILTER (WHERE {gone})", said=word(said), gone=GONE) for said in self.placing.read}
        return self.block.counted(v, change, judging, sql("WITH {parts}", parts=joined(parts)))

    def left(self, v: int) -> list[Sql]:
        """Groups leave from the places that were given. A column of the table may be called as these are, and is not seen where they are listed."""
        names, gone = self.placing.names, counter("gone", v)
        listed = sql("SELECT {shown} FROM unnest({arrays}) AS g ({names})", shown=joined([sql("g.{each}", each=each) for each in names]), names=joined(names),
                     arrays=joined([word(f"{said}s") for said in self.placing.read]))
        delete = sql("DELETE FROM {table} AS t USING ({listed}) AS g WHERE {at}", table=self.tables.table(v), listed=listed, at=self.placing.at("g"))
        torn = self.block.refused_where(sql("touched <> {gone}", gone=gone), self.tables.told_torn(v))
        return self.block.then(sql("{gone} > 0", gone=gone), [delete, sql("GET DIAGNOSTICS touched = ROW_COUNT"), torn])
