"""A night as statements over slots: signed rows in numbered slots, and a version is a list of slots.

A view's table has its rows with a count and the slot. What it holds in a version is what its rows in the version's slots add up to; a
night puts its changes and what its Comps make into a slot of its own, and nothing that is there is changed. An Inst is no statement:
from it on the night's slot is read too.

Rows stand in tables of a generation, `V~0`, `V~7`: a fold makes tables of its own, with the number of its slot, and later nights put their
rows there too. So what was folded goes with its tables, and no row is ever deleted. The table `V` reads all of them.
"""

from __future__ import annotations

import re
from collections.abc import Iterable, Mapping, Sequence
from enum import StrEnum
from functools import cache
from typing import NamedTuple, Protocol

from ..catalogue.views import View
from .clickhouse import ClickHouse, alias
from .combined import Combined
from .dialect import COUNT, LEAST, MOST
from .steps import Comp, Expression, Finish, Inst, Judge, Net, Step
from .stepwise import Comment
from .tables import Catalogued
from .tokens import END_OF_STATEMENT, Sql, Unfit, comment, joined, name, number, sql, text, word

SLOT = name("~s")
NOTHING = sql("")
# How many independent sums of hashes a print of rows has.
HASHES = ("cityHash64", "sipHash64")
# No slot has this number, so that a list of slots is never empty.
NO_SLOT = 0
# The generation of tables that a warehouse begins with.
FIRST = 0
COLUMNS_OF_VERSIONS = (
    "seq UInt64, night UInt64, stage String, how String, slots Array(UInt32), totals Array(String), gross Array(String),"
    " lineage Array(String), at UInt32, changes String, prints Array(String), generation UInt32, definitions Array(String), tables Array(String)"
)
# That a replicated table has not all rows that were put in anywhere, as the engine tells it of its own.
BEHIND = "(is_readonly = 1 OR is_session_expired = 1 OR inserts_in_queue > 0 OR log_max_index >= log_pointer AND log_max_index > 0)"
# Of which shard a row of a reader's table is the mark, from 1 on; 0 of what is none.
OF_MARK = name("~m")
# What stands in the statement that makes a replicated table for the number of a server's shard, and for its own.
OF_SHARD, OF_SERVER = "@shard@", "@server@"


class Where(StrEnum):
    """Which servers a statement is for: each of them, or the first."""

    EACH = "each"
    ONE = "one"


class Named(Protocol):
    """A catalogue whose views are found by their names."""

    @property
    def views(self) -> Sequence[View]: ...
    @property
    def names(self) -> Mapping[str, int]: ...


class Statement(NamedTuple):
    """A statement or a question: for each server or for one, what it is of, and itself."""

    where: Where
    label: str
    said: Sql


class Slot(NamedTuple):
    """A slot, and the generation of tables that its rows are put into."""

    number: int
    generation: int = FIRST


class Replication(NamedTuple):
    """Of a warehouse with replicas: the path of its tables in ZooKeeper; by which clusters the servers know those that are asked, one of each
    shard in their order; how many servers a shard has; and whether who asks may only read, who is given no function of tables."""

    path: str
    routes: tuple[str, ...]
    replicas: int
    only_reads: bool = False


class Slots(Combined):
    """The statements over a catalogue. `split` has of each base view that is shared out its column; `slots` are those of a version and
    `slot` is the night's own; where the states are `netted`, rows that cancel are not gone through. There are so many `servers`, and of
    each view so many `rows`, where that is known."""

    def __init__(self, catalogue: Catalogued, dialect: ClickHouse, split: Mapping[int, str] | None = None, slots: Sequence[int] | None = None,
                 slot: Slot | None = None, servers: int = 1, netted: bool = False, rows: Sequence[int] = (),
                 replication: Replication | None = None) -> None:
        super().__init__(catalogue, dialect)
        self.replication = replication
        self.rows = rows
        self.split = {} if servers == 1 else dict(split or {})
        self.servers, self.netted = servers, netted
        self.before = joined(map(number, slots)) if slots is not None else word("SLOTS")
        # Of views whose tables have another name than theirs that name; and by what text a version says that it has a view so defined.
        self.called: dict[int, str] = {}
        self.definitions: Sequence[str] = ()
        self.slot = number(slot.number) if slot is not None else word("SLOT")
        self.generation = slot.generation if slot is not None else FIRST

    def said(self, v: int, suffix: str = "") -> str:
        """The name of a view's tables."""
        return self.names.of(self.called.get(v, self.prefix + self.views[v].name), suffix)

    # ---- where rows lie

    @cache
    def origin(self, v: int) -> int | None:
        """The child whose own part each server goes through to make its part of a view, or None."""
        children = enumerate(self.views[v].over)
        return next((child for child, u in children if self.is_shared(u) and not self.is_partial(u)), None)

    @cache
    def is_shared(self, v: int) -> bool:
        """Whether each server has a part of a view alone."""
        return self.origin(v) is not None if self.views[v].over else v in self.split

    @cache
    def is_partial(self, v: int) -> bool:
        """Whether a view's rows are parts of sums, which have to be added up over all servers."""
        return self.shape.is_summary(v) and self.is_shared(v)

    def whole(self, v: int, slots: Sql | None = None) -> Sql:
        """The table that has a view's rows of all servers. Where there are replicas it is the rows of these slots that one of each shard has,
        since a table of all servers may read others, which have less by now; without slots those of the version and the night's own."""
        if not self.is_shared(v):
            return self.table(v)
        if self.replication is None:
            return self.table(v, "~all")
        columns, listed = joined([*self.groups(v), *self.sums(v), SLOT]), slots or self.after()
        each = [
            sql("SELECT {columns} FROM {there} WHERE {slot} IN ({slots})", columns=columns, there=self.there_by(route, self.said(v)), slot=SLOT, slots=listed)
            for route in self.replication.routes
        ]
        return sql("({each})", each=joined(each, "UNION ALL"))

    def there_by(self, route: str, said: str) -> Sql:
        """A table as the server has it that a cluster of one names."""
        return sql("cluster({parts})", parts=joined([text(route), text(self.dialect.schema), text(said)]))

    def filled(self, v: int) -> Sql:
        """The table that rows of a view are put into on a server."""
        return self.dialect.table(self.filled_said(v))

    def filled_said(self, v: int) -> str:
        return self.said(v, f"~{self.generation}")

    def shared_out(self, v: int) -> Sql:
        """The table that shares rows of a base view out among the servers; where there are replicas a server's own, which takes those that
        are its shard's."""
        return self.filled(v) if self.replication else self.table(v, f"~{self.generation}~all")

    def own_number(self) -> Sql:
        own = super().own_number()
        return sql("intDiv({own}, {replicas})", own=own, replicas=number(self.replication.replicas)) if self.replication else own

    def is_own(self, v: int) -> Sql:
        """That a row which goes over with a statement is one of the server's shard."""
        if self.replication is None:
            return NOTHING
        place = [column for column, _ in self.views[v].columns].index(self.split[v]) + 1
        return sql("AND cityHash64({column}) % {servers} = {own}", column=word("_", place), servers=number(self.servers), own=self.own_number())

    def within(self, v: int) -> Sql:
        """IN, as it reads one table or those of all servers."""
        return sql("GLOBAL IN") if self.is_shared(v) else sql("IN")

    # ---- columns

    def users(self, v: int) -> list[Sql]:
        """The names of a view's columns in its table. They are of our own: where a server passes a statement on it writes names without
        quotes, and `inf`, `null` or `not` would be read as something else."""
        return [name(f"~c{place}") for place in range(1, len(self.views[v].columns) + 1)]

    def groups(self, v: int) -> list[Sql]:
        return self.users(v)[: self.shape.groups(v)]

    def sums(self, v: int) -> list[Sql]:
        """The columns that are added up."""
        return self.users(v)[self.shape.groups(v) :] if self.shape.is_summary(v) else [COUNT]

    def rows_in(self, v: int, slots: Sql, table: Sql | None = None) -> Sql:
        return sql("{table} WHERE {slot} IN ({slots})", table=table or self.table(v), slot=SLOT, slots=slots)

    def after(self) -> Sql:
        return sql("{before}, {slot}", before=self.before, slot=self.slot)

    def grouped(self, columns: Sequence[Sql]) -> Sql:
        return sql("GROUP BY {columns}", columns=joined(columns)) if columns else NOTHING

    def touched(self, v: int, within: Sql, table: Sql, more: Sql = NOTHING) -> Sql:
        """That a row or a group is touched in the night's slot, by a row there that passes a test more."""
        groups = self.groups(v)
        if not groups:
            return sql("1 = 1")
        sought = joined(groups) if len(groups) == 1 else sql("({groups})", groups=joined(groups))
        return sql(
            "{sought} {within} (SELECT {groups} FROM {rows} {more})",
            sought=sought, within=within, groups=joined(groups), rows=self.rows_in(v, self.slot, table), more=more,
        )

    # ---- tables

    def create(self, settings: Sql = NOTHING) -> list[Statement]:
        """The tables of the first generation, and those that read all generations, and all servers."""
        return [*self.tables_of_generation(settings), *self.tables_of_marks(), *(each for v in range(len(self.views)) for each in self.tables_of(v))]

    def tables_of_generation(self, settings: Sql = NOTHING) -> list[Statement]:
        """The tables that rows and marks of a generation are put into. They are made by whoever has its number alone."""
        found = [Statement(Where.EACH, "create marks", self.own_table_of_marks())]
        for v, view in enumerate(self.views):
            found.append(Statement(Where.EACH, f"create {view.name}", self.own_table(v, settings)))
            if v in self.split and not self.replication:
                said = "CREATE TABLE IF NOT EXISTS {all} AS {table} ENGINE = {engine}"
                found.append(Statement(Where.EACH, f"create {view.name}", sql(said, all=self.shared_out(v), table=self.filled(v), engine=self.sharing(v))))
        return found

    def marks(self) -> Sql:
        """The table of a server's marks, one for each slot that it has whole."""
        return self.dialect.table("~marks")

    def own_marks(self) -> Sql:
        """The table that marks are put into."""
        return self.dialect.table(f"~marks~{self.generation}")

    def all_marks(self) -> Sql:
        """What reads the marks of all servers."""
        return self.dialect.table("~marks~all") if self.servers > 1 else self.marks()

    def own_table_of_marks(self) -> Sql:
        """A server's marks: of each slot the tables that have rows in it there, and the prints of all views."""
        columns = sql("slot UInt32, server UInt32, mark String, tables Array(String), prints Array(UInt64)")
        engine = self.engine("MergeTree", f"~marks~{self.generation}")
        return sql(
            "CREATE TABLE IF NOT EXISTS {marks} ({columns}) ENGINE = {engine} ORDER BY slot {settings}",
            marks=self.own_marks(), columns=columns, engine=engine, settings=self.with_replicas(NOTHING),
        )

    def with_replicas(self, settings: Sql) -> Sql:
        """The settings of a table. A server that is killed in an INSERT has rows that ZooKeeper does not know. Where a table has few others the
        engine would not start again; it puts them aside instead, and no version has them."""
        if not self.replication:
            return settings
        started = sql("replicated_max_ratio_of_wrong_parts = {one}", one=number(1))
        return sql("{settings}, {started}", settings=settings, started=started) if settings else sql("SETTINGS {started}", started=started)

    def engine(self, kind: str, said: str, *more: Sql) -> Sql:
        """What keeps a table's rows: on a server alone, or on all servers of its shard."""
        if self.replication:
            path = text(f"{self.replication.path}/{OF_SHARD}/{said}")
            return sql("{kind}({parts})", kind=word(f"Replicated{kind}"), parts=joined([path, text(OF_SERVER), *more]))
        return sql("{kind}({parts})", kind=word(kind), parts=joined(more)) if more else word(kind)

    def tables_of_marks(self) -> list[Statement]:
        """What reads the marks of all generations."""
        found = [Statement(Where.EACH, "create marks", self.reading(self.marks(), self.own_marks(), "~marks"))]
        if self.servers > 1 and not self.replication:
            engine = self.dialect.distributed("~marks", None)
            whole = sql("CREATE TABLE {all} AS {marks} ENGINE = {engine}", all=self.all_marks(), marks=self.marks(), engine=engine)
            found.append(Statement(Where.EACH, "create marks", whole))
        return found

    def reading(self, table: Sql, own: Sql, said: str) -> Sql:
        """What makes a table that reads the tables of this name of all generations, of which one is there."""
        engine = self.dialect.merging(f"^{re.escape(said)}~[0-9]+$")
        return sql("CREATE TABLE {table} AS {own} ENGINE = {engine}", table=table, own=own, engine=engine)

    def all_servers(self) -> Sql:
        """What reads the numbers of all servers that a server knows, and their marks of the warehouse."""
        return self.dialect.table("~w~all")

    def tables_of_servers(self) -> list[Statement]:
        """What reads what each server keeps of itself, where there are several."""
        engine = self.dialect.distributed("~w", None)
        made = sql("CREATE TABLE {all} (number Int64, mark String) ENGINE = {engine}", all=self.all_servers(), engine=engine)
        return [Statement(Where.EACH, "create servers", made)] if self.servers > 1 and not self.replication else []

    def tables_of_versions(self) -> list[Statement]:
        """What reads the rows of all views of versions, and of all those of attempts."""
        versions = sql(COLUMNS_OF_VERSIONS)
        attempts = sql("slot UInt32, night UInt64, what String, who String, at UInt32, mark String, generation UInt32")
        return [
            Statement(Where.ONE, "create versions", sql("CREATE TABLE {all} ({columns}) ENGINE = {engine}", all=self.dialect.numbered(letter),
                                                        columns=columns, engine=self.dialect.numbering(letter)))
            for letter, columns in (("v", versions), ("a", attempts))
        ]

    def views_of_now(self) -> list[Statement]:
        """The views of the newest version, which can be made when there is one."""
        return [Statement(Where.ONE, f"create {view.name}~now", self.now(v)) for v, view in enumerate(self.views)]

    def tables_of(self, v: int) -> list[Statement]:
        """What reads a view's tables of all generations, and what reads all servers where it is shared out."""
        label = f"create {self.views[v].name}"
        found = [Statement(Where.EACH, label, self.reading(self.table(v), self.filled(v), self.said(v)))]
        if self.is_shared(v) and not self.replication:
            engine = self.dialect.distributed(self.said(v), None)
            table = sql("CREATE TABLE {all} AS {table} ENGINE = {engine}", all=self.whole(v), table=self.table(v), engine=engine)
            found.append(Statement(Where.EACH, label, table))
        return found

    def own_table(self, v: int, settings: Sql) -> Sql:
        """The table of a view's rows with their counts and slots."""
        kinds = self.dialect.kinds
        columns = [sql("{column} {kind}", column=column, kind=kinds[kind]) for column, kind in zip(self.groups(v), self.kinds(v))]
        count, *sums = self.sums(v)
        columns += [sql("{count} Int64", count=count), *(sql("{sum} Decimal(38, 0)", sum=each) for each in sums), sql("{slot} UInt32", slot=SLOT)]
        return sql(
            "CREATE TABLE IF NOT EXISTS {table} ({columns}) ENGINE = {engine} PARTITION BY {slot} ORDER BY {order} {settings}",
            table=self.filled(v), columns=joined(columns), slot=SLOT, order=self.order(v), settings=self.with_replicas(settings),
            engine=self.engine("SummingMergeTree", self.filled_said(v), sql("({sums})", sums=joined(self.sums(v)))),
        )

    def order(self, v: int) -> Sql:
        """A row's own columns; first those by which another view is joined with it."""
        users, groups = self.users(v), range(self.shape.groups(v))
        first = [column for columns in self.asked_for()[v] for column in columns if column in groups]
        listed = [users[column] for column in dict.fromkeys([*first, *groups])]
        return sql("({listed})", listed=joined(listed)) if listed else sql("tuple()")

    def sharing(self, v: int) -> Sql:
        """What a table is that shares the rows of a base view out by its column."""
        said = [column for column, _ in self.views[v].columns]
        return self.dialect.distributed(self.filled_said(v), self.users(v)[said.index(self.split[v])])

    def now(self, v: int) -> Sql:
        """What a reader reads who asks for nothing else than the newest version. Its slots are one value, which is worked out before the
        rows are read: a SELECT that took them from a subquery would hold the views of versions, and a sweep would wait for its end."""
        slots = sql("SELECT arrayJoin(({standing}))", standing=self.standing(v))
        said = [name(self.columns[v].of(column)) for column, _ in self.views[v].columns]
        named = [sql("{own} AS {said}", own=own, said=each) for own, each in zip(self.users(v), said)]
        shown = joined(named if self.shape.is_summary(v) else [*named, COUNT])
        return sql("CREATE VIEW {view} AS SELECT {shown} FROM ({contents})", view=self.table_now(v), shown=shown, contents=self.read_by_all(v, slots, self.within(v)))

    def read_by_all(self, v: int, slots: Sql, within: Sql) -> Sql:
        """What a view holds in slots, as whoever has no more rights than to read can ask for it."""
        table = self.sound_table(v) if self.replication else self.whole(v)
        rows = sql("{table} WHERE {slot} {within} ({slots})", table=table, slot=SLOT, within=within, slots=slots)
        return self.shown(v, rows, bool(self.replication))

    def table_now(self, v: int, more: str = "") -> Sql:
        """The view of the newest version, whose name is the user's."""
        return self.dialect.table(self.names.of(self.prefix + self.views[v].name, f"~now{more}"))

    def standing(self, v: int) -> Sql:
        """The slots of the newest version as one value. It raises unless the version has the view so defined, and each server that has rows
        of it answers, and has the marks of all these slots. The version is read before the marks, which stand before it does: of a join the
        right side is read first."""
        defined = sql("has(definitions, {definition})", definition=text(self.definitions[v])) if self.definitions else sql("1")
        newest = sql(
            "SELECT slots, {defined} AS defined, 1 AS one FROM {versions} ORDER BY seq DESC LIMIT 1",
            defined=defined, versions=self.dialect.numbered("v"),
        ) if self.replication is None else self.newest_agreed(defined)
        is_of_all = self.is_shared(v) and self.replication is None
        marks, servers = (self.all_marks(), self.servers) if is_of_all else (self.marks(), 1)
        there = sql("SELECT groupArray(slot) AS there, 1 AS one FROM (SELECT DISTINCT server, slot FROM {marks})", marks=marks)
        each = sql("SELECT arrayJoin(slots) AS slot, there, defined FROM ({there}) ALL INNER JOIN ({newest}) USING one", there=there, newest=newest)
        return sql(
            "SELECT groupArray(slot) FROM ({each}) WHERE throwIf(defined = 0 OR slot > 0 AND countEqual(there, slot) <> {servers}) = 0",
            each=each, servers=number(servers),
        )

    # ---- what readers read where there are replicas

    def sound_table(self, v: int) -> Sql:
        """The table that has a view's rows and the marks of them, of one server of each shard, or a server's own where it has a copy."""
        return self.table(v, "~every" if self.is_shared(v) else "~kept")

    def is_sound(self, v: int) -> Sql:
        """That of each slot there are the marks of all shards among the rows that were read. They come over the same connection as the rows of a
        server: who is left out, or asked twice, is noticed. What follows is asked of what is no mark."""
        shards = self.servers if self.is_shared(v) else 1
        return sql("throwIf({w} > 0 AND count() <> {shards}) = 0 AND {w} = 0", w=alias("w"), shards=number(shards))

    def newest_agreed(self, defined: Sql) -> Sql:
        """The newest version by ZooKeeper, as the server's own row of it says it. Before a commit all servers have the row; where they have those of
        several clients, this raises until that is cleared up."""
        row = sql(
            "SELECT slots AS listed, {defined} AS known FROM {rows} WHERE seq = (SELECT max(toUInt64OrZero(name)) FROM {agreed})",
            defined=defined, rows=self.dialect.table("~rows"), agreed=self.agreed(),
        )
        return sql("SELECT any(listed) AS slots, any(known) AS defined, 1 AS one FROM ({row}) HAVING throwIf(count() <> 1) = 0", row=row)

    def agreed(self) -> Sql:
        """The names of versions in ZooKeeper."""
        assert self.replication is not None
        path = text(f"{self.replication.path}/v")
        return sql("(SELECT name FROM system.zookeeper WHERE path = {path} AND numChildren > 0)", path=path)

    def tables_of_rows(self) -> list[Statement]:
        """What reads the rows of versions that a server has, which are there before they are committed, and those of them that were."""
        rows, versions, late = (self.dialect.table(said) for said in ("~rows", "~versions", "~late"))
        columns = sql(", ".join(each.split()[0] for each in COLUMNS_OF_VERSIONS.split(", ")))
        schema = text(self.dialect.schema)
        return [
            Statement(Where.EACH, "create versions", said)
            for said in (
                sql("CREATE TABLE {rows} ({columns}) ENGINE = {engine}", rows=rows, columns=sql(COLUMNS_OF_VERSIONS),
                    engine=self.dialect.merging("^~v[0-9]+~")),
                sql("CREATE VIEW {versions} AS SELECT {columns} FROM {rows} WHERE seq IN (SELECT toUInt64OrZero(name) FROM {agreed})",
                    versions=versions, columns=columns, rows=rows, agreed=self.agreed()),
                sql("CREATE VIEW {late} AS SELECT table FROM system.replicas WHERE database = {schema} AND {behind}", late=late, schema=schema,
                    behind=sql(BEHIND)),
            )
        ]

    def readers_of(self, v: int) -> list[tuple[str, Sql]]:
        """What readers read of a view, by the names of tables: a server's own rows and marks, those of all shards, and the newest version."""
        found = [(self.said(v, "~kept"), self.kept_on_server(v))]
        if self.is_shared(v):
            made = "CREATE TABLE {every} AS {kept} ENGINE = {engine}"
            engine = self.dialect.distributed(self.said(v, "~kept"), None)
            found.append((self.said(v, "~every"), sql(made, every=self.table(v, "~every"), kept=self.table(v, "~kept"), engine=engine)))
        return [*found, (self.names.of(self.prefix + self.views[v].name, "~now"), self.now(v))]

    def kept_on_server(self, v: int) -> Sql:
        """A view's rows on a server, and its marks, of which the columns are empty. It raises while rows of the view are on their way there."""
        columns, kinds = [*self.groups(v), *self.sums(v)], self.kinds(v)[: self.shape.groups(v)]
        empty = [sql("toInt64(0)") if kind == "int" else text("") for kind in kinds]
        empty += [sql("toInt64(0)"), *(sql("toDecimal128(0, 0)") for _ in self.sums(v)[1:])]
        pattern = text(f"^({re.escape(self.said(v))}|~marks)~[0-9]+$")
        late = sql("SELECT count() FROM {late} WHERE match(table, {pattern})", late=self.dialect.table("~late"), pattern=pattern)
        rows = sql("SELECT {columns}, {slot}, toUInt32(0) AS {mark} FROM {table} WHERE throwIf(({late}) > 0) = 0",
                   columns=joined(columns), slot=SLOT, mark=OF_MARK, table=self.table(v), late=late)
        marks = sql("SELECT {empty}, slot AS {slot}, toUInt32(server + 1) AS {mark} FROM {marks}", slot=SLOT, mark=OF_MARK, marks=self.marks(),
                    empty=joined([sql("{value} AS {column}", value=value, column=column) for value, column in zip(empty, columns)]))
        return sql("CREATE VIEW {kept} AS {rows} UNION ALL {marks}", kept=self.table(v, "~kept"), rows=rows, marks=marks)

    # ---- contents

    def shown(self, v: int, rows: Sql, has_marks: bool = False) -> Sql:
        """What rows add up to, in the columns of the view, with a count where it has one. There may be marks among the rows, which are judged."""
        groups, users, is_summary = self.groups(v), self.users(v), self.shape.is_summary(v)
        totals = [alias("t", place) for place in range(1, self.shape.sums(v) + 1)]
        sums = [sql("sum({sum}) AS {total}", sum=each, total=total) for each, total in zip(self.sums(v), totals)]
        there = sql("sum({count}) > 0" if is_summary else "sum({count}) <> 0", count=self.sums(v)[0])
        keys, marks = [*groups], list[Sql]()
        if has_marks:
            keys.append(alias("w"))
            marks.append(sql("if({mark} > 0, {slot}, 0) AS {w}", mark=OF_MARK, slot=SLOT, w=alias("w")))
            there = sql("{sound} AND {there}", sound=self.is_sound(v), there=there)
        inner = sql(
            "SELECT {shown} FROM {rows} {grouped} HAVING {there}",
            shown=joined([*groups, *marks, *sums]), rows=rows, grouped=self.grouped(keys), there=there,
        )
        last = [*users[len(groups) :]] if is_summary else [COUNT]
        shown = [sql("toInt64({total}) AS {column}", total=total, column=column) for total, column in zip(totals, last)]
        return sql("SELECT {shown} FROM ({inner})", shown=joined([*groups, *shown]), inner=inner)

    def contents(self, v: int) -> Statement:
        """A view as it is in a version, row by row in their order."""
        only_reads = self.replication is not None and self.replication.only_reads
        shown = self.read_by_all(v, self.before, sql("IN")) if only_reads else self.shown(v, self.rows_in(v, self.before, self.whole(v, self.before)))
        return Statement(Where.ONE, f"read {self.views[v].name}", sql("{shown} ORDER BY {users}", shown=shown, users=joined(self.users(v))))

    def between(self, v: int, come: Sql, gone: Sql) -> Statement:
        """What the rows of a base view in some slots add up to, less those in others: each row that is left over, with its count behind it."""
        columns, slots = self.users(v), sql("{come}, {gone}", come=come, gone=gone)
        said = sql(
            "SELECT {columns}, sum(if({slot} IN ({gone}), -{count}, {count})) AS {n} FROM {rows} {grouped} HAVING {n} <> 0 ORDER BY {columns}",
            columns=joined(columns), slot=SLOT, gone=gone, count=COUNT, n=alias("n"), rows=self.rows_in(v, slots, self.whole(v, slots)),
            grouped=self.grouped(columns),
        )
        return Statement(Where.ONE, f"changes of {self.views[v].name}", said)

    # ---- a night's steps

    def filling(self, v: int, sent: int = 0) -> Statement:
        """What puts the rows that go over with it, `_data`, into the slot of a base view: where it is shared out through the table of all
        servers. It takes effect where so many rows, counted, were `sent` before and stand there, and so once, however often it comes."""
        users, table = self.users(v), self.shared_out(v) if self.is_shared(v) else self.filled(v)
        given = [word("_", place) for place in range(1, len(users) + 2)]
        had = sql("SELECT sum(abs({count})) FROM {rows}", count=COUNT, rows=self.rows_in(v, self.slot, table))
        said = sql(
            "INSERT INTO {table} ({columns}) SELECT {given}, toUInt32({slot}) FROM _data WHERE ({had}) = toUInt64({sent}) {own}",
            table=table, columns=joined([*users, COUNT, SLOT]), given=joined(given), slot=self.slot, had=had, sent=text(str(sent)),
            own=self.is_own(v) if self.is_shared(v) else NOTHING,
        )
        return Statement(Where.ONE if self.is_shared(v) and not self.replication else Where.EACH, f"net {self.views[v].name}", said)

    def given_types(self, v: int) -> list[Sql]:
        """The types of the rows that go over to a base view, each with its count."""
        return [*(self.dialect.kinds[kind] for kind in self.kinds(v)), sql("Int64")]

    def arrived(self, views: Iterable[int]) -> Statement:
        """Of each of these base views what its slot's counts add up to on each server, with their signs and without, as 64 bits hold it."""
        each = [
            sql("SELECT toUInt32({v}) AS view, sum(toUInt64({count})) AS more, sum(abs({count})) AS all FROM {rows}", v=number(v), count=COUNT,
                rows=self.rows_in(v, self.slot))
            for v in views
        ]
        return Statement(Where.EACH, "what was sent", joined(each, "UNION ALL"))

    # ---- prints of rows

    def print_of(self, v: int, hashed: str) -> Sql:
        """A number by which rows of a view are known: the sum of each row's count times a hash of it, in 64 bits. It is linear: however rows
        are put together, folded or summed up, it stays, and that of two slots is the sum of theirs. Each sum of a group has a hash of its own."""
        groups, (count, *sums) = self.groups(v), self.sums(v)
        rows = [sql("toUInt64({count})", count=count), *(sql("reinterpretAsUInt64(reinterpretAsString({sum}))", sum=each) for each in sums)]
        products = [
            sql("{row} * {hashed}({of})", row=row, hashed=word(hashed), of=joined([*groups, sql("toUInt32({place})", place=number(place))]))
            for place, row in enumerate(rows)
        ]
        return sql("sum({products})", products=joined(products, "+"))

    def prints(self, views: Iterable[int], slots: Sql) -> Statement:
        """The prints of these views in slots, on each server those of its own rows."""
        each = [
            sql("SELECT toUInt32({v}) AS view, {one} AS one, {other} AS other FROM {rows}", v=number(v), one=self.print_of(v, HASHES[0]),
                other=self.print_of(v, HASHES[1]), rows=self.rows_in(v, slots))
            for v in views
        ]
        return Statement(Where.EACH, "prints", joined(each, "UNION ALL"))

    def prints_by_slot(self, v: int) -> Statement:
        """The prints of a view's rows on a server, slot by slot."""
        one, other = (self.print_of(v, hashed) for hashed in HASHES)
        said = sql("SELECT {slot}, {one} AS one, {other} AS other FROM {table} GROUP BY {slot}", slot=SLOT, one=one, other=other, table=self.table(v))
        return Statement(Where.EACH, "prints by slot", said)

    def marked_prints(self, v: int) -> Statement:
        """The prints of a view as a server's marks have them, slot by slot."""
        at, many = number(v * len(HASHES) + 1), number(len(HASHES))
        said = sql("SELECT slot, arraySlice(prints, {at}, {many}) AS mine FROM {marks}", at=at, many=many, marks=self.marks())
        return Statement(Where.EACH, "prints by marks", said)

    def unfilled(self, v: int, had: int) -> Sql:
        """That the slot of a view has what it had before a statement, by its print: so the statement takes effect once, however often it comes.
        Behind the mark it takes none."""
        return sql(
            "(SELECT {print} FROM {rows}) = toUInt64({had}) AND ({marked}) = 0",
            print=self.print_of(v, HASHES[0]), rows=self.rows_in(v, self.slot, self.filled(v)), had=text(str(had)), marked=self.marks_of_slot(),
        )

    def marks_of_slot(self) -> Sql:
        """How many marks of the slot a server has."""
        return sql("SELECT count() AS {n} FROM {marks} WHERE slot = {slot}", n=alias("n"), marks=self.own_marks(), slot=self.slot)

    def marked(self, own: int, mark: str, tables: Iterable[str], prints: Iterable[int]) -> Statement:
        """The mark of the slot on the server of this number, by which its attempt is known; it is put there once."""
        named = joined([text(each) for each in tables])
        said = sql(
            "INSERT INTO {marks} (slot, server, mark, tables, prints) SELECT toUInt32({slot}), toUInt32({own}), {mark}, {tables}, [{prints}]"
            " WHERE ({there}) = 0",
            there=self.marks_of_slot(), marks=self.own_marks(), slot=self.slot, own=number(own), mark=text(mark),
            tables=sql("[{named}]", named=named) if named else sql("emptyArrayString()"),
            prints=joined([sql("toUInt64({each})", each=text(str(each))) for each in prints]),
        )
        return Statement(Where.EACH, "mark", said)

    def there(self) -> Statement:
        """What a server has: the slots of its marks, the tables that have rows by them, and those that have rows; not of tables that were
        put aside."""
        schema = text(self.dialect.schema)
        said = sql(
            "SELECT {mark} AS what, slot, mark AS of FROM {marks} UNION ALL"
            " SELECT {wanted} AS what, slot, arrayJoin(tables) AS of FROM {marks} UNION ALL"
            " SELECT DISTINCT {rows} AS what, toUInt32OrZero(partition) AS slot, table AS of FROM system.parts"
            " WHERE active AND rows > 0 AND database = {schema} AND partition <> {tuple} AND substring(table, 1, 1) <> {aside}",
            mark=text("mark"), wanted=text("wanted"), rows=text("rows"), marks=self.marks(), schema=schema, tuple=text("tuple()"),
            aside=text("~"),
        )
        return Statement(Where.EACH, "what is there", said)

    def net(self, step: Net) -> list[Statement]:
        return [self.filling(step.view)]

    def judge(self, step: Judge, sought: int | None = None) -> list[Statement]:
        """How many touched rows stand less than not at all, and how many more often than can be counted; each server has those it has whole.
        Where no count can become too large only those are looked up of which something is taken away: first by one column of theirs, `sought`, so
        that no more than that is read of most others."""
        v, table, taken = step.view, self.table(step.view), NOTHING
        if sought is not None:
            taken, column = sql("AND {count} < 0", count=COUNT), self.users(v)[sought]
            table = sql("{table} PREWHERE {column} IN (SELECT {column} FROM {there} {taken})", table=table, column=column, taken=taken,
                        there=self.rows_in(v, self.slot))
        rows, touched = self.rows_in(v, self.after(), table), self.touched(v, sql("IN"), self.table(v), taken)
        inner = sql(
            "SELECT sum({count}) AS {n}, sum(toFloat64({count})) AS {f} FROM {rows} AND {touched} {grouped}",
            count=COUNT, n=alias("n"), f=alias("f"), rows=rows, touched=touched, grouped=self.grouped(self.groups(v)),
        )
        lost = sql("abs({f} - toFloat64({n})) >= toFloat64({apart})", f=alias("f"), n=alias("n"), apart=text(str(2**62)))
        said = sql(
            "SELECT countIf(if({lost}, {f} < 0, {n} < 0)) AS {absent}, countIf({lost} AND {f} > 0) AS {large} FROM ({inner})",
            lost=lost, f=alias("f"), n=alias("n"), absent=alias("absent"), large=alias("large"), inner=inner,
        )
        return [Statement(Where.EACH, f"judge {self.views[v].name}", said)]

    def comp(self, step: Comp, had: int | None = None) -> list[Statement]:
        """All terms as one statement: what they make of each row or group goes into the slot. It raises where an output has no value. Where
        the print of what the slot `had` before is known, it takes effect once."""
        v = step.view
        if not step.terms:
            return []
        columns = joined([*self.groups(v), *self.sums(v), SLOT])
        once = sql("WHERE {unfilled}", unfilled=self.unfilled(v, had)) if had is not None else NOTHING
        said = sql("INSERT INTO {table} ({columns}) {made}", table=self.filled(v), columns=columns, made=self.made_by(step, once))
        return [Statement(Where.EACH, f"comp {self.views[v].name}", said)]

    def made_by(self, step: Comp, once: Sql = NOTHING) -> Sql:
        """What the terms of a Comp make of each row or group, with the slot."""
        v, groups = step.view, [alias("g", place) for place in range(1, self.shape.groups(step.view) + 1)]
        count, *sums = self.added(v)
        tests = [sql("throwIf(sum({lost}) > 0) = 0", lost=alias("lost"))] if self.shape.checked(v) else []
        changed = joined([sql("{each} <> 0", each=each) for each in (count, *sums)], "OR")
        tests.append(sql("({changed})", changed=changed))
        return sql(
            "SELECT {shown} FROM ({terms}) {once} {grouped} HAVING {tests}",
            once=once, shown=joined([*groups, count, *sums, sql("toUInt32({slot})", slot=self.slot)]),
            terms=joined([self.term(v, term) for term in step.terms], "UNION ALL"), grouped=self.grouped(groups), tests=joined(tests, "AND"),
        )

    def would_make(self, step: Comp) -> Statement:
        """How many rows a Comp makes on a server."""
        return Statement(Where.EACH, f"comp {self.views[step.view].name}", sql("SELECT count() FROM ({made})", made=self.made_by(step)))

    def added(self, v: int) -> list[Sql]:
        """What a combined row's count and sums add up to."""
        found = [sql("sum({n})", n=alias("n"))]
        for place in range(2, self.shape.sums(v) + 1):
            found.append(sql("sum(toDecimal128({n}, 0) * {value})", n=alias("n"), value=alias("v", place)))
        return found

    def finish(self, step: Finish) -> list[Statement]:
        """By how much a view grows, how many rows change and how many are gone through; of a summary how many sums leave 64 bits."""
        v = step.view
        said = self.changed_groups(v) if self.shape.is_summary(v) else self.changed_rows(v)
        return [Statement(Where.ONE, f"finish {self.views[v].name}", said)]

    def changed_rows(self, v: int) -> Sql:
        inner = sql(
            "SELECT sum({count}) AS {n}, sum({passed}) AS {gross} FROM {rows} {grouped}",
            count=COUNT, n=alias("n"), passed=gone_through(COUNT), gross=alias("gross"), rows=self.rows_in(v, self.slot, self.whole(v, self.slot)),
            grouped=self.grouped(self.groups(v)),
        )
        return sql(
            "SELECT sum({n}) AS {more}, sum({each}) AS {changed}, sum({gross}) AS {all}, 0 AS {lost} FROM ({inner})",
            n=exact(alias("n")), each=gone_through(alias("n")), more=alias("more"), changed=alias("changed"), gross=alias("gross"),
            all=alias("all"), lost=alias("lost"), inner=inner,
        )

    def changed_groups(self, v: int) -> Sql:
        sums = range(2, self.shape.sums(v) + 1)
        least, most = (sql("toDecimal128({n}, 0)", n=text(str(n))) for n in (LEAST, MOST))
        lost = [sql("{a} < {least} OR {a} > {most}", a=alias("a", place), least=least, most=most) for place in sums]
        return sql(
            "SELECT sum(toInt64({a} > 0) - toInt64({o} > 0)) AS {more}, sum(if({differs}, toInt64({a} > 0) + toInt64({o} > 0), 0)) AS {changed},"
            " {changed} AS {all}, countIf({tests}) AS {lost} FROM ({inner})",
            a=alias("a", 1), o=alias("o", 1), more=alias("more"), changed=alias("changed"), all=alias("all"), lost=alias("lost"),
            differs=self.differs(v), tests=joined(lost, "OR") if lost else sql("1 = 0"), inner=self.groups_beside(v, self.whole(v), self.within(v)),
        )

    def put(self, step: Step) -> list[Statement]:
        """The statements of a step. An Inst has none: from here on the night's slot is read too."""
        match step:
            case Net():
                return self.net(step)
            case Judge():
                return self.judge(step)
            case Comp():
                return self.comp(step)
            case Finish():
                return self.finish(step)
            case Inst():
                return []

    # ---- scripts

    def creation(self) -> list[Sql]:
        """The statements that make the tables."""
        return self.said_to(self.create())

    def said_to(self, statements: Iterable[Statement]) -> list[Sql]:
        """Statements, each with a comment above it that says whom it is for."""
        found: list[Sql] = []
        for made in statements:
            found += [comment(f"{made.where}:"), sql("{said}{end}", said=made.said, end=END_OF_STATEMENT)]
        return found

    def steps_said(self, steps: Iterable[Step], comment_of: Comment) -> list[Sql]:
        """The statements of steps, each step with its comment above."""
        found: list[Sql] = []
        for step in steps:
            found += [comment_of(step), *self.said_to(self.put(step))]
        return found

    def night(self, strategy: Iterable[Expression], comment_of: Comment) -> list[Sql]:
        """What carries out the changes by a strategy."""
        return self.steps_said(self.steps.night(strategy), comment_of)

    def open(self, comment_of: Comment) -> list[Sql]:
        """What fills the derived views from scratch."""
        return self.steps_said(self.steps.opening(), comment_of)

    def folded(self, v: int) -> Statement:
        """The sums of a version's slots in one slot and the tables of its generation, each server of its own; it takes effect once, where
        nothing is in the slot."""
        columns = joined([*self.groups(v), *self.sums(v), SLOT])
        shown, once = [sql("toUInt32({slot})", slot=self.slot)], sql("AND {unfilled}", unfilled=self.unfilled(v, 0))
        said = sql("INSERT INTO {table} ({columns}) {summed}", table=self.filled(v), columns=columns, summed=self.summed_up(v, shown, once))
        return Statement(Where.EACH, f"fold {self.views[v].name}", said)

    def summed_up(self, v: int, more: Sequence[Sql] = (), tests: Sql = NOTHING) -> Sql:
        """What a server's own rows add up to in a version, as they stand in its table, each row or group once."""
        groups, added = self.groups(v), [sql("sum({sum})", sum=each) for each in self.sums(v)]
        return sql(
            "SELECT {shown} FROM {rows} {tests} {grouped} HAVING {there}",
            shown=joined([*groups, *added, *more]), rows=self.rows_in(v, self.before), tests=tests, grouped=self.grouped(groups),
            there=joined([sql("{each} <> 0", each=each) for each in added], "OR"),
        )

    def counted_up(self, v: int) -> Sql:
        """How many rows that are."""
        return sql("SELECT count() AS {n} FROM ({rows})", n=alias("n"), rows=self.summed_up(v))

    # ---- rows that go from server to server

    def poured_types(self, v: int) -> list[Sql]:
        """The types of rows that go over as they stand in a table; sums go as texts, since the engine takes no type with a comma."""
        count, *sums = self.sums(v)
        groups = [self.dialect.kinds[kind] for kind in self.kinds(v)[: self.shape.groups(v)]]
        return [*groups, sql("Int64"), *(sql("String") for _ in sums)]

    def stand(self, v: int, is_dealt: bool = False) -> Sql:
        """How many rows, each once, stand in the slot."""
        table = self.shared_out(v) if is_dealt else self.filled(v)
        return sql("SELECT count() AS {n} FROM {rows}", n=alias("n"), rows=self.rows_in(v, self.slot, table))

    def poured(self, v: int, sent: int, is_dealt: bool = False) -> Statement:
        """What puts rows as they stand in another server's table, `_data`, into the slot; dealt out among the servers where that is wanted.
        It takes effect where so many rows were `sent` before and stand there, and no mark does: once, however often it comes."""
        groups, (count, *sums) = self.groups(v), self.sums(v)
        table = self.shared_out(v) if is_dealt else self.filled(v)
        given = [word("_", place) for place in range(1, len(groups) + 2)]
        given += [sql("toDecimal128({text}, 0)", text=word("_", len(groups) + place)) for place in range(2, len(sums) + 2)]
        said = sql(
            "INSERT INTO {table} ({columns}) SELECT {given}, toUInt32({slot}) FROM _data"
            " WHERE ({had}) = {sent} AND ({marked}) = 0 {own}",
            own=self.is_own(v) if is_dealt else NOTHING, table=table, columns=joined([*groups, count, *sums, SLOT]), given=joined(given),
            slot=self.slot, had=self.stand(v, is_dealt),
            sent=number(sent), marked=self.marks_of_slot(),
        )
        return Statement(Where.ONE, f"pour {self.views[v].name}", said)

    def total(self, v: int) -> Statement:
        """How many rows a view has by a fold's slot, and how many Comps go through to read it: the groups of a summary are added up before,
        and each server's own rows count by themselves. They may be more than 64 bits count."""
        rows, counted = self.rows_in(v, self.slot, self.whole(v, self.slot)), self.sums(v)[0]
        if self.shape.is_summary(v):
            groups = sql("SELECT sum({n}) AS {all} FROM {rows} {grouped} HAVING {all} > 0", n=counted, all=alias("n"), rows=rows,
                         grouped=self.grouped(self.groups(v)))
            said = sql("SELECT count() AS {all}, {all} AS {passed} FROM ({groups})", all=alias("all"), passed=alias("passed"), groups=groups)
        else:
            said = sql(
                "SELECT sum({n}) AS {all}, sum({gross}) AS {passed} FROM {rows}",
                n=exact(counted), gross=gone_through(counted), all=alias("all"), passed=alias("passed"), rows=rows,
            )
        return Statement(Where.ONE, f"total {self.views[v].name}", said)


def exact(counted: Sql) -> Sql:
    """A count that can be added up to 128 bits."""
    return sql("toDecimal128({counted}, 0)", counted=counted)


def gone_through(counted: Sql) -> Sql:
    return exact(sql("abs({counted})", counted=counted))


def split_of(catalogue: Named, words: Iterable[str]) -> dict[int, str]:
    """The columns by which base views are shared out, from words TABLE:COLUMN."""
    found: dict[int, str] = {}
    for said in words:
        view, _, column = said.partition(":")
        v = catalogue.names.get(view)
        if v is None or catalogue.views[v].over:
            raise Unfit(f"--shard {said}: {view} is no base view")
        if column not in dict(catalogue.views[v].columns):
            raise Unfit(f"--shard {said}: {view} has no column {column!r}")
        if v in found:
            raise Unfit(f"--shard {said}: {view} is shared out twice")
        found[v] = column
    return found
