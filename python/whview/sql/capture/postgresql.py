"""PostgreSQL as tables are captured there: by statement triggers with transition tables, beside writers that do not wait."""

from __future__ import annotations

from collections.abc import Callable, Iterable, Mapping, Sequence
from typing import TYPE_CHECKING, NamedTuple

from ...catalogue.nulls import NULL_NUMBER
from ...views.captured import computed_in_postgresql, plain_in_postgresql
from ..dialect import COUNT
from ..postgresql import UNREAD, VARIABLES, PostgreSQL
from ..tokens import END_OF_STATEMENT, Sql, body, joined, name, number, sql, statements, text, word
from .bounded import Ends, bounds_of_postgresql
from .captured import BELOW, CAPTURED, COLUMNS, PARTS, TORN
from .live import LiveDialect
from .log import FORMER, LOG, Log
from .log_parting import DIFFERS
from .opening import QUIETLY
from .owner import BELOW_SOURCE, Owner
from .parting import SUFFIX, Parting
from .standing import JUDGED, TYPE, UNFIT, Hole, Standing
from .triggers import WAITED, Triggers
from .turned import MOST_DIGITS, Told, Turned, Unturned, of_postgresql

if TYPE_CHECKING:
    from .live import Database
    from .merge import MergeScript
    from .sources import Source

# How full, in hundredths, a page is filled at first: a row that changes finds room beside itself then, and its indexes stay as they are. Of
# rows some change in a night, of groups most.
FILLED = {"rows": 90, "summary": 60}
RESHAPED = "~reshaped"
APART = sql("pg_temp.{said}", said=name("whview apart"))
STRANGE = "there is a table %s already, which is none of --capture's: name another schema by --schema"
# Without the lines before it a block would read changes by one snapshot and take them away by another: what comes in between would be lost.
ALONE = "the isolation is not REPEATABLE READ: run the whole script, and not its block alone"
READ = "%s depends on %s, which would go: drop it before, and run the script again"
UNKNOWN = "%s is captured too, and is not in this catalogue: a catalogue with all that is captured lets it go"
CALLED = (
    "%s is not read as %s: its indexes, checks or statistics call a function that is no superuser's, nor a member's of that role; once you have looked at the"
    " function, make it a superuser's by ALTER FUNCTION .. OWNER TO"
)
OTHERWISE = "%s is otherwise than it was when this script was made: make it anew by whview sql capture"


class NewTable(NamedTuple):
    """A table that is made where it is not there: its name, its columns, and what follows when it is made."""

    said: Sql
    columns: Sql
    more: Sequence[Sql] = ()


class LivePostgreSQL(PostgreSQL, LiveDialect):
    """Nights take their changes by one statement, beside writers."""

    is_exact, most_digits = True, MOST_DIGITS
    kept_settings = list[Sql]()
    history_kinds = {"whole": sql("bigint"), "text": sql("text"), "moment": sql("timestamptz"), "seconds": sql("float8")}
    moment = sql("clock_timestamp()")
    now = sql("extract(epoch FROM clock_timestamp())")

    def __init__(self, schema: str | None = None, role: str | None = None, is_taken_without: bool = False,
                 captures: Callable[[MergeScript], Captures] | None = None) -> None:
        super().__init__(schema)
        self.owner = Owner(self, role, is_taken_without)
        self.captures: Callable[[MergeScript], Captures] = captures or Captures

    # All of a night is one snapshot, taken when the tables are locked: each transaction of an application is in it wholly, or not at all.
    isolation = "REPEATABLE READ"

    def block(self, made: Iterable[Sql], variables: Iterable[Sql] = VARIABLES) -> Sql:
        """Statements as one, which are carried out as whoever owns the night's schema."""
        return super().block([*self.owner.taken_on(), *made], variables)

    def block_of_another(self, made: Iterable[Sql]) -> Sql:
        """The same as whoever runs the script."""
        return super().block(made)

    def block_apart(self, made: list[Sql]) -> Sql:
        """The same where tables of the application are read. What their owner has put on them may be called then, as PostgreSQL plans a query: as the owner
        of the night's schema, and within a function of that one, which nobody leaves for another role, as he could where a role was only taken on."""
        program = sql("\n#variable_conflict use_column\nDECLARE{variables}\nBEGIN{made}\nEND{end}", variables=statements(VARIABLES, 1),
                      made=statements([*made, *self.settled()], 1), end=END_OF_STATEMENT)
        function = sql("CREATE FUNCTION {apart}() RETURNS void LANGUAGE plpgsql SECURITY DEFINER AS {program}", apart=APART, program=body(program))
        return self.block([function, sql("PERFORM {apart}()", apart=APART), sql("DROP FUNCTION {apart}()", apart=APART)])

    def snapshot(self, locked: Sql, made: list[Sql], variables: Iterable[Sql]) -> list[Sql]:
        """A transaction that locks tables, and then is one block. Within a transaction that has asked something already it is refused by the
        server, since that has a snapshot from before."""
        level = sql("SET TRANSACTION ISOLATION LEVEL " + self.isolation + " READ WRITE")
        begun = [sql("{each}{end}", each=each, end=END_OF_STATEMENT) for each in (sql("BEGIN ISOLATION LEVEL READ COMMITTED"), level, locked)]
        other = sql("current_setting({key}) <> {wanted}", key=text("transaction_isolation"), wanted=text(self.isolation.lower()))
        judged = self.where(other, self.raised(text(ALONE)))
        return [*begun, UNREAD, self.block([judged, *made], variables), sql("COMMIT{end}", end=END_OF_STATEMENT)]

    # ---- the application's tables, as they are turned

    def turned(self, told: Told) -> Turned | Unturned:
        return of_postgresql(told)

    def computed(self, said: str, kind: str, shown: str, read: Sequence[Told]) -> Turned:
        return computed_in_postgresql(said, kind, shown, read)

    def plain(self, told: Told) -> Turned:
        return plain_in_postgresql(told)

    def bounds(self, told: Told) -> Ends:
        return bounds_of_postgresql(told)

    # ---- what is asked, compared and put right

    def answered(self, columns: Sql) -> Sql:
        """As one value of JSON, of which each line is one."""
        return sql("json_build_array({columns})", columns=columns)

    def epoch(self, moment: Sql) -> Sql:
        return sql("extract(epoch FROM {moment})", moment=moment)

    def size(self, table: Sql, cells: Sequence[Sql]) -> Sql:
        return sql("pg_total_relation_size({table})", table=text(self.written([table])[0]))

    def typed(self, cell: Sql, kind: str) -> Sql:
        return sql("({cell})::{kind}", cell=cell, kind=self.kinds[kind])

    def exactly(self, cells: Sequence[Sql]) -> list[Sql]:
        return []

    def digest(self, cells: Sql) -> Sql:
        """A sum, so that the order is nothing and a row that stands twice counts twice."""
        one = sql("hash_record_extended(ROW({cells}), 0)", cells=cells)
        return sql("(coalesce(sum(CASE WHEN d.n = 1 THEN {one} END), 0) + coalesce(sum(CASE WHEN d.n <> 1 THEN {one}::numeric * d.n END), 0))::text", one=one)

    def delete_like(self, table: Sql, rows: Sql, same: Sql) -> Sql:
        return sql("DELETE FROM {table} AS t USING {rows} WHERE {same}", table=table, rows=rows, same=same)

    def made_where_missing(self, table: Sql, columns: Sql) -> list[Sql]:
        is_missing = sql("to_regclass({table}) IS NULL", table=text(self.written([table])[0]))
        return self.only_where(is_missing, [sql("CREATE TABLE {table} ({columns})", table=table, columns=columns)])


def names_of(said: Iterable[str]) -> Sql:
    """Names of columns as the server's catalogue has them."""
    return sql("ARRAY[{names}]::name[]", names=joined(list(map(text, said))))


class Captures(Triggers, Standing):
    """The statements that capture the tables of base views, that look whether they are still captured, and that let them go."""

    def __init__(self, script: MergeScript) -> None:
        super().__init__(script)
        self.parting = Parting(self)
        # Whether all views are filled from the mirrors in the same script.
        self.opens_all = False

    def log_of(self, database: Database) -> Log | None:
        """The log that tables of a database are captured from, if they are."""
        return self.log if self.log.is_used(database) else None

    def refusals(self, sources: Mapping[int, Source]) -> list[Sql]:
        """Refusals of tables that are not captured as they were; whether rows changed unnoticed a check finds out by itself."""
        return [*(self.whole([*sources]) if sources else []), *(each for source in sources.values() for each in self.uncalled(source))]

    # ---- what is noted of views

    def captured_in(self, database: Database) -> list[str]:
        """The names of the base views that are captured."""
        return [view for view, in database.rows(sql("SELECT json_build_array(c.view) FROM {state} AS c", state=self.state))[0]]

    def marked_in(self, database: Database) -> list[str]:
        """The names of base views whose mirrors got their columns, and not their contents yet, since a capture was stopped."""
        marks = self.script.tables.own(RESHAPED)
        if not database.is_there(marks):
            return []
        return [view for view, in database.rows(sql("SELECT json_build_array(m.view) FROM {marks} AS m", marks=marks))[0]]

    def filled_in(self, database: Database) -> list[str]:
        """The names of the derived views that were filled."""
        query = sql("SELECT json_build_array(k.view) FROM {noted} AS k WHERE k.name = {none}", noted=self.columns, none=text(""))
        return [view for view, in database.rows(query)[0]]

    def functions_of(self, v: int) -> list[Sql]:
        """The functions that are a view's own."""
        return [self.function(v)]

    # ---- tables

    def no_strangers(self) -> list[Sql]:
        """A refusal of tables that have the night's names and were not made for it: those have counts, or room for groups that change."""
        return self.dialect.refuse_with(sql(
            "SELECT format({told}, k.oid::regclass) FROM pg_class AS k WHERE k.relnamespace = to_regnamespace({schema}) AND k.relname IN ({names})"
            " AND NOT EXISTS (SELECT 1 FROM pg_attribute AS a WHERE a.attrelid = k.oid AND a.attname = {count})"
            " AND NOT coalesce({room} = ANY (k.reloptions), FALSE) LIMIT 1", told=text(STRANGE), schema=self.written(name(self.dialect.schema)),
            names=joined([text(each.said) for each in self.script.tables.expected()]), count=text("#"), room=text(f"fillfactor={FILLED['summary']}"),
        ))

    def made(self, sources: Mapping[int, Source]) -> list[Sql]:
        """One transaction that judges the sources and makes all or nothing: what is not there yet, or is otherwise than the catalogue has it now, the
        functions of the triggers, and what is captured. Tables that other roles may change stay as they are until it ends."""
        first = [*self.no_strangers(), *self.dialect.owner.made(self.table_names(), self.function_names(), sources), *self.made_before()]
        schema = name(self.dialect.schema)
        is_missing = sql("to_regnamespace({schema}) IS NULL", schema=self.written(schema))
        made = [self.dialect.where(is_missing, sql("CREATE SCHEMA {schema}", schema=schema))]
        judged = [each for source in sources.values() for each in self.fitting(source)]
        read = [each for v, source in sources.items() for each in self.read(v, source)]
        noted = [each for v in sources for each in self.noted(v, sources[v])]
        return [
            sql("BEGIN ISOLATION LEVEL READ COMMITTED READ WRITE{end}", end=END_OF_STATEMENT),
            *self.held(sources),
            self.dialect.block_of_another(first),
            self.dialect.block([*judged, *made, *self.tables_made(sources), *noted, self.published()]),
            self.dialect.block_apart(read),
            sql("COMMIT{end}", end=END_OF_STATEMENT),
            *self.watched(sources),
        ]

    def made_before(self) -> list[Sql]:
        """What somebody with more rights makes, or judges, before all else."""
        return []

    def function_names(self) -> list[str]:
        """The functions that are the nights' own."""
        return [*(self.script.tables.said(v, suffix) for v in self.script.steps.base() for suffix in ("~capture", SUFFIX)), *self.fitted.names]

    def watched(self, sources: Mapping[int, Source]) -> list[Sql]:
        """Partitions are captured as they come."""
        return self.parting.watched(sources)

    def judged_before(self, sources: Mapping[int, Source]) -> list[Sql]:
        """The same judgement for itself, before anything that stands is given other columns."""
        first = [each for v, source in sources.items() for each in [*self.read(v, source), *self.unfit(v)]]
        return [
            sql("BEGIN ISOLATION LEVEL READ COMMITTED READ WRITE{end}", end=END_OF_STATEMENT),
            *self.held(sources),
            self.dialect.block_of_another([*self.no_strangers(), *self.dialect.owner.unsafe(sources)]),
            self.dialect.block_apart(first),
            sql("COMMIT{end}", end=END_OF_STATEMENT),
        ]

    def read(self, v: int, source: Source) -> list[Sql]:
        """A refusal of a source with rows that cannot be turned, which are read where the source is what it was."""
        return [*self.fitting(source), *self.unlike_null(v, source), *self.script.culprits.strange_in_source(v, source)]

    def held(self, sources: Mapping[int, Source]) -> list[Sql]:
        """Nobody changes a source from here on, and no rows are left out that a change of one has just written anew: a snapshot from before that does
        not have them. Locks are taken in one order."""
        if not sources:
            return []
        said = [source.said for source in sorted(sources.values(), key=lambda source: (source.schema, source.table))]
        return [
            sql("SET LOCAL lock_timeout = {waited}{end}", waited=text(WAITED), end=END_OF_STATEMENT),
            sql("LOCK TABLE {sources} IN ACCESS SHARE MODE{end}", sources=joined(said), end=END_OF_STATEMENT),
        ]

    def fitting(self, source: Source) -> list[Sql]:
        """A refusal of a source that is another thing than it was, or has columns of other types: what is read of it calls nothing of others'."""
        return self.dialect.refuse_with(sql(
            "SELECT format({told}, {source}::text) WHERE NOT EXISTS (SELECT 1 FROM pg_class AS k WHERE k.oid = {source}::regclass"
            " AND k.relkind = {kind}) OR (SELECT count(*) FROM pg_attribute AS a WHERE a.attrelid = {source}::regclass AND a.attnum > 0 AND ({fits}))"
            " <> {many}", told=text(OTHERWISE), source=self.written(source.said), kind=text("p" if source.is_parted else "r"), fits=source.fits,
            many=number(len(source.own)),
        )) + self.uncalled(source)

    def uncalled(self, source: Source) -> list[Sql]:
        """A refusal of a source that cannot be read without that somebody's function is called whom its reader has no reason to trust."""
        below = sql(BELOW_SOURCE, source=self.written(source.said))
        return self.dialect.refuse_with(sql("SELECT format({told}, b.relation, current_user) FROM {below} WHERE {calls} LIMIT 1", told=text(CALLED), below=below,
                                            calls=self.calls(sql("b.relation"))))

    def tables_made(self, sources: Mapping[int, Source]) -> list[Sql]:
        """The tables that are not there yet, each with its columns, and the keys of former ones."""
        of_parts = "view text NOT NULL, part oid NOT NULL, name text NOT NULL, triggers text NOT NULL, file oid NOT NULL, attributes text NOT NULL"
        tables = [
            NewTable(self.state, sql("view text PRIMARY KEY, source regclass NOT NULL, filled boolean NOT NULL")),
            NewTable(self.columns, sql("view text NOT NULL, name text NOT NULL, type text NOT NULL, PRIMARY KEY (view, name)")),
            NewTable(self.parts, sql(of_parts), [sql("CREATE INDEX ON {parts} (part)", parts=self.parts)]),
            NewTable(self.script.tables.own(JUDGED), sql("print text NOT NULL")),
            *(NewTable(self.script.tables.own(said), columns) for said, columns in self.script.history.listed_tables()),
        ]
        made = [each for table in tables for each in self.table_made(table)] + self.torn_made()
        added = [sql("ALTER TABLE {columns} ADD {said} boolean NOT NULL DEFAULT FALSE", columns=self.columns, said=word(said))
                 for said in ("is_filled", "is_key")]
        known = sql("NOT EXISTS (SELECT 1 FROM pg_attribute AS a WHERE a.attrelid = to_regclass({columns}) AND a.attname = {said})",
                    columns=self.written(self.columns), said=text("is_key"))
        made += self.dialect.only_where(known, added)
        own = [each for v in range(len(self.script.views)) for table in self.view_tables(v, sources) for each in self.table_made(table)]
        return [*made, *(each for v in sources for each in self.keyed_anew(v, sources[v])), *own]

    def torn_made(self) -> list[Sql]:
        """What the functions of triggers want beside the tables of changes."""
        return [*self.table_made(NewTable(self.torn_table, sql("view text NOT NULL, why text NOT NULL"))), *self.fitted.made()]

    def table_made(self, table: NewTable) -> list[Sql]:
        """The statements that make a table where it is not there."""
        is_missing = sql("to_regclass({table}) IS NULL", table=self.written(table.said))
        return self.dialect.only_where(is_missing, [sql("CREATE TABLE {table} ({columns})", table=table.said, columns=table.columns), *table.more])

    def published(self) -> Sql:
        """Where all tables of the database are published, rows of these may change only if each can be told by a key or by all that it has."""
        return self.dialect.owner.each(sql(
            "SELECT format({alter}, k.oid::regclass) FROM pg_class AS k WHERE k.relnamespace = to_regnamespace({schema}) AND k.relname IN ({names})"
            " AND k.relreplident = {default} AND NOT EXISTS (SELECT 1 FROM pg_index AS i WHERE i.indrelid = k.oid AND i.indisprimary)",
            alter=text("ALTER TABLE %s REPLICA IDENTITY FULL"), schema=self.written(name(self.dialect.schema)),
            names=joined(list(map(text, self.table_names()))), default=text("d"),
        ))

    # ---- tables of views

    def keyed_anew(self, v: int, source: Source) -> list[Sql]:
        """A mirror whose table has another key than the one by which it was captured: rows that this one kept apart may stand there twice now."""
        former = self.query(v, "SELECT k.name FROM {columns} AS k WHERE k.view = {view} AND k.is_key")
        is_other = sql("EXISTS ({former}) AND EXISTS ({former} AND k.name <> ALL ({now}))", former=former, now=names_of(source.key))
        changed = [*self.script.access.without_key(v), *self.script.access.with_key(v, self.script.access.key_of(v, {v: source}))]
        is_there = sql("to_regclass({table}) IS NOT NULL AND {other}", table=self.written(self.script.tables.table(v)), other=is_other)
        return self.dialect.only_where(is_there, changed)

    def view_tables(self, v: int, sources: Mapping[int, Source]) -> list[NewTable]:
        """The table of a view, with room on each page for rows that change; and that of its changes, which is not cut at its end, since whoever
        writes there would wait for it."""
        table, is_summary = self.script.tables.table(v), self.script.shape.is_summary(v)
        room = sql("ALTER TABLE {table} SET (fillfactor = {filled})", table=table, filled=number(FILLED["summary" if is_summary else "rows"]))
        key = self.script.access.key_of(v, sources)
        columns = joined(self.script.access.columns_with_key(v, key))
        found = [NewTable(table, columns, [room, *self.script.access.unique_of(v, key), *self.script.access.indexes_of(v)])]
        if v in sources:
            changes, cut = self.script.tables.table(v, "~changes"), word("vacuum_truncate")
            kept = sql("ALTER TABLE {changes} SET ({cut} = false)", changes=changes, cut=cut)
            listed = joined([*self.script.tables.typed(v), sql("{count} bigint NOT NULL", count=COUNT)])
            found.append(NewTable(changes, listed, [kept]))
        return found

    def noted(self, v: int, source: Source) -> list[Sql]:
        """What is captured, and by what function."""
        other = self.query(
            v, "SELECT format({told}, c.source, {view}::text) FROM {state} AS c JOIN pg_class AS k ON k.oid = c.source WHERE c.view = {view}"
            " AND c.source <> {source}::regclass AND k.relname = {view}",
            told=text("%s is captured as %s already: let it go first by --uncapture"), source=self.written(source.said),
        )
        return [
            *self.dialect.refuse_with(other),
            self.query(v, "INSERT INTO {state} VALUES ({view}, {source}::regclass, FALSE) ON CONFLICT (view) DO UPDATE SET source = excluded.source",
                       source=self.written(source.said)),
            *self.unfit(v),
            self.query(v, "DELETE FROM {columns} WHERE view = {view}"),
            self.query(v, "INSERT INTO {columns} (view, name, type, is_filled, is_key) SELECT {view}, a.attname, " + TYPE + ", a.attname = ANY ({filled}),"
                          " a.attname = ANY ({key}) FROM pg_attribute AS a WHERE a.attrelid = {source}::regclass AND a.attname = ANY ({all})",
                       source=self.written(source.said), filled=names_of([column.name for column in source.own if not column.may_be_null]),
                       key=names_of(source.key), all=names_of([column.name for column in source.own])),
            self.parts_noted(v),
            *self.captured_by(v, source),
        ]

    def unfit(self, v: int) -> list[Sql]:
        """A refusal of a source whose rows may change while no trigger is fired."""
        query = "SELECT format({told}, b.relation::regclass) FROM " + BELOW + " "
        queries = [self.query(v, query + hole.query + " LIMIT 1", told=text(hole.why)) for hole in self.unfit_parts]
        return [each for query in queries for each in self.dialect.refuse_with(query)]

    # By what rows of a part may change unnoticed.
    unfit_parts: tuple[Hole, ...] = UNFIT

    def differs(self, v: int) -> Sql:
        """Whether a part of a source that is captured from the log is otherwise than it was noted."""
        return self.query(v, DIFFERS, unnoted=self.unnoted(v))

    def parts_without_key(self, v: int) -> Sql:
        """By a key of the noted parts, which they once had, a writer that notes one would wait for another writer that does."""
        keys = sql("FROM pg_constraint AS k WHERE k.conrelid = part AND k.contype = {primary}", primary=text("p"))
        relations, there = self.query(v, "SELECT {parts}::regclass", parts=self.written(self.parts)), sql("EXISTS (SELECT 1 {keys})", keys=keys)
        dropped = sql("EXECUTE concat({alter}, part, {drop}, (SELECT quote_ident(k.conname) {keys}))", alter=text("ALTER TABLE "),
                      drop=text(" DROP CONSTRAINT "), keys=keys)
        return self.one_by_one(v, relations, there, "ACCESS EXCLUSIVE", [dropped], [])

    # ---- contents

    def filled(self, sources: Mapping[int, Source]) -> list[Sql]:
        """By one snapshot each mirror gets what its table has; and where it was filled before, its changes what it lacks, so that nothing is
        lost of what no trigger saw. Where columns are computed each gets all, if the views
        over it are filled too: they may be computed otherwise than before."""
        mirrors = joined([self.script.tables.table(v) for v in sources])
        made = [each for v, source in sources.items() for each in self.filled_one(v, source)]
        return [
            sql("BEGIN ISOLATION LEVEL REPEATABLE READ READ WRITE{end}", end=END_OF_STATEMENT),
            *self.held(sources),
            sql("LOCK TABLE {mirrors} IN EXCLUSIVE MODE{end}", mirrors=mirrors, end=END_OF_STATEMENT),
            self.dialect.block_apart(made),
            sql("COMMIT{end}", end=END_OF_STATEMENT),
        ]

    def filled_one(self, v: int, source: Source) -> list[Sql]:
        """The contents of a mirror, or of its changes."""
        is_filled = self.query(v, "EXISTS (SELECT 1 FROM {state} AS c WHERE c.view = {view} AND c.filled)")
        emptied = sql("DELETE FROM {changes}", changes=self.script.tables.table(v, "~changes"))
        choice = "IF {test} THEN {again} ELSE {first} END IF"
        first = [*self.first(v, source), self.query(v, "UPDATE {state} SET filled = TRUE WHERE view = {view}")]
        table = self.script.tables.table(v)
        again = [sql("TRUNCATE {table}", table=table), self.all_of(v, source)] if self.opens_all and source.read else [self.difference(v, source)]
        return [
            *self.read(v, source),
            emptied,
            self.query(v, "DELETE FROM {torn} WHERE view = {view}", torn=self.torn_table),
            self.query(v, "DELETE FROM {noted} WHERE view = {view}"),
            self.parts_noted(v),
            sql(choice, test=is_filled, again=statements(again, 2), first=statements(first, 2)),
            sql("ANALYZE {table}", table=table),
        ]

    def unlike_null(self, v: int, source: Source) -> list[Sql]:
        """A refusal of a number that would be taken for NULL; what would be of texts is turned otherwise."""
        found = list[Sql]()
        for column in [column for column in source.null_columns if column.kind == "int"]:
            told = f"{self.script.views[v].name} cannot be captured: {NULL_NUMBER} stands in its column {column.name}, and stands for NULL"
            query = "SELECT 1 FROM {source} AS r WHERE r.{column} IS NOT NULL AND {turned} = {null}"
            found += self.dialect.refuse(told, sql(query, source=source.said, column=name(column.name), turned=column.said,
                                                   null=self.dialect.whole(NULL_NUMBER)))
        return found

    def first(self, v: int, source: Source) -> list[Sql]:
        """A mirror gets all that its table has, for the first time."""
        return [self.all_of(v, source), *(self.script.history.filled(v) if source.key else [])]

    def all_of(self, v: int, source: Source) -> Sql:
        """A mirror gets all that its table has."""
        columns, grouped = joined([*self.script.tables.users(v), COUNT]), [column.said for column in source.columns]
        insert = "INSERT INTO {mirror} ({columns}) SELECT {shown}, {count} FROM {source} AS r {grouped}"
        count = sql("1") if source.key else sql("count(*)")
        grouping = sql("") if source.key else sql("GROUP BY {cells}", cells=joined(grouped))
        return sql(insert, mirror=self.script.tables.table(v), columns=columns, shown=source.shown, count=count, source=source.said, grouped=grouping)

    def difference(self, v: int, source: Source) -> Sql:
        """The changes get what a mirror lacks of what its table has."""
        cells = joined(self.script.tables.cells(v))
        return sql(
            "INSERT INTO {changes} ({columns}) SELECT {cells}, sum(g.n) FROM (SELECT {shown}, 1 FROM {source} AS r"
            " UNION ALL SELECT {mirrored}, - t.{count} FROM {mirror} AS t) AS g ({cells}, n) GROUP BY {cells} HAVING sum(g.n) <> 0",
            changes=self.script.tables.table(v, "~changes"), columns=joined([*self.script.tables.users(v), COUNT]), cells=cells, shown=source.shown,
            source=source.said, mirrored=joined(self.script.tables.read(v)), count=COUNT, mirror=self.script.tables.table(v),
        )

    def since(self, v: int) -> list[Sql]:
        """What else is noted where a mirror and its changes have all that a snapshot sees: nothing, where writers note what comes then."""
        return []

    # ---- scripts

    def capture(self, sources: Mapping[int, Source]) -> list[Sql]:
        """The tables and functions, the triggers, and then the contents."""
        triggers = [each for v in sources for each in (self.renamed(v), self.fired(v, sources[v]), self.left(v))]
        return [*self.made(sources), self.parts_without_key(next(iter(sources))), *triggers, *self.filled(sources)]

    def uncapture(self) -> list[Sql]:
        """Triggers first, so that no writer meets a table that is gone; what was not made by --capture stays as it is."""
        base, tables = self.script.steps.base(), self.tables()
        gone = [sql("DROP TABLE IF EXISTS {table}", table=table) for table in tables]
        schema = name(self.dialect.schema)
        is_empty = sql(
            "NOT EXISTS (SELECT 1 FROM pg_depend AS d WHERE d.refclassid = {spaces}::regclass AND d.refobjid = to_regnamespace({said}))",
            said=self.written(schema), spaces=text("pg_namespace"),
        )
        functions = [each for v in base for each in self.functions_gone(v)]
        others = [sql("DROP FUNCTION IF EXISTS {function}", function=self.dialect.table(said)) for said in self.shared_function_names()]
        gone = [QUIETLY, *functions, *others, *gone, self.dialect.where(is_empty, sql("DROP SCHEMA {schema}", schema=schema))]
        judged = self.dialect.creation(self.if_captured([*self.no_strangers(), *self.no_others(), *self.no_readers()]))
        return [*judged, *self.parting.unwatched(), *self.let_all_go(base), *self.dialect.creation(self.if_captured(gone))]

    def let_all_go(self, base: Sequence[int]) -> list[Sql]:
        """The triggers of these views' tables go."""
        return [self.let_go(v) for v in base]

    def functions_gone(self, v: int) -> list[Sql]:
        """The functions that are a view's own go."""
        return [*(sql("DROP FUNCTION IF EXISTS {function}()", function=function) for function in self.functions_of(v)), *self.parting.gone(v)]

    def shared_function_names(self) -> list[str]:
        """The functions that are no view's own."""
        return [*self.fitted.names]

    def table_names(self) -> list[str]:
        """All tables that --capture makes."""
        of_history = [said for said, _ in self.script.history.listed_tables()]
        own = [self.script.tables.prefix + said for said in (CAPTURED, COLUMNS, PARTS, TORN, JUDGED, RESHAPED, LOG, FORMER, *of_history)]
        changes = [self.script.tables.said(v, "~changes") for v in self.script.steps.base()]
        return [*(self.script.tables.said(v) for v in range(len(self.script.views))), *changes, *own]

    def tables(self) -> list[Sql]:
        return list(map(self.dialect.table, self.table_names()))

    def no_readers(self, tables: Sequence[Sql] | None = None) -> list[Sql]:
        """A refusal where something else depends on a table that would go, or on its type, such as a view that reads it or a foreign key to it; what
        is a table's own, such as a trigger of it, goes with it."""
        listed = joined([sql("to_regclass({table})::oid", table=self.written(table)) for table in tables or self.tables()])
        return self.dialect.refuse_with(
            sql(
                "SELECT format({told}, pg_describe_object(d.classid, d.objid, 0), k.relation::regclass) FROM pg_depend AS d LEFT JOIN pg_type AS t"
                " ON d.refclassid = {types}::regclass AND d.refobjid IN (t.oid, t.typarray) CROSS JOIN LATERAL (SELECT CASE WHEN"
                " d.refclassid = {classes}::regclass THEN d.refobjid ELSE t.typrelid END AS relation) AS k WHERE k.relation IN ({tables})"
                " AND d.deptype = {normal} AND NOT EXISTS (SELECT 1 FROM pg_depend AS o WHERE o.classid = d.classid AND o.objid = d.objid"
                " AND o.refclassid = {classes}::regclass AND o.refobjid IN ({tables}) AND o.deptype IN ({own}, {part})) LIMIT 1",
                told=text(READ), types=text("pg_type"), classes=text("pg_class"), normal=text("n"), own=text("a"), part=text("i"), tables=listed,
            )
        )

    def if_captured(self, made: list[Sql]) -> list[Sql]:
        """Statements that are carried out where anything was captured."""
        return self.dialect.only_where(sql("to_regclass({state}) IS NOT NULL", state=self.written(self.state)), made)

    def no_others(self) -> list[Sql]:
        """A refusal where more is captured than the catalogue has: its triggers want the tables that would go."""
        views = joined([self.view(v) for v in self.script.steps.base()])
        return self.dialect.refuse_with(sql("SELECT format({told}, c.view) FROM {state} AS c WHERE c.view NOT IN ({views}) LIMIT 1",
                                            told=text(UNKNOWN), state=self.state, views=views))
