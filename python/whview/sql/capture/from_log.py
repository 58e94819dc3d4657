"""PostgreSQL as tables are captured there from its log: a slot of logical replication keeps what is written, and nothing is put on the tables."""

from __future__ import annotations

from collections.abc import Mapping, Sequence
from typing import TYPE_CHECKING

from ..postgresql import PATH
from ..tokens import END_OF_STATEMENT, Sql, Unfit, body, joined, name, number, sql, text
from .captured import BELOW
from .log_functions import LogFunctions, Placed
from .log_parting import LogParting
from .log_standing import IDENTIFIED, STAMP
from .owner import BELOW_SOURCE
from .parting import SUFFIX
from .postgresql import Captures, NewTable
from .standing import UNFIT, Hole
from .triggers import PAUSE, TRIES

if TYPE_CHECKING:
    from .database import PostgreSQLAsked
    from .merge import MergeScript
    from .sources import Source

JUDGED = (
    ("current_setting({level}) <> {logical}", "the server keeps no log that changes can be read of: set wal_level = logical, and start it anew"),
    ("NOT EXISTS (SELECT 1 FROM pg_roles AS r WHERE r.rolname = session_user AND r.rolsuper)", "only a superuser makes a replication slot for others"),
    ("NOT EXISTS (SELECT 1 FROM pg_replication_slots AS s WHERE s.slot_name = {slot}) AND (SELECT count(*) FROM pg_replication_slots) >="
     " current_setting({most})::int8", "no replication slot is free: raise max_replication_slots, and start the server anew"),
    ("EXISTS (SELECT 1 FROM pg_replication_slots AS s WHERE s.slot_name = {slot} AND (s.database <> current_database() OR s.plugin <> {plugin} OR s.database IS NULL))",
     "the replication slot that would be made is there already, and is none of this schema's"),
)
LOADED = "the library test_decoding is missing, which PostgreSQL has among its contributed ones: install these"
ROLE = "the role %s is there already, and may log in, or has members or more rights: it would own the functions that read the log"
BUSY = "somebody has been writing to the tables for more than a minute without an end, and was waited for: run the script again"
UNLIMITED = (
    "max_slot_wal_keep_size is -1: while no night runs, the server keeps all of its log until its disk is full; set it to what there is room for, and a slot that"
    " falls behind further is invalidated, of which the next night tells"
)
FOREIGN = Hole("JOIN pg_class AS k ON k.oid = b.relation WHERE k.relkind = {foreign}", "%s is a foreign table, whose changes are not in the log")
# An UPDATE of a table whose rows are told whole fails where a publication of it leaves columns out.
LISTED = (
    "%s is published with a list of its columns, beside which its rows cannot be logged whole: publish all of them, or have its primary key captured as its key"
)
# All tables that were made so that their rows are told whole, and those below such a table that came later, of which nothing was noted; these first.
MADE_WHOLE = (
    "(SELECT u.relation, bool_or(u.is_known) AS is_known FROM (WITH RECURSIVE below (relation, is_known) AS (SELECT o.relation, TRUE FROM {former} AS o UNION SELECT"
    " i.inhrelid, FALSE FROM below AS b JOIN pg_inherits AS i ON i.inhparent = b.relation) SELECT b.relation, b.is_known FROM below AS b) AS u GROUP BY u.relation) AS b"
)
# Types whose values are not read again from the log: somebody's own and enumerations, of which a cast says the name, that another type may have tomorrow; and those
# that are written with a letter before quotes.
UNTOLD = ("", "enum", "bit", "varbit")
# What says how rows of a part b of a source are told that change or leave.
KEYED, WHOLE = "key", "whole"
END = END_OF_STATEMENT


def unlimited(database: PostgreSQLAsked) -> str | None:
    """What is told of a server whose slots keep the log without an end."""
    ((limit,),) = database.rows(sql("SELECT to_json(ARRAY[current_setting({key})])", key=text("max_slot_wal_keep_size")))[0]
    return UNLIMITED if limit == "-1" else None


def tables_read(database: PostgreSQLAsked, script: MergeScript, schema: str, others: Sequence[str]) -> list[Placed]:
    """The tables whose changes are read: those of a catalogue, and of other views that stay captured."""
    own = [Placed(schema, script.views[v].name) for v in script.steps.base()]
    query = sql("SELECT json_build_array(n.nspname, k.relname) FROM {state} AS c JOIN pg_class AS k ON k.oid = c.source JOIN pg_namespace AS n ON n.oid = k.relnamespace"
                " WHERE c.view IN ({listed})", state=script.captures.state, listed=joined(list(map(text, others))) or text(""))
    return own + ([Placed(*each) for each in database.rows(query)[0]] if others else [])


def judge_told(view: str, source: Source) -> None:
    """Refuses to compute with columns of which the log does not tell values that are read again by the server's own functions alone."""
    for column in source.read:
        if column.told.type in UNTOLD:
            shown = f"whose type is {column.told.shown}, which is not read from the log"
            raise Unfit(f"{view}: what is kept is computed from the column {column.name}, {shown}: capture by triggers, in a schema of its own by --schema")


def identified(database: PostgreSQLAsked, script: MergeScript, sources: Mapping[int, Source]) -> dict[int, Source]:
    """The sources, each with whether the log tells its rows by the key of its mirror, whatever changes or leaves."""
    found = {}
    for v, source in sources.items():
        if source.read:
            # What was too long for its row, and stayed as it was, is told by a row that is told whole alone.
            judge_told(script.views[v].name, source)
            found[v] = source
            continue
        captures = script.captures
        below = sql(BELOW_SOURCE, source=captures.written(source.said))
        key = sql("ARRAY[{names}]::name[]", names=joined(list(map(text, source.key))))
        query = sql("SELECT to_json(bool_and({test})) FROM {below} JOIN pg_class AS k ON k.oid = b.relation WHERE k.relkind = {ordinary}", below=below,
                    test=sql(IDENTIFIED, key=key, **captures.letters_of_identity()), ordinary=text("r"))
        found[v] = source._replace(is_identified=bool(source.key and database.rows(query)[0][0]))
    return found


class FromLog(Captures):
    """The statements that capture tables from the log, that look whether they are still captured, and that let them go."""

    def __init__(self, script: MergeScript) -> None:
        super().__init__(script)
        self.functions, self.parting = LogFunctions(self), LogParting(self)
        self.read_tables: list[Placed] = []

    def log_role(self) -> str | None:
        """Who owns the functions that read the log: a role that may use slots and nothing else, where nights have one of their own."""
        return f"{self.dialect.owner.role}_log" if self.dialect.owner.role else None

    # ---- what is judged, and made before

    def function_names(self) -> list[str]:
        """The functions that are the nights' own."""
        own = [self.script.tables.prefix + said for said in ("~cells", "~take")]
        return [*own, *(self.script.tables.said(v, suffix) for v in self.script.steps.base() for suffix in ("~logged", SUFFIX)), *self.fitted.names]

    def shared_function_names(self) -> list[str]:
        """The functions that are no view's own."""
        return [*super().shared_function_names(), *(self.script.tables.prefix + said for said in ("~cells", "~take", "~read", "~move"))]

    def made_before(self) -> list[Sql]:
        """Whether the server can be read so, and the functions of whoever may read the log."""
        parts = {"level": text("wal_level"), "logical": text("logical"), "most": text("max_replication_slots"), "slot": self.log.slot(), "plugin": text("test_decoding")}
        judged = [self.dialect.where(sql(test, **parts), self.dialect.raised(text(told))) for test, told in JUDGED]
        loaded = sql("BEGIN LOAD {plugin}{end} EXCEPTION WHEN undefined_file THEN {told}{end} END", plugin=text("test_decoding"), told=self.dialect.raised(text(LOADED)), end=END)
        schema = name(self.dialect.schema)
        is_missing = sql("to_regnamespace({schema}) IS NULL", schema=self.written(schema))
        made = [self.dialect.where(is_missing, sql("CREATE SCHEMA {schema}", schema=schema)), *self.functions.definers(self.read_tables, self.dialect.owner.role)]
        return [*judged, loaded, *made, *self.given_to_role(), *self.may_call()]

    def given_to_role(self) -> list[Sql]:
        """The role that owns what reads the log."""
        own = self.log_role()
        if own is None:
            return []
        role, said = name(own), text(own)
        known = sql("EXISTS (SELECT 1 FROM pg_roles AS r WHERE r.rolname = {said})", said=said)
        strange = sql(
            "SELECT format({told}, r.rolname) FROM pg_roles AS r WHERE r.rolname = {said} AND (r.rolsuper OR r.rolcanlogin OR r.rolcreaterole OR r.rolcreatedb"
            " OR r.rolbypassrls OR NOT r.rolreplication OR EXISTS (SELECT 1 FROM pg_auth_members AS m WHERE r.oid IN (m.roleid, m.member)))", told=text(ROLE),
            said=said,
        )
        create = sql("CREATE ROLE {role} NOLOGIN NOSUPERUSER NOCREATEDB NOCREATEROLE REPLICATION NOBYPASSRLS", role=role)
        owned = [sql("ALTER FUNCTION {function} OWNER TO {role}", function=self.log.function(said), role=role) for said in ("read", "move")]
        return [self.dialect.where(sql("NOT {known}", known=known), create), *self.dialect.refuse_with(strange), *owned]

    def may_call(self) -> list[Sql]:
        """Whoever owns the schema reads and moves the slot by these functions alone."""
        role = self.dialect.owner.role
        if not role:
            return []
        return [sql("GRANT EXECUTE ON FUNCTION {function} TO {role}", function=self.log.function(said), role=name(role)) for said in ("read", "move")]

    def tables_made(self, sources: Mapping[int, Source]) -> list[Sql]:
        """The same, and the tables of what was read of the log and how rows were told before."""
        kept = sql("view text PRIMARY KEY, made text NOT NULL, way text NOT NULL, server bigint NOT NULL, taken pg_lsn NOT NULL, since text")
        former = sql("relation oid PRIMARY KEY, was text NOT NULL")
        return [*super().tables_made(sources), *self.table_made(NewTable(self.log.table, kept)), *self.table_made(NewTable(self.log.former, former)), *self.functions.own()]

    def functions_of(self, v: int) -> list[Sql]:
        """The functions that are a view's own."""
        return [*super().functions_of(v), self.log_function(v)]

    def log_function(self, v: int) -> Sql:
        """The function that makes changes of what the log says of a view's table."""
        return self.dialect.table(self.script.tables.said(v, "~logged"))

    def captured_by(self, v: int, source: Source) -> list[Sql]:
        """The function that makes changes of the log, and that no night has been filled beside it yet."""
        is_keyed = source.is_identified
        noted = self.query(
            v, "INSERT INTO {log} AS o VALUES ({view}, {made}, {way}, {server}, {first}, NULL) ON CONFLICT (view) DO UPDATE SET since = NULL, way = excluded.way,"
            " made = excluded.made, server = excluded.server, taken = CASE WHEN o.server = excluded.server THEN o.taken ELSE excluded.taken END",
            log=self.log.table, made=self.written(self.log_function(v)), way=text(KEYED if is_keyed else WHOLE), server=self.log.server(), first=text("0/0"),
        )
        listed = self.query(v, "SELECT format({told}, b.relation::regclass) FROM " + BELOW + " JOIN pg_publication_rel AS r ON r.prrelid = b.relation AND r.prattrs IS NOT NULL"
                               " LIMIT 1", told=text(LISTED))
        judged = [] if is_keyed else [*self.dialect.refuse_with(listed), self.whole_before(v)]
        return [*judged, *self.functions.rows.function(v, source, is_keyed), *self.parting.noting(v, source), noted]

    def whole_before(self, v: int) -> Sql:
        """Parts whose rows are told whole already stay so when they are let go. What comes below a table that was made so, is made so by the event trigger."""
        return self.query(
            v, "INSERT INTO {former} SELECT b.relation, {full} FROM " + BELOW + " JOIN pg_class AS k ON k.oid = b.relation WHERE k.relreplident = {whole} AND NOT EXISTS"
            " (SELECT 1 FROM pg_inherits AS i JOIN {former} AS o ON o.relation = i.inhparent WHERE i.inhrelid = b.relation) ON CONFLICT DO NOTHING",
            former=self.log.former, full=text("FULL"), whole=text("f"),
        )

    # In the place of triggers is noted what tells whether a part has had another name.
    stamp = STAMP
    unfit_parts = (UNFIT[0], FOREIGN)

    # ---- scripts

    def capture(self, sources: Mapping[int, Source]) -> list[Sql]:
        """The tables and functions, the slot, what rows are told whole, and then the contents by a snapshot that knows of all that the log does not tell."""
        let_go = [self.let_go(v) for v in sources]
        whole = [self.identified(v) for v, source in sources.items() if not source.is_identified]
        return [*self.made(sources), self.slot_made(), *whole, *let_go, *self.triggers_gone(sources), self.settled(sources), *self.filled(sources), self.log.moved()]

    def triggers_gone(self, sources: Mapping[int, Source]) -> list[Sql]:
        """The functions of triggers go, by which tables may have been captured before."""
        functions = [sql("DROP FUNCTION IF EXISTS {function}()", function=self.function(v)) for v in sources]
        return self.dialect.creation([sql("SET LOCAL client_min_messages = warning"), *functions])

    def let_all_go(self, base: Sequence[int]) -> list[Sql]:
        """The slot goes first, since it keeps the log, and tables are told again as they were."""
        gone = self.dialect.block_of_another([sql("PERFORM pg_drop_replication_slot(s.slot_name) {slots}", slots=self.log.slots())])
        return [gone, *super().let_all_go(base), self.told_as_before(base[0])]

    def told_as_before(self, v: int) -> Sql:
        """Those that came below a table that was made so are told by their key again, as they would have been."""
        below = sql(MADE_WHOLE, former=self.log.former)
        relations = sql("SELECT b.relation::regclass FROM {below} JOIN pg_class AS k ON k.oid = b.relation ORDER BY b.is_known", below=below)
        is_whole = sql("EXISTS (SELECT 1 FROM pg_class AS k WHERE k.oid = part AND k.relreplident = {whole}) AND coalesce({was} <> {full}, TRUE)", whole=text("f"),
                       was=self.was(), full=text("FULL"))
        changed = sql("EXECUTE concat({alter}, part, {identity}, coalesce({was}, {default}))", alter=text("ALTER TABLE ONLY "), identity=text(" REPLICA IDENTITY "),
                      was=self.was(), default=text("DEFAULT"))
        return self.one_by_one(v, relations, is_whole, "ACCESS EXCLUSIVE", [changed], [])

    def was(self) -> Sql:
        """How the rows of a part were told before."""
        return sql("(SELECT o.was FROM {former} AS o WHERE o.relation = part::oid)", former=self.log.former)

    def slot_made(self) -> Sql:
        """The slot, in a transaction that has written nothing; one that was invalidated goes. It waits for transactions that have begun."""
        gone = sql("PERFORM pg_drop_replication_slot(s.slot_name) {slots}", slots=self.log.slots(sql("s.wal_status = {lost}", lost=text("lost"))))
        made = sql("PERFORM pg_create_logical_replication_slot({slot}, {plugin})", slot=self.log.slot(), plugin=text("test_decoding"))
        missing = sql("NOT EXISTS (SELECT 1 {slots})", slots=self.log.slots())
        return self.dialect.block_of_another([gone, self.dialect.where(missing, made)])

    def identified(self, v: int) -> Sql:
        """Parts without a key that the log could tell get their rows told whole, at a moment when nobody is using them."""
        relations = self.query(v, "SELECT b.relation::regclass FROM " + BELOW)
        wanted = sql("EXISTS (SELECT 1 FROM pg_class AS k WHERE k.oid = part AND k.relkind IN ({ordinary}, {parted}) AND k.relreplident <> {whole})",
                     ordinary=self.texts["ordinary"], parted=self.texts["parted"], whole=text("f"))
        was = sql(
            "(SELECT CASE k.relreplident WHEN {nothing} THEN {of_nothing} WHEN {index} THEN (SELECT concat({using}, quote_ident(x.relname)) FROM pg_index AS i JOIN"
            " pg_class AS x ON x.oid = i.indexrelid WHERE i.indrelid = k.oid AND i.indisreplident) ELSE {default} END FROM pg_class AS k WHERE k.oid = part)",
            nothing=text("n"), of_nothing=text("NOTHING"), index=text("i"), using=text("USING INDEX "), default=text("DEFAULT"),
        )
        put = "INSERT INTO {former} VALUES (part, coalesce({was}, {default})) ON CONFLICT (relation) DO UPDATE SET was = excluded.was"
        noted = sql(put, former=self.log.former, was=was, default=text("DEFAULT"))
        changed = sql("EXECUTE concat({alter}, part, {full})", alter=text("ALTER TABLE ONLY "), full=text(" REPLICA IDENTITY FULL"))
        return self.one_by_one(v, relations, wanted, "ACCESS EXCLUSIVE", [noted, changed], [])

    def settled(self, sources: Mapping[int, Source]) -> Sql:
        """From which place of the log on nothing is known yet; then all are waited for that were writing at that moment, so that the snapshot which follows
        sees whatever was committed before it. Nobody waits for this."""
        views = joined([self.view(v) for v in sources])
        place = sql("UPDATE {log} AS o SET taken = greatest(o.taken, pg_current_wal_insert_lsn()) WHERE o.view IN ({views})", log=self.log.table, views=views)
        writing = sql(
            "ARRAY(SELECT l.virtualtransaction FROM pg_locks AS l JOIN {parts} AS p ON p.part = l.relation WHERE l.locktype = {relation} AND l.granted AND l.mode IN ({modes})"
            " AND l.database = (SELECT b.oid FROM pg_database AS b WHERE b.datname = current_database()) AND p.view IN ({views}) AND l.pid IS DISTINCT FROM"
            " pg_backend_pid())", parts=self.parts, relation=text("relation"), modes=joined([text("RowExclusiveLock"), text("AccessExclusiveLock")]), views=views,
        )
        program = sql(
            "\nDECLARE writing pg_catalog.text[]{end}\ntries pg_catalog.int4{end}\nBEGIN\nSET LOCAL search_path = " + PATH + "{end}\n{place}{end}\nCOMMIT{end}\n"
            "SET LOCAL search_path = " + PATH + "{end}\nwriting := {found}{end}\ntries := 0{end}\n"
            "WHILE EXISTS (SELECT 1 FROM pg_locks AS l WHERE l.virtualtransaction = ANY (writing)) LOOP\ntries := tries + 1{end}\n{busy}{end}\n"
            "PERFORM pg_sleep({pause} / 1000.0){end}\nEND LOOP{end}\nEND{end}", place=place, found=writing, pause=number(PAUSE), end=END,
            busy=self.dialect.where(sql("tries > {most}", most=number(TRIES)), self.dialect.raised(text(BUSY))),
        )
        return sql("DO {program}{end}", program=body(program), end=END)

    def filled_one(self, v: int, source: Source) -> list[Sql]:
        """The contents of a mirror, and what its snapshot saw of the log."""
        return [*super().filled_one(v, source), *self.since(v)]

    def since(self, v: int) -> list[Sql]:
        """What this snapshot sees is in the mirror, or in its changes."""
        return [self.query(v, "UPDATE {log} SET since = pg_current_snapshot()::text WHERE view = {view}", log=self.log.table)]
