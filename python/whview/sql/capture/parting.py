"""Partitions of captured tables as they come and leave: an event trigger puts the triggers of the capture on those that come, and takes them off those
that leave; the rows that these bring or take are noted.

The event trigger's function is a superuser's, since only whoever owns a table may have triggers fired for all writers. So it reads nothing but the
server's catalogue, and evaluates nothing that a table has. Whatever reads rows and the tables of the nights is a function of whoever owns these."""

from __future__ import annotations

from collections.abc import Mapping
from typing import TYPE_CHECKING

from ..postgresql import PATH
from ..tokens import END_OF_STATEMENT, Sql, body, name, number, sql, statements, text, word
from .captured import BELOW, TRIGGERS
from .triggers import PARTING, WAITED, Unread

if TYPE_CHECKING:
    from .postgresql import Captures
    from .sources import Source

# What function notes a table's parts beside the function of its triggers; and the event trigger's own function.
SUFFIX, OF_CAPTURE = "~parting", "~capture"
# With what a failure begins that is to be noted.
TORN = "torn: "
UNNOTED = "a partition came or left, and whview could not note it, of which its next night tells: "
CHANGED = "partitions of %s came, left or were written anew while the night began: run it again"
TAGS = ("CREATE TABLE", "ALTER TABLE", "CREATE SCHEMA")
# Whether a row i of pg_inherits is of this transaction: one that is visible and not over. Numbers of transactions turn round.
DISTANCE = "((i.xmin::text::bigint - own + 6442450944) % 4294967296 - 2147483648)"
IS_NEW = f"CASE WHEN {DISTANCE} BETWEEN 0 AND 16777216 THEN pg_xact_status((own + {DISTANCE})::text::xid8) = {{going}} ELSE FALSE END"
# The tables below some, and whether they came there by this transaction.
NEW = (
    "(WITH RECURSIVE below (relation, is_new) AS ({roots} UNION SELECT i.inhrelid, b.is_new OR " + IS_NEW + " FROM below AS b JOIN pg_inherits AS i"
    " ON i.inhparent = b.relation) SELECT b.relation FROM below AS b JOIN pg_class AS k ON k.oid = b.relation WHERE b.is_new AND k.relkind IN ({ordinary}, {parted}))"
)
HAS = "EXISTS (SELECT 1 FROM pg_trigger AS t WHERE t.tgrelid = {relation} AND t.tgfoid = {made})"
# A command that is about a captured table, or about one that is a part of such a table.
CONCERNS = (
    "EXISTS (SELECT 1 FROM pg_event_trigger_ddl_commands() AS c WHERE c.classid = {classes}::regclass AND (EXISTS (SELECT 1 FROM pg_trigger AS t"
    " WHERE t.tgrelid = c.objid AND starts_with(t.tgname, {whview})) OR EXISTS (SELECT 1 FROM pg_inherits AS i JOIN pg_trigger AS t ON t.tgrelid = i.inhparent"
    " WHERE i.inhrelid = c.objid AND starts_with(t.tgname, {whview}))))"
)
# The functions of the triggers of tables in parts, of this schema.
MADE = (
    "SELECT p.oid FROM pg_proc AS p WHERE p.pronamespace = to_regnamespace({schema}) AND p.proname LIKE {like} AND EXISTS (SELECT 1 FROM pg_trigger AS t"
    " WHERE t.tgfoid = p.oid AND t.tgname = concat({whview}, p.oid, {way}))"
)
# A function is called only if it is carried out as whoever owns it, gives what needs no cast of anybody's, and while nobody can make it another one.
SAFE = (
    "SELECT p.oid FROM pg_proc AS p WHERE p.oid = to_regprocedure(concat({schema}, {dot}, quote_ident((SELECT concat(left(o.proname, {short}), {suffix})"
    " FROM pg_proc AS o WHERE o.oid = made)), {types})) AND p.prosecdef AND p.prorettype = {given}::regtype AND NOT p.proretset FOR SHARE"
)


def cut(said: str) -> str:
    """A template in which TRIGGERS tells of a noted part n."""
    return said.replace("{part}", "n.part")


class Parting:
    """The statements about partitions that come and leave, beside those of a script's captures."""

    captures: Captures

    def __init__(self, captures: Captures) -> None:
        self.captures, self.script, self.dialect = captures, captures.script, captures.dialect
        self.event = captures.script.tables.own(SUFFIX)

    def function(self, v: int) -> Sql:
        """The function that notes a table's parts."""
        return self.dialect.table(self.script.tables.said(v, SUFFIX))

    # ---- what notes the parts of a table

    def noting(self, v: int, source: Source) -> list[Sql]:
        """The function by which parts of a table are noted, which nobody else may call: it tells those that left, notes what came and what left with
        its rows, or marks the table as torn."""
        return self.made(v, source) if source.is_parted else self.gone(v)

    def made(self, v: int, source: Source) -> list[Sql]:
        """The statements that make it."""
        made = sql(
            "CREATE OR REPLACE FUNCTION {function}(act text) RETURNS oid[] LANGUAGE plpgsql SECURITY DEFINER SET search_path = " + PATH + " AS {program}",
            function=self.function(v), program=body(self.program(v, source)),
        )
        return [made, sql("REVOKE ALL ON FUNCTION {function}(text) FROM PUBLIC", function=self.function(v))]

    def gone(self, v: int) -> list[Sql]:
        """The function goes, without a word where there is none."""
        is_there = sql("to_regprocedure({said}) IS NOT NULL", said=self.captures.written(sql("{function}(text)", function=self.function(v))))
        return self.dialect.only_where(is_there, [sql("DROP FUNCTION {function}(text)", function=self.function(v))])

    def program(self, v: int, source: Source) -> Sql:
        """What it does, by the word that it is called with."""
        left = self.captures.query(
            v, "SELECT n.part FROM {noted} AS n WHERE n.view = {view} AND EXISTS (SELECT 1 FROM pg_class AS k WHERE k.oid = n.part) AND n.triggers <> {without}"
            " AND n.triggers = " + cut(TRIGGERS) + " AND NOT EXISTS (SELECT 1 FROM " + BELOW + " WHERE b.relation = n.part)", without=text("{}"),
        )
        forgotten = self.captures.query(v, "DELETE FROM {noted} AS n WHERE n.view = {view} AND n.part = part_of")
        return sql(
            "\n#variable_conflict use_column\nDECLARE part_of oid{end}\n  gone oid[]{end}\n  come oid[]{end}\n  own bigint := pg_current_xact_id()::text::bigint{end}\n"
            "BEGIN\n  IF starts_with(act, {torn}) THEN {tears}{end}\n  RETURN NULL{end}\n  ELSIF act = {dropped} THEN{compared}\n  RETURN NULL{end}\n  END IF{end}\n"
            "  gone := ARRAY({left}){end}\n  IF act = {tells} THEN RETURN gone{end} END IF{end}\n"
            "  FOREACH part_of IN ARRAY gone LOOP{leaves}\n  {forgotten}{end}\n  END LOOP{end}\n  come := ARRAY({new}){end}\n"
            "  FOREACH part_of IN ARRAY come LOOP{comes}\n  END LOOP{end}\n  {noted}{end}\n  RETURN gone{end}\nEND{end}",
            torn=text(TORN), tears=self.captures.torn(v, "parting", sql("substr(act, {behind})", behind=number(len(TORN) + 1))), dropped=text("dropped"),
            compared=statements(self.compared(v, source), 2), left=left, tells=text("left"), leaves=self.rows(v, source, -1), forgotten=forgotten, new=self.new(v),
            comes=self.rows(v, source, 1), noted=self.captures.parts_noted(v, sql("AND b.relation = ANY (come)")), end=END_OF_STATEMENT,
        )

    def new(self, v: int) -> Sql:
        """The parts that came by this transaction, have their triggers and are not noted."""
        roots = self.captures.query(v, "SELECT c.source::oid, FALSE FROM {state} AS c WHERE c.view = {view}")
        has = self.captures.query(v, HAS, relation=sql("b.relation"), made=sql("to_regprocedure({function})", function=self.captures.written(
            sql("{function}()", function=self.captures.function(v)))))
        below = self.captures.query(v, NEW, roots=roots, going=text("in progress"))
        return sql("SELECT b.relation FROM {below} AS b WHERE {unnoted} AND {has}", below=below, unnoted=self.captures.unnoted(v), has=has)

    def rows(self, v: int, source: Source, sign: int) -> Sql:
        """The rows that a part brings or takes. Nobody else writes to it now; one of an empty file has none."""
        read = self.captures.rows_read(v, source, word("part_of"), sign, Unread("moved", "apart", "called"))
        return sql(
            "\n    IF NOT EXISTS (SELECT 1 FROM pg_class AS k WHERE k.oid = part_of AND k.relkind = {ordinary}) OR pg_relation_size(part_of) = 0 THEN NULL{end}\n"
            "    ELSIF (SELECT count(*) FROM pg_attribute AS a WHERE a.attrelid = part_of AND a.attnum > 0 AND ({fits})) <> {many} THEN {strange}{end}\n"
            "    ELSIF {read}\n    END IF{end}", ordinary=self.captures.texts["ordinary"], fits=source.fits, many=number(len(source.own)),
            strange=self.captures.torn(v, "strange"), read=read, end=END_OF_STATEMENT,
        )

    # ---- parts that are dropped, of which nobody can read the rows any more

    def compared(self, v: int, source: Source) -> list[Sql]:
        """By a night's snapshot the changes become what differs, as a capture compares it: triggers stand on all other parts and have noted what is after
        that snapshot. What is read has to be the tables that this sees: neither written anew nor other ones since."""
        said, below = self.captures.written(source.said), self.captures.query(v, BELOW)
        other = sql(
            "EXISTS (SELECT 1 FROM {below} FULL JOIN pg_partition_tree({said}::regclass) AS t ON t.relid = b.relation WHERE t.relid IS NULL OR b.relation IS NULL)"
            " OR EXISTS (SELECT 1 FROM {below} JOIN pg_class AS k ON k.oid = b.relation WHERE k.relfilenode <> coalesce(pg_relation_filenode(k.oid), 0))",
            below=below, said=said)
        there = "EXISTS (SELECT 1 FROM pg_class AS k WHERE k.oid = {part})"
        return [
            self.dialect.where(self.renamed(v, source), sql("RETURN NULL")),
            sql("PERFORM set_config({key}, {waited}, TRUE)", key=text("lock_timeout"), waited=text(WAITED)),
            sql("LOCK TABLE {source} IN ACCESS SHARE MODE", source=source.said),
            self.dialect.where(other, self.dialect.raised(text(CHANGED % source.table))),
            self.dialect.where(self.unfit(v, source), sql("RETURN NULL")),
            sql("DELETE FROM {changes}", changes=self.script.tables.table(v, "~changes")),
            self.captures.difference(v, source),
            # The lock keeps tables from leaving and from being written anew, and not from coming.
            self.dialect.where(other, self.dialect.raised(text(CHANGED % source.table))),
            self.captures.query(v, "DELETE FROM {noted} AS n WHERE n.view = {view} AND NOT " + there, part=sql("n.part")),
        ]

    def renamed(self, v: int, source: Source) -> Sql:
        """Whether another table has the name by now of the one that is captured."""
        return self.captures.query(v, "to_regclass({said}) IS DISTINCT FROM (SELECT c.source FROM {state} AS c WHERE c.view = {view})",
                                   said=self.captures.written(source.said))

    def unfit(self, v: int, source: Source) -> Sql:
        """Whether a table's columns cannot be turned, or its rows cannot be read without that somebody's function is called."""
        return sql("(SELECT count(*) FROM pg_attribute AS a WHERE a.attrelid = {said}::regclass AND a.attnum > 0 AND ({fits})) <> {many}"
                   " OR EXISTS (SELECT 1 FROM {below} WHERE {calls})", said=self.captures.written(source.said), fits=source.fits, many=number(len(source.own)),
                   below=self.captures.query(v, BELOW), calls=self.captures.calls(sql("b.relation")))

    def mended(self) -> list[Sql]:
        """What a night does first where a part that was noted is there no more, or in the log where a part is otherwise than it was noted."""
        found = []
        for v in self.script.steps.base():
            function = self.captures.written(sql("{function}(text)", function=self.function(v)))
            wanted = self.captures.query(
                v, "to_regprocedure({called}) IS NOT NULL AND (CASE WHEN {from_log} THEN {differs} ELSE EXISTS (SELECT 1 FROM {noted} AS n WHERE n.view = {view} AND NOT EXISTS"
                " (SELECT 1 FROM pg_class AS k WHERE k.oid = n.part)) END)", called=function, from_log=self.captures.log.is_there(), differs=self.captures.differs(v),
            )
            found.append(self.dialect.where(wanted, sql("PERFORM {function}({dropped})", function=self.function(v), dropped=text("dropped"))))
        return found

    # ---- the event trigger

    def of_another(self, made: list[Sql]) -> list[Sql]:
        """A transaction as whoever runs the script."""
        begun, ended = (sql(said + "{end}", end=END_OF_STATEMENT) for said in ("BEGIN READ WRITE", "COMMIT"))
        return [begun, self.dialect.block_of_another(made), ended]

    def watched(self, sources: Mapping[int, Source]) -> list[Sql]:
        """A transaction of a superuser that has the event trigger there, where a table is in parts; nobody else may make one."""
        return self.of_another(self.watching()) if any(source.is_parted for source in sources.values()) else []

    def watching(self) -> list[Sql]:
        """The event trigger as a superuser makes it; who else captures is told that there is none."""
        own = sql("FROM pg_roles AS r WHERE r.rolname = current_user AND r.rolsuper")
        missing = sql("NOT EXISTS (SELECT 1 FROM pg_event_trigger AS e WHERE e.evtfoid = to_regprocedure({function}))", function=self.said())
        named = sql("quote_ident(left(concat({whview}, {schema}), 63))", whview=text("whview "), schema=text(self.dialect.schema))
        made = sql("EXECUTE concat({create}, {named}, {on}, {function})", create=text("CREATE EVENT TRIGGER "), named=named, function=self.said(),
                   on=text(f" ON ddl_command_end WHEN TAG IN ({', '.join(f'{chr(39)}{tag}{chr(39)}' for tag in TAGS)}) EXECUTE FUNCTION "))
        always = sql("EXECUTE concat({alter}, {named}, {always})", alter=text("ALTER EVENT TRIGGER "), named=named, always=text(" ENABLE ALWAYS"))
        told = text("no event trigger is made, since only a superuser may: where a partition comes or leaves, run whview sql capture")
        return [sql(
            "IF EXISTS (SELECT 1 {own}) THEN {made} ELSIF {missing} THEN RAISE WARNING USING MESSAGE = {told}{end} END IF", own=own, missing=missing, told=told,
            end=END_OF_STATEMENT, made=statements([*self.watcher(), sql("IF {missing} THEN {each} END IF", missing=missing, each=statements([made, always], 3))], 2),
        )]

    def said(self) -> Sql:
        """The event trigger's function, as a text."""
        return self.captures.written(sql("{event}()", event=self.event))

    def watcher_program(self) -> Sql:
        """What fails in the event trigger's function never fails the command that it was fired for."""
        return sql(
            "\n#variable_conflict use_column\nDECLARE made regprocedure{end}\n  part regclass{end}\n  keeper regprocedure{end}\n  gone oid[]{end}\n"
            "  own bigint{end}\nBEGIN\n  IF current_setting({busy}, TRUE) = {on} THEN RETURN{end} END IF{end}\n  BEGIN\n  IF NOT {concerns} THEN RETURN{end} END IF{end}\n"
            "  PERFORM set_config({busy}, {on}, TRUE){end}\n  own := pg_current_xact_id()::text::bigint{end}\n  FOR made IN {functions} LOOP{parts}\n  END LOOP{end}\n"
            "  PERFORM set_config({busy}, {none}, TRUE){end}\n  EXCEPTION WHEN query_canceled OR OTHERS THEN\n"
            "  RAISE WARNING USING MESSAGE = concat({told}, SQLERRM){end}\n  BEGIN\n    {keeper}{end}\n"
            "    IF keeper IS NOT NULL THEN {tears}{end} END IF{end}\n  EXCEPTION WHEN query_canceled OR OTHERS THEN NULL{end}\n  END{end}\n  END{end}\nEND{end}",
            busy=text(PARTING), on=text("on"), none=text(""), functions=self.functions(), parts=statements(self.of_function(), 2), end=END_OF_STATEMENT,
            concerns=sql(CONCERNS, classes=text("pg_class"), whview=text("whview ")), keeper=self.keeper(), told=text(UNNOTED),
            tears=self.called(sql("concat({torn}, left(SQLERRM, 200))", torn=text(TORN))),
        )

    def watcher(self) -> list[Sql]:
        """The event trigger's function. One that is no superuser's, whom whoever owns the schema may have made, goes before."""
        strange = sql("EXISTS (SELECT 1 FROM pg_proc AS p JOIN pg_roles AS r ON r.oid = p.proowner WHERE p.oid = to_regprocedure({event}) AND NOT r.rolsuper)", event=self.said())
        program = self.watcher_program()
        return [
            self.dialect.where(strange, sql("DROP FUNCTION {event}() CASCADE", event=self.event)),
            sql("CREATE OR REPLACE FUNCTION {event}() RETURNS event_trigger LANGUAGE plpgsql SECURITY DEFINER SET search_path = " + PATH + " AS {program}",
                event=self.event, program=body(program)),
            sql("REVOKE ALL ON FUNCTION {event}() FROM PUBLIC", event=self.event),
        ]

    def functions(self) -> Sql:
        """A query for the functions of the triggers of tables in parts."""
        return sql(MADE, schema=self.captures.written(name(self.dialect.schema)), like=text(f"%{OF_CAPTURE}"), whview=text("whview "), way=text(" way"))

    def keeper(self) -> Sql:
        """What notes the parts of a table, if it may be called."""
        schema = self.captures.written(name(self.dialect.schema))
        safe = sql(SAFE, schema=schema, dot=text("."), short=number(-len(OF_CAPTURE)), suffix=text(SUFFIX), types=text("(text)"),
                   given=text("oid[]"))
        return sql("keeper := ({safe})", safe=safe)

    def called(self, act: Sql) -> Sql:
        """It is called with a word for what it is to do. Whatever it set, names are looked up afterwards as they were before."""
        named = sql("(SELECT format({wanted}, p.pronamespace::regnamespace, p.proname) FROM pg_proc AS p WHERE p.oid = keeper)", wanted=text("SELECT %s.%I($1)"))
        path = sql("PERFORM pg_catalog.set_config({key}, {path}, TRUE)", key=text("search_path"), path=text(PATH))
        return sql("EXECUTE {named} INTO gone USING {act}{end} {path}", named=named, act=act, path=path, end=END_OF_STATEMENT)

    def of_function(self) -> list[Sql]:
        """What is done for the tables of one function of triggers: the parts that come get their triggers, and those that left lose them when their
        rows are noted. A table to which others write now is not waited for: the command itself has this lock, of which no other mode is given at once
        where others wait for theirs."""
        lock = sql("EXECUTE concat({lock}, part, {mode})", lock=text("LOCK TABLE ONLY "), mode=text(" IN ACCESS EXCLUSIVE MODE NOWAIT"))
        left = sql("SELECT DISTINCT t.tgrelid FROM pg_trigger AS t WHERE t.tgfoid = made AND t.tgrelid = ANY (gone)")
        dropped = sql("EXECUTE (SELECT string_agg(concat({drop}, quote_ident(t.tgname), {on}, part), {next}) FROM pg_trigger AS t WHERE t.tgrelid = part"
                      " AND t.tgfoid = made)", drop=text("DROP TRIGGER "), on=text(" ON "), next=text("; "))
        return [
            self.keeper(),
            sql("CONTINUE WHEN keeper IS NULL"),
            self.each(self.come(), [lock, *self.put(), self.granted()]),
            self.called(text("left")),
            self.each(left, [lock]),
            self.called(text("note")),
            self.each(left, [dropped]),
        ]

    def each(self, query: Sql, made: list[Sql]) -> Sql:
        """Statements for each part that a query gives."""
        return sql("FOR part IN {query} LOOP{made}\n  END LOOP", query=query, made=statements(made, 3))

    def come(self) -> Sql:
        """The parts that came by this transaction below a table with triggers, and have none."""
        roots = sql("SELECT t.tgrelid, FALSE FROM pg_trigger AS t WHERE t.tgfoid = made")
        below = sql(NEW, roots=roots, going=text("in progress"), **self.captures.texts)
        return sql("SELECT b.relation FROM {below} AS b WHERE NOT {has}", below=below, has=sql(HAS, relation=sql("b.relation"), made=word("made")))

    def put(self) -> list[Sql]:
        """The statements that put the triggers on a part."""
        events = self.captures.events_of(True)
        is_ordinary = sql("EXISTS (SELECT 1 FROM pg_class AS c WHERE c.oid = part AND c.relkind = {ordinary})", ordinary=self.captures.texts["ordinary"])
        own, all_have = ([each for event in events if event.is_ordinary == kind for each in self.captures.put(event)] for kind in (True, False))
        return [*all_have, *self.dialect.only_where(is_ordinary, own)]

    def granted(self) -> Sql:
        """Whoever owns the nights' tables may read a part, too."""
        owner = sql("FROM pg_proc AS p JOIN pg_roles AS r ON r.oid = p.proowner WHERE p.oid = keeper AND NOT r.rolsuper")
        granted = sql("EXECUTE (SELECT format({grant}, part, r.rolname) {owner})", grant=text("GRANT SELECT ON TABLE %s TO %I"), owner=owner)
        return self.dialect.where(sql("EXISTS (SELECT 1 {owner})", owner=owner), granted)

    def unwatched(self) -> list[Sql]:
        """The event trigger and its function go."""
        drop = sql("SELECT format({drop}, e.evtname) FROM pg_event_trigger AS e WHERE e.evtfoid = to_regprocedure({function})", function=self.said(),
                   drop=text("DROP EVENT TRIGGER %I"))
        is_there = sql("to_regprocedure({function}) IS NOT NULL", function=self.said())
        gone = [self.dialect.owner.each(drop), sql("DROP FUNCTION {event}()", event=self.event)]
        return self.of_another(self.dialect.only_where(is_there, gone))
