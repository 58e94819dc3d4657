"""The triggers by which PostgreSQL tells what applications write: what they do, and how they are put on tables beside writers.

No statement of an application fails by them. Where one cannot note what it was fired for, the table is marked as torn: the next night is refused
and says why, and --capture compares the table with its mirror."""

from __future__ import annotations

from collections.abc import Callable, Mapping, Sequence
from typing import TYPE_CHECKING, Literal, NamedTuple, TypeAlias

from ..dialect import COUNT
from ..postgresql import PATH
from ..tokens import END_OF_STATEMENT, Sql, body, joined, name, number, sql, statements, text, word
from .captured import BELOW, CapturedTables
from .turned import again

if TYPE_CHECKING:
    from .sources import Source

# Says within a session that the event trigger for parts has nothing to do, since a capture or itself is at work; what it leaves so the next night tells.
PARTING = "whview.parting"
# How often a table is tried that somebody is writing to, and how many milliseconds it is left alone in between: a minute in all.
TRIES, PAUSE = 1200, 50
# How long a lock is waited for that others' changes of a table hold.
WAITED = "60s"
FIRED = "(SELECT count(*) FROM pg_trigger AS t WHERE t.tgrelid = {relation} AND t.tgfoid = {function}::regprocedure AND t.tgenabled IN ({always}, {replica}))"
# What a function of triggers finds out first: whether its table is captured at all, whether its columns can still be turned, and whether others
# inherit from it. A function may be called by a trigger that somebody else has made, on a table of his own.
JUDGED = (
    "SELECT CASE WHEN NOT EXISTS (SELECT 1 FROM {noted} AS n WHERE n.view = {view} AND n.part = TG_RELID) AND NOT EXISTS (SELECT 1 FROM "
    + BELOW + " WHERE b.relation = TG_RELID) THEN {strange} WHEN (SELECT count(*) FROM pg_attribute AS a WHERE a.attrelid = TG_RELID AND a.attnum > 0"
    " AND ({fits})) <> {many} OR (SELECT count(*) FROM {state} AS c JOIN pg_attribute AS a ON a.attrelid = c.source AND ({placed}) WHERE c.view = {view}) <> {many}"
    " THEN {unlike} WHEN EXISTS (SELECT 1 FROM pg_inherits AS i WHERE i.inhparent = TG_RELID) THEN {parent} END"
)


class Transition(NamedTuple):
    """A table that a trigger has of the rows of a statement, and how often each of them counts."""

    said: str
    sign: int


# How rows are turned that a statement has in these tables.
Turning: TypeAlias = Callable[[Sequence[Transition]], Sql]
GONE, COME = Transition("gone", -1), Transition("come", 1)
# The rows of each kind of statement.
ROWS = {"UPDATE": (GONE, COME), "INSERT": (COME,), "DELETE": (GONE,)}
# A command that is known not to be a MERGE: by the statement that fired the trigger, where a client sent it or a function carried it out. A statement
# that was prepared may be any.
MERGING = (
    "(CASE WHEN finding = {none} THEN coalesce(strpos(lower(current_query()), {merge}) > 0 OR strpos(lower(current_query()), {execute}) > 0, TRUE)"
    " WHEN starts_with(finding, {statement}) THEN strpos(lower(finding), {merge}) > 0 OR strpos(lower(finding), {execute}) > 0"
    " ELSE TRUE END)"
)
# A command that may be a MERGE, within a function that another command calls while it writes: the rows which that one wrote before would be noted by nobody.
# What a function carries out stands in what led there, and what the client sent is the outermost.
WITHIN = (
    "finding <> {none} AND pg_trigger_depth() = 1 AND NOT coalesce({by_rows}, FALSE) AND ((SELECT count(*) FROM regexp_matches(finding, {statement}, {all})) > 1"
    " OR strpos(finding, {function}) > 0 OR regexp_like(coalesce(current_query(), {none}), {client}, {any_case}))"
)
VERBS = "insert|update|delete|merge|with|copy|execute|explain"
WRITING = {"statement": rf'SQL statement "\s*({VERBS})', "function": "\nSQL function ", "client": rf"^(\s|--[^\n]*\n|/\*([^*]|\*[^/])*\*/)*({VERBS})\M"}
BY_ROWS = "current_setting(concat({way}, pg_trigger_depth() - {depth}), TRUE) = {rows}"
# Whether a table cannot be read without that functions are called of somebody whom its reader has no reason to trust, who is neither a superuser nor a member
# of the reader's role: PostgreSQL works out what is constant in the conditions of indexes and checks of a table whenever it plans a query of it.
CALLS = (
    "EXISTS (SELECT 1 FROM (SELECT o.classid, o.objid FROM pg_depend AS o"
    " WHERE o.refclassid = {classes}::regclass AND o.refobjid = {relation} AND o.classid IN ({classes}::regclass, {constraints}::regclass, {statistics}::regclass)"
    " UNION ALL SELECT {classes}::regclass, {relation}) AS o JOIN pg_depend AS f ON f.classid = o.classid AND f.objid = o.objid LEFT JOIN pg_operator AS x"
    " ON f.refclassid = {operators}::regclass AND x.oid = f.refobjid JOIN pg_proc AS p ON p.oid = CASE f.refclassid WHEN {functions}::regclass THEN f.refobjid"
    " ELSE x.oprcode::oid END JOIN pg_roles AS r ON r.oid = p.proowner WHERE NOT r.rolsuper AND NOT pg_has_role(r.oid, current_user, {member}))"
)
Why: TypeAlias = Literal[
    "calls", "unlike", "early", "isolation", "hidden", "applied", "parting", "moved", "apart", "called", "strange", "within"
]
WHY: Mapping[Why, str] = {
    "calls": "it was truncated, and its indexes or checks call a function that is no superuser's, nor a member's of the role that reads it",
    "unlike": "rows were written while its columns were not as they were captured",
    "early": "rows were written by a transaction that had begun before it was captured",
    "isolation": "it was truncated at another isolation than READ COMMITTED, which does not see all rows that go",
    "hidden": "it was truncated, and its rows are hidden from whoever owns the function of its triggers",
    "applied": "rows were written by logical replication, for which no statement is captured",
    "parting": "a partition came or left, and that could not be noted",
    "moved": "rows came or left with a partition at another isolation than READ COMMITTED, which does not see all of them",
    "apart": "rows came or left with a partition, and are hidden from whoever owns the function of its triggers",
    "called": "rows came or left with a partition whose indexes or checks call a function that is no superuser's, nor a member's of the role that reads it",
    "strange": "rows came or left with a partition whose columns are not as they were captured",
    "within": "a command wrote rows that called a function which may have a MERGE of the same table",
}
BUSY = "somebody is writing to %s all the time, and its triggers wait for a moment without: run the script again"


class Event(NamedTuple):
    """A trigger: the end of its name, when it is fired, for what of it, what its function is told, whether only tables with rows of their own have
    it, and by whose writing it is fired."""

    said: str
    when: str
    each: Sql
    argument: str = ""
    is_ordinary: bool = False
    mode: str = "ALWAYS"


class Unread(NamedTuple):
    """Why rows that come or leave at once are not read, by the words of WHY."""

    isolation: Why
    hidden: Why
    calls: Why


def for_each_statement(tables: str = "") -> Sql:
    """That a trigger is fired once for a statement, with these tables of its rows."""
    return sql(f"{tables} FOR EACH STATEMENT")


class Triggers(CapturedTables):
    """The statements about the triggers of a script's captures."""

    def events_of(self, is_parted: bool) -> list[Event]:
        """The triggers of a source's tables. A row that a MERGE moves from one partition to another is in none of the tables of a statement's
        rows, so that where a command may be one, rows are noted one by one."""
        found = [
            Event("insert", "AFTER INSERT ON ", for_each_statement("REFERENCING NEW TABLE AS come")),
            Event("update", "AFTER UPDATE ON ", for_each_statement("REFERENCING OLD TABLE AS gone NEW TABLE AS come")),
            Event("delete", "AFTER DELETE ON ", for_each_statement("REFERENCING OLD TABLE AS gone")),
            Event("truncate", "BEFORE TRUNCATE ON ", for_each_statement(), is_ordinary=True),
            Event("applied", "AFTER INSERT OR UPDATE OR DELETE ON ", sql("FOR EACH ROW"), "applied", True, "REPLICA"),
        ]
        if is_parted:
            each = sql("FOR EACH ROW WHEN ({test})", test=self.by_rows(0))
            found.append(Event("way", "BEFORE UPDATE ON ", for_each_statement(), "way"))
            found.append(Event("rows", "AFTER INSERT OR UPDATE OR DELETE ON ", each, "rows", True))
        return found

    def by_rows(self, depth: int) -> Sql:
        """Whether the rows of a command are noted one by one, as a trigger's function sees it or the command itself."""
        return sql(BY_ROWS, way=text("whview.way"), rows=text("rows"), depth=number(depth))

    # ---- what a trigger does

    def captured_by(self, v: int, source: Source) -> list[Sql]:
        """The function of a table's triggers, which nobody else may call. Where a transaction is one snapshot, this may be from before what is now: then
        each cell is turned only if it is of its type, and what fails marks the table as torn."""
        sure = source._replace(columns=[column._replace(said=column.of_postgresql.sure) for column in source.columns])
        program = sql(
            "\n#variable_conflict use_column\nDECLARE finding pg_catalog.text{end}\nBEGIN\n  {as_ever}finding := ({judged}){end}\n  {first}{end}\n"
            "  IF finding = {unlike} THEN {torn}{end}\n  ELSIF {current} THEN{noted}\n  ELSE\n  BEGIN{surely}\n  EXCEPTION WHEN OTHERS THEN {torn}{end}\n"
            "  END{end}\n  END IF{end}\n  RETURN NULL{end}\nEND{end}",
            as_ever=self.as_ever(v, source), judged=self.judged_by(v, source), first=self.part_unnoted(v), unlike=text("unlike"),
            torn=self.torn(v, "unlike"), current=self.is_current(), noted=self.noting(v, source), surely=self.noting(v, sure), end=END_OF_STATEMENT,
        )
        made = sql("CREATE OR REPLACE FUNCTION {function}() RETURNS trigger LANGUAGE plpgsql SECURITY DEFINER SET search_path = " + PATH + " AS {program}",
                   function=self.function(v), program=body(program))
        return [made, sql("REVOKE ALL ON FUNCTION {function}() FROM PUBLIC", function=self.function(v)), *self.parting.noting(v, source)]

    def as_ever(self, v: int, source: Source) -> Sql:
        """What nearly all statements need: where the table is the one that was captured, its columns are as they were, and nobody inherits from it, rows
        are noted at once. A table in parts, and a domain, which may allow NULL by now, want a closer look."""
        if source.is_parted or any(told.is_domain for told in source.told):
            return sql("")
        return sql(
            "IF TG_RELID = {number} AND TG_NARGS = 0 AND {fits} AND {alone} THEN\n  {noted}\n  END IF{end}\n  END IF{end}\n  ", number=number(source.number),
            fits=self.fitted.fits(source), alone=self.fitted.is_alone(source), noted=self.noted_at_once(v, source), end=END_OF_STATEMENT,
        )

    def noted_at_once(self, v: int, source: Source) -> Sql:
        """What is noted so, with as few expressions as can be: PostgreSQL gets each ready in each transaction anew, also NULL. What such a trigger returns
        is nothing to anybody."""
        first, *others = self.by_statement(v, self.at_once(source), sql("RETURN OLD{end}", end=END_OF_STATEMENT))
        return sql("IF {first} {others}", first=first, others=joined([sql("\n  ELSIF {other}", other=other) for other in others], None))

    def by_statement(self, v: int, rows: Turning, after: Sql = sql("")) -> list[Sql]:
        """What is done of each kind of statement."""
        one = "TG_OP = {said} THEN {insert} {rows}{end} {after}"
        return [sql(one, said=text(said), insert=self.insert(v), rows=rows(some), end=END_OF_STATEMENT, after=after) for said, some in ROWS.items()]

    def at_once(self, source: Source) -> Turning:
        """How the rows of a statement are turned: of an UPDATE those of both tables in one list of columns, since PostgreSQL gets each function
        of it ready for each statement anew."""
        columns = joined([*(name(column.name) for column in source.columns), COUNT])
        low, shown = (joined(listed) for listed in zip(*((how.below, how.above) for how in source.of_postgresql)))
        is_computed_below = any(column.is_computed_below for column in source.columns)

        def rows(parts: Sequence[Transition]) -> Sql:
            both = joined([sql("SELECT {low}, {sign}::bigint FROM {rows} AS r", low=low, sign=text(str(sign)), rows=word(rows)) for rows, sign in parts], "UNION ALL")
            # One list would become part of the other, and what is written there more than once would be computed as often.
            both = sql("{both} OFFSET 0", both=both) if len(parts) == 1 and is_computed_below else both
            return sql("SELECT {shown}, r.{count} FROM ({both}) AS r ({columns})", shown=shown, count=COUNT, both=both, columns=columns)

        return rows

    def is_current(self) -> Sql:
        """Whether each statement of a trigger sees what is there now."""
        return sql("current_setting({isolation}) = {wanted}", isolation=text("transaction_isolation"), wanted=text("read committed"))

    def noting(self, v: int, source: Source) -> Sql:
        """What is noted, by what a trigger was fired for."""
        return sql(
            "\n  IF TG_ARGV[0] = {applied} THEN {of_applied}\n  {of_parts}ELSIF TG_OP = {truncate} THEN {truncated}\n  {of_statement}\n  END IF{end}",
            applied=text("applied"), of_applied=self.of_applied(v), of_parts=self.of_parts(v, source), truncate=text("TRUNCATE"),
            truncated=self.truncated(v, source), of_statement=self.of_statement(v, source), end=END_OF_STATEMENT,
        )

    def judged_by(self, v: int, source: Source) -> Sql:
        """Why a trigger's function is called in vain, or cannot note what it is called for."""
        # Two columns of one type may have each other's names; those of parts and heirs, which may stand in another order, have those of the source.
        placed = joined([sql("a.attname = {name} AND a.attnum = {place}", name=text(column.name), place=number(told.place))
                         for column, told in zip(source.own, source.told)], "OR")
        return self.query(v, JUDGED, fits=source.fits, placed=placed, many=number(len(source.own)), **{said: text(said) for said in ("strange", "unlike", "parent")})

    def torn(self, v: int, why: Why, more: Sql | None = None) -> Sql:
        """A mark that a table is not captured as it was, and perhaps what was told of it. It stands once, as far as the transaction sees: nobody waits
        for another's."""
        said = sql("concat_ws({colon}, {why}, {more})", colon=text(": "), why=text(WHY[why]), more=more) if more else text(WHY[why])
        there = self.query(v, "SELECT 1 FROM {torn} AS o WHERE o.view = {view} AND o.why = {why}", torn=self.torn_table, why=said)
        return self.query(v, "INSERT INTO {torn} SELECT {view}, {why} WHERE NOT EXISTS ({there})", torn=self.torn_table, why=said, there=there)

    def part_unnoted(self, v: int) -> Sql:
        """What a trigger does first: for a table that is none of the source's nothing, and where a table has parts or heirs one that nobody noted is,
        so that it is missed also where it is gone before the next night, and with it rows that came through the table."""
        return self.query(
            v, "IF finding = {strange} THEN IF NOT {current} THEN {early}{end} END IF{end} RETURN NULL{end} ELSIF finding = {parent} THEN IF EXISTS (SELECT 1 FROM "
            + BELOW + " WHERE {unnoted}) THEN {made}{end} END IF{end} END IF", strange=text("strange"), current=self.is_current(), early=self.torn(v, "early"),
            parent=text("parent"), unnoted=self.unnoted(v), made=self.parts_noted(v), end=END_OF_STATEMENT,
        )

    def of_parts(self, v: int, source: Source) -> Sql:
        """Of a table in parts: how the rows of a command are noted, and rows one by one."""
        if not source.is_parted:
            return sql("")
        texts = {"none": "", "merge": "merge", "execute": "execute", "statement": 'SQL statement "', "line": "\n", "rows": "rows", "said": "way"}
        parts = {said: text(each) for said, each in texts.items()}
        within = sql(WITHIN, by_rows=self.by_rows(1), none=text(""), all=text("gi"), any_case=text("i"), **{said: text(each) for said, each in WRITING.items()})
        return sql(
            "ELSIF TG_ARGV[0] = {said} THEN\n    GET DIAGNOSTICS finding = PG_CONTEXT{end}\n    finding := CASE WHEN strpos(finding, {line}) > 0 THEN"
            " substr(finding, strpos(finding, {line}) + 1) ELSE {none} END{end}\n    IF " + MERGING + " THEN IF {within} THEN {torn}{end} END IF{end}"
            " PERFORM set_config(concat({way},"
            " pg_trigger_depth() - 1), {rows}, TRUE){end} END IF{end}\n  ELSIF TG_ARGV[0] = {rows} THEN {noted}\n  ELSIF {by_rows} AND TG_OP <>"
            " {truncate} THEN NULL{end}\n  ",
            within=within, torn=self.torn(v, "within"), way=text("whview.way"), noted=self.rows_noted(v, source), by_rows=self.by_rows(1),
            truncate=text("TRUNCATE"), end=END_OF_STATEMENT, **parts,
        )

    def rows_noted(self, v: int, source: Source) -> Sql:
        """The rows that a trigger of single rows is fired for."""
        insert = self.insert(v)
        come, gone = (sql("SELECT {cells}, {sign}", cells=joined([again(column.said, word(row)) for column in source.columns]), sign=number(sign))
                      for row, sign in (("NEW", 1), ("OLD", -1)))
        return sql(
            "\n    IF TG_OP <> {deleted} THEN {insert} {come}{end} END IF{end}\n    IF TG_OP <> {inserted} THEN {insert} {gone}{end} END IF{end}",
            insert=insert, come=come, gone=gone, inserted=text("INSERT"), deleted=text("DELETE"), end=END_OF_STATEMENT,
        )

    def of_applied(self, v: int) -> Sql:
        """Rows that come in the role of a replica. What an SQL statement writes is noted by the triggers of statements; where there is no statement
        they are not fired, and the table is torn."""
        return sql("IF current_query() IS NULL THEN {torn}{end} END IF{end}", torn=self.torn(v, "applied"), end=END_OF_STATEMENT)

    def truncated(self, v: int, source: Source) -> Sql:
        """The rows of a table that is emptied, where all of them can be seen."""
        return sql("\n    IF {rows}\n    END IF{end}", rows=self.rows_read(v, source, word("TG_RELID"), -1, Unread("isolation", "hidden", "calls")),
                   end=END_OF_STATEMENT)

    def rows_read(self, v: int, source: Source, relation: Sql, sign: int, unread: Unread) -> Sql:
        """What notes all rows of a table that come or leave at once, where they can be read; else the table is torn. It is the rest of an IF."""
        template, after = "{insert} SELECT {shown}, {sign} FROM ONLY", sql("AS r")
        before = sql(template, insert=self.insert(v), shown=source.shown, sign=number(sign))
        return sql(
            "NOT {current} THEN {alone}{end}\n    ELSIF row_security_active({relation}) OR NOT"
            " has_table_privilege({relation}, {select}) OR NOT has_schema_privilege((SELECT k.relnamespace FROM pg_class AS k WHERE k.oid = {relation}), {usage})"
            " THEN {hidden}{end}\n    ELSIF {calls} THEN {called}{end}\n    ELSE EXECUTE concat({before}, {relation}::regclass, {after}){end}",
            current=self.is_current(), alone=self.torn(v, unread.isolation), select=text("SELECT"),
            usage=text("USAGE"), hidden=self.torn(v, unread.hidden), calls=self.calls(relation), called=self.torn(v, unread.calls), relation=relation,
            before=text(self.dialect.written([before])[0] + " "), after=text(" " + self.dialect.written([after])[0]), end=END_OF_STATEMENT,
        )

    def calls(self, relation: Sql) -> Sql:
        """Whether reading a table calls somebody's function."""
        classes = {"classes": "class", "constraints": "constraint", "statistics": "statistic_ext", "operators": "operator", "functions": "proc"}
        return sql(CALLS, relation=relation, member=text("MEMBER"), **{said: text(f"pg_{each}") for said, each in classes.items()})

    def insert(self, v: int) -> Sql:
        """The beginning of what notes changes."""
        return sql("INSERT INTO {changes} ({columns})", changes=self.script.tables.table(v, "~changes"), columns=joined([*self.script.tables.users(v), COUNT]))

    def of_statement(self, v: int, source: Source) -> Sql:
        """The rows of a statement. What an UPDATE leaves as it was leaves and comes: nights add it up, and writers do not wait for that."""
        return joined([sql("\n  ELSIF {other}", other=other) for other in self.by_statement(v, self.one_by_each(source))], None)

    def one_by_each(self, source: Source) -> Turning:
        """How rows are turned, those of each table by themselves."""
        one = "SELECT {shown}, {sign} FROM {rows} AS r"
        return lambda parts: joined([sql(one, shown=source.shown, sign=number(sign), rows=word(rows)) for rows, sign in parts], "UNION ALL")

    # ---- how triggers come and go

    def fired(self, v: int, source: Source) -> Sql:
        """Each table of a source gets its triggers in a transaction of its own, at a moment when nobody is writing to it."""
        events = self.events_of(source.is_parted)
        is_ordinary = sql("EXISTS (SELECT 1 FROM pg_class AS c WHERE c.oid = part AND c.relkind = {ordinary})", ordinary=self.texts["ordinary"])
        own, all_have = ([each for event in events if event.is_ordinary == kind for each in self.put(event)] for kind in (True, False))
        relations = self.query(v, "SELECT b.relation::regclass FROM " + BELOW)
        many = [sum(not event.is_ordinary for event in events), len(events)]
        wanted = sql("(SELECT CASE c.relkind WHEN {ordinary} THEN {most} ELSE {few} END FROM pg_class AS c WHERE c.oid = part)",
                     ordinary=self.texts["ordinary"], few=number(many[0]), most=number(many[1]))
        missing = self.query(v, FIRED + " < {wanted}", relation=word("part"), wanted=wanted)
        unfit = self.query(v, "SELECT format({told}, c.oid::regclass) FROM pg_class AS c WHERE c.oid = part AND c.relkind = {foreign}",
                           told=text("%s is a foreign table, whose changes are not captured"))
        made = [*all_have, *self.dialect.only_where(is_ordinary, own)]
        return self.one_by_one(v, relations, missing, "SHARE ROW EXCLUSIVE", made, self.dialect.refuse_with(unfit))

    def put(self, event: Event) -> list[Sql]:
        """The statements that put a trigger on a table, and have it fired whoever writes."""
        said, argument = sql("quote_ident(concat({said}, made::oid, {event}))", said=text("whview "), event=text(f" {event.said}")), event.argument
        create = sql(
            "EXECUTE concat({create}, {said}, {when}, part, {each}, {call}, left(made::text, -1), {argument})", create=text("CREATE OR REPLACE TRIGGER "),
            said=said, when=text(f" {event.when}"), each=text(" " + self.dialect.written([event.each])[0]), call=text(" EXECUTE FUNCTION "),
            argument=text(f"'{argument}')" if argument else ")"),
        )
        enable = sql("EXECUTE concat({alter}, part, {enable}, {said})", alter=text("ALTER TABLE ONLY "), enable=text(f" ENABLE {event.mode} TRIGGER "), said=said)
        return [create, enable]

    def renamed(self, v: int) -> Sql:
        """Triggers that have other names go, as those of a dump have: they would note each change beside the new ones."""
        strange = sql("t.tgfoid = made AND NOT starts_with(t.tgname, concat({said}, made::oid, {blank}))", said=text("whview "), blank=text(" "))
        relations = self.query(v, "SELECT DISTINCT t.tgrelid::regclass FROM pg_trigger AS t WHERE {strange}", strange=strange)
        return self.dropped_from(v, relations, strange)

    def left(self, v: int) -> Sql:
        """The triggers of tables that are no part of a source any more go."""
        relations = self.query(v, "SELECT DISTINCT t.tgrelid::regclass FROM pg_trigger AS t WHERE t.tgfoid = {function}::regprocedure"
                                  " AND t.tgrelid NOT IN (SELECT b.relation FROM " + BELOW + ")")
        return self.dropped_from(v, relations)

    def let_go(self, v: int) -> Sql:
        """All triggers of a source go."""
        relations = self.query(v, "SELECT DISTINCT t.tgrelid::regclass FROM pg_trigger AS t WHERE t.tgfoid = to_regprocedure({function})")
        return self.dropped_from(v, relations)

    def dropped_from(self, v: int, relations: Sql, test: Sql = sql("t.tgfoid = made")) -> Sql:
        """The triggers of these relations go that pass a test."""
        there = self.query(v, "EXISTS (SELECT 1 FROM pg_trigger AS t WHERE t.tgrelid = part AND {test})", test=test)
        named = sql("SELECT t.tgname FROM pg_trigger AS t WHERE t.tgrelid = part AND {test}", test=test)
        dropped = sql(
            "FOR finding IN {named} LOOP EXECUTE concat({drop}, quote_ident(finding), {on}, part){end} END LOOP",
            named=named, drop=text("DROP TRIGGER "), on=text(" ON "), end=END_OF_STATEMENT,
        )
        return self.one_by_one(v, relations, there, "ACCESS EXCLUSIVE", [dropped], [])

    def one_by_one(self, v: int, relations: Sql, test: Sql, mode: str, made: list[Sql], judged: list[Sql]) -> Sql:
        """A program that goes to each of these relations where a test holds, and tries its statements until nobody is writing there. The path of names
        holds beyond each of its transactions."""
        function = self.written(sql("{function}()", function=self.function(v)))
        lock = sql("EXECUTE concat({lock}, part, {mode})", lock=text("LOCK TABLE ONLY "), mode=text(f" IN {mode} MODE NOWAIT"))
        busy = self.dialect.where(sql("tries > {most}", most=number(TRIES)), self.dialect.raised(sql("format({busy}, part)", busy=text(BUSY))))
        kinds = {"part": "regclass", "made": "regprocedure", "tries": "int4", "path": "text", "finding": "text"}
        variables = [sql("{said} pg_catalog.{kind}{end}", said=word(said), kind=word(kind), end=END_OF_STATEMENT) for said, kind in kinds.items()]
        program = sql(
            "\nDECLARE {variables}\nBEGIN\npath := pg_catalog.current_setting({key}){end}\n"
            "PERFORM pg_catalog.set_config({key}, {own}, FALSE), pg_catalog.set_config({parting}, {on}, FALSE){end}\n"
            "made := to_regprocedure({function}){end}\nFOR part IN {relations} LOOP\n{judged}\ntries := 0{end}\n"
            "WHILE {test} LOOP\nBEGIN{made}\nEXCEPTION WHEN lock_not_available THEN\ntries := tries + 1{end}\n{busy}{end}\n"
            "PERFORM pg_sleep({pause} / 1000.0){end}\nEND{end}\nEND LOOP{end}\nCOMMIT{end}\nEND LOOP{end}\n"
            "PERFORM set_config({key}, path, FALSE), set_config({parting}, {none}, FALSE){end}\nEND{end}",
            parting=text(PARTING), on=text("on"), none=text(""), variables=joined(variables, None),
            key=text("search_path"), own=text(PATH), function=function, relations=relations, judged=statements(judged, 1), test=test,
            made=statements([lock, *made], 2), busy=busy, pause=number(PAUSE), end=END_OF_STATEMENT,
        )
        return sql("DO {program}{end}", program=body(program), end=END_OF_STATEMENT)
