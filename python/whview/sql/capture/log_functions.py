"""The functions by which nights of PostgreSQL read changes from a slot of logical replication: what reads and moves the slot, which is somebody's who may
do that, and what makes changes of it, which is the nights' own.

The plugin writes each change as a text: `table public.orders: UPDATE: old-key: id[integer]:1 new-tuple: id[integer]:2 note[text]:'a''b'`. Names are in
quotes where they are no plain words, and quotes in them are doubled, as those in values are: where each part ends is told by that alone."""

from __future__ import annotations

from collections.abc import Iterable, Sequence
from typing import TYPE_CHECKING, NamedTuple

from ..postgresql import PATH
from ..tokens import END_OF_STATEMENT, Sql, body, joined, number, sql, statements, text, word
from .log_rows import LogRows
from .triggers import PAUSE, TRIES

if TYPE_CHECKING:
    from .from_log import FromLog

# How values are written that are read again; and that rows, of which the server does not know how many come, are joined by tables of hashes.
FIXED = (
    f"SET search_path = {PATH} SET datestyle = iso SET timezone = utc SET extra_float_digits = 1 SET intervalstyle = postgres SET bytea_output = hex"
    " SET quote_all_identifiers = off SET enable_nestloop = off SET enable_hashjoin = on SET jit = off"
)
NAME = '(?:"(?:[^"]|"")*"|[a-z0-9_]+)'
# How a change begins that empties tables ends: no other change ends so.
EMPTIED = (": TRUNCATE: (no-flags)", ": TRUNCATE: restart_seqs", ": TRUNCATE: cascade", ": TRUNCATE: restart_seqs cascade")
PARTS = ("old-key:", "new-tuple:")
HIDDEN = "HIDDEN"
# The number of a transaction of 32 bits as one of 64, which is less than half of those away from now.
LONG_NUMBER = "(({now} + (({number}::text::bigint - {now}) % {all} + {all} + {half}) % {all} - {half})::text::xid8)"
READ = (
    "RETURN QUERY WITH peeked AS MATERIALIZED (SELECT p.lsn, p.xid, p.data, p.place, split_part(p.data, {colon}, 1) AS head FROM"
    " pg_logical_slot_peek_changes({slot}, NULL, NULL, {option}, {no}) WITH ORDINALITY AS p (lsn, xid, data, place)),"
    " names AS (SELECT DISTINCT r.relation::text AS name FROM ({relations}) AS r WHERE {readable}),"
    " hidden AS (SELECT DISTINCT r.root::text AS name FROM ({relations}) AS r WHERE NOT {readable}),"
    " ended AS (SELECT p.xid, p.lsn FROM peeked AS p WHERE p.data = {committed}),"
    " told AS (SELECT p.xid, p.place, n.name, substr(p.data, length(concat({table}, n.name, {colon})) + 1) AS said FROM peeked AS p JOIN names AS n"
    " ON p.head = concat({table}, n.name) WHERE strpos(n.name, {colon}) = 0 UNION ALL SELECT p.xid, p.place, n.name,"
    " substr(p.data, length(concat({table}, n.name, {colon})) + 1) FROM peeked AS p JOIN names AS n ON strpos(n.name, {colon}) > 0"
    " AND starts_with(p.data, concat({table}, n.name, {colon})) WHERE starts_with(p.data, {table})),"
    " emptied AS (SELECT p.xid, p.place, m.name[1] AS name FROM peeked AS p JOIN unnest({ends}::text[]) AS e (said) ON right(p.data, length(e.said)) = e.said"
    " CROSS JOIN LATERAL regexp_matches(left(p.data, - length(e.said)), {each}, {all}) AS m (name) WHERE strpos(p.data, {emptying}) > 0 AND starts_with(p.data, {table}))"
    " SELECT t.place, e.lsn, {number}, t.name, split_part(t.said, {mark}, 1), substr(t.said, strpos(t.said, {mark}) + 1) FROM told AS t JOIN ended AS e"
    " ON e.xid = t.xid WHERE split_part(t.said, {mark}, 1) <> {truncate}"
    " UNION ALL SELECT t.place, e.lsn, {number}, t.name, {truncate}, {none} FROM emptied AS t JOIN names AS n ON n.name = t.name JOIN ended AS e ON e.xid = t.xid"
    " UNION ALL SELECT 0::bigint, max(e.lsn), NULL::xid8, NULL::text, NULL::text, NULL::text FROM ended AS e"
    " UNION ALL SELECT -1::bigint, NULL::pg_lsn, NULL::xid8, NULL::text, {hiding}, h.name FROM hidden AS h"
)
UNREADABLE = "table %s may not be read (SELECT) by %s any more, who is not told its changes: grant it again, or run whview sql capture"


ALL_PARTS = (
    "(WITH RECURSIVE below (root, relation) AS (SELECT k.oid, k.oid FROM pg_class AS k JOIN pg_namespace AS n ON n.oid = k.relnamespace WHERE n.nspname = {schema}"
    " AND k.relname = {table} UNION SELECT b.root, i.inhrelid FROM below AS b JOIN pg_inherits AS i ON i.inhparent = b.relation)"
    " SELECT b.root::regclass AS root, b.relation::regclass AS relation FROM below AS b)"
)


class Placed(NamedTuple):
    """A table by the name of its schema and its own."""

    schema: str
    table: str


class LogFunctions:
    """The statements that make these functions."""

    def __init__(self, captures: FromLog) -> None:
        self.captures, self.script, self.dialect, self.log = captures, captures.script, captures.dialect, captures.log
        self.rows = LogRows(captures)

    def made(self, said: str, parameters: str, result: str, program: Sql, settings: str = f"SET search_path = {PATH}", is_definer: bool = False) -> list[Sql]:
        """A function, which nobody else may call."""
        function = self.log.function(said)
        parts = {"function": function, "parameters": sql(parameters), "result": sql(result)}
        made = "CREATE OR REPLACE FUNCTION {function}({parameters}) RETURNS {result} LANGUAGE plpgsql " + ("SECURITY DEFINER " if is_definer else "")
        return [
            sql(made + settings + " AS {program}", program=body(program), **parts),
            sql("REVOKE ALL ON FUNCTION {function} FROM PUBLIC", function=function),
        ]

    # ---- what reads and moves the slot, and no other one

    def definers(self, tables: Sequence[Placed], role: str | None) -> list[Sql]:
        """Two functions of somebody's who may use slots; whoever owns the schema may call them."""
        return [
            *self.made("read", "", "TABLE (place bigint, ended pg_lsn, number xid8, part text, act text, said text)", self.read(tables, role), FIXED, True),
            *self.made("move", "upto pg_lsn", "void", self.move(), is_definer=True),
        ]

    def relations(self, tables: Iterable[Placed]) -> Sql:
        """The tables with these names, with their parts and heirs, as they are now: found without a right on their schemas. Whoever may read a table may
        read the rows of its parts."""
        found = [sql(ALL_PARTS, schema=text(each.schema), table=text(each.table)) for each in tables]
        return joined(found, "UNION ALL")

    def read(self, tables: Sequence[Placed], role: str | None) -> Sql:
        """The changes of these tables, those alone that whoever owns the schema may read; another one's reading is waited for."""
        readable = sql("has_table_privilege({role}, r.root, {select})", role=text(role), select=text("SELECT")) if role else sql("TRUE")
        now = sql("pg_snapshot_xmax(pg_current_snapshot())::text::bigint")
        number_of = sql(LONG_NUMBER, now=now, number=sql("e.xid"), all=number(2**32), half=number(2**31))
        query = sql(
            READ, slot=self.log.slot(), option=text("include-xids"), no=text("0"), relations=self.relations(tables), readable=readable,
            committed=text("COMMIT"), table=text("table "), colon=text(": "), mark=text(":"), ends=text(array_of(EMPTIED)), each=text(rf"{NAME}\.{NAME}"),
            all=text("g"), number=number_of, truncate=text("TRUNCATE"), none=text(""), emptying=text(": TRUNCATE: "),
            hiding=text(HIDDEN),
        )
        return sql(
            "\n#variable_conflict use_column\nDECLARE tries pg_catalog.int4{end}\nBEGIN\ntries := 0{end}\nLOOP\nBEGIN\n{query}{end}\nRETURN{end}\n"
            "EXCEPTION WHEN object_in_use THEN\ntries := tries + 1{end}\nIF tries > {most} THEN RAISE{end} END IF{end}\nPERFORM pg_sleep({pause} / 1000.0){end}\n"
            "END{end}\nEND LOOP{end}\nEND{end}", query=query, most=number(TRIES), pause=number(PAUSE), end=END_OF_STATEMENT,
        )

    def move(self) -> Sql:
        """The slot keeps what was committed from here on; where somebody reads it the next night moves it."""
        return sql(
            "\nBEGIN\nPERFORM pg_replication_slot_advance(s.slot_name, upto) {slots}{end}\nEXCEPTION WHEN object_in_use THEN NULL{end}\nEND{end}",
            slots=self.log.slots(sql("s.confirmed_flush_lsn < upto AND s.wal_status <> {lost}", lost=text("lost"))), end=END_OF_STATEMENT,
        )

    # ---- what makes changes of it

    def own(self) -> list[Sql]:
        """What all tables have in common."""
        return [*self.made("cells", "act text, said text, wanted text[]", "text[]", self.cells()), *self.made("take", "is_night boolean", "void", self.take())]

    def cells(self) -> Sql:
        """What a change says of wanted columns, each told by its name and type: those of the row before and then those of the row after, and whether there
        was one before. A value stands behind an equals sign; 0 is NULL, ~ a long value that stayed as it was; no column is nothing."""
        quote = text("'")
        return sql(
            "\nDECLARE rest text{end}\npiece text{end}\ncell text{end}\nfound text[]{end}\nspot int4{end}\nplace int4{end}\nmany int4{end}\nside int4{end}\nBEGIN\n"
            "rest := said{end}\nmany := cardinality(wanted){end}\nfound := array_fill(NULL::text, ARRAY[2 * many + 1]){end}\n"
            "side := CASE WHEN act = {delete} THEN 0 ELSE many END{end}\nWHILE rest <> {none} LOOP\n{sides}\n{named}\n{valued}\n"
            "place := array_position(wanted, piece){end}\nIF side = 0 THEN found[2 * many + 1] := {old}{end} END IF{end}\n"
            "IF place IS NOT NULL THEN found[side + place] := cell{end} END IF{end}\nEND LOOP{end}\nRETURN found{end}\nEND{end}",
            none=text(""), delete=text("DELETE"), sides=self.sides(), named=self.named(), valued=self.valued(quote), old=text("old"), end=END_OF_STATEMENT,
        )

    def sides(self) -> Sql:
        """Which row the columns that follow are of."""
        old, new = (text(f" {part}") for part in PARTS)
        return sql(
            "IF starts_with(rest, {old}) THEN side := 0{end} found[2 * many + 1] := {row}{end} rest := substr(rest, length({old}) + 1){end} END IF{end}\n"
            "IF starts_with(rest, {new}) THEN side := many{end} rest := substr(rest, length({new}) + 1){end} END IF{end}\n"
            "IF rest = {nothing} THEN RETURN found{end} END IF{end}", old=old, new=new, row=text("old"), nothing=text(" (no-tuple-data)"), end=END_OF_STATEMENT,
        )

    def named(self) -> Sql:
        """A column's name with its type in brackets: a bracket between quotes ends no type."""
        ending, quote, none = text("]:"), text('"'), text("")
        return sql(
            "spot := strpos(rest, {ending}){end}\npiece := left(rest, spot){end}\n"
            "WHILE (length(piece) - length(replace(piece, {quote}, {none}))) % 2 = 1 AND strpos(substr(rest, spot + 1), {ending}) > 0 LOOP\n"
            "spot := spot + strpos(substr(rest, spot + 1), {ending}){end}\n"
            "piece := left(rest, spot){end}\nEND LOOP{end}\nrest := substr(rest, spot + 2){end}", ending=ending, quote=quote, none=none, end=END_OF_STATEMENT,
        )

    def valued(self, quote: Sql) -> Sql:
        """A value: a text with its quotes, each of those in it doubled, or else a word up to the next blank."""
        parts = {"quote": quote, "two": text("''"), "blank": text(" "), "value": text("="), "whole": text("^(?:'[^']*')+"), "null": text("null"),
                 "same": text("unchanged-toast-datum"), "stays": text("~"), "nothing": text("0"), "none": text("")}
        return sql(
            "IF starts_with(rest, {quote}) THEN\nspot := strpos(substr(rest, 2), {quote}) + 1{end}\n"
            "IF substr(rest, spot + 1, 1) = {quote} THEN spot := length((regexp_match(rest, {whole}))[1]){end} END IF{end}\n"
            "cell := concat({value}, replace(substr(rest, 2, spot - 2), {two}, {quote})){end}\nrest := substr(rest, spot + 1){end}\n"
            "ELSE\nspot := strpos(rest, {blank}){end}\ncell := CASE WHEN spot = 0 THEN rest ELSE left(rest, spot - 1) END{end}\n"
            "rest := CASE WHEN spot = 0 THEN {none} ELSE substr(rest, spot) END{end}\n"
            "cell := CASE cell WHEN {null} THEN {nothing} WHEN {same} THEN {stays} ELSE concat({value}, cell) END{end}\nEND IF{end}",
            **parts, end=END_OF_STATEMENT,
        )

    def take(self) -> Sql:
        """What is committed, and was not taken before, becomes changes; from which place of the log on the next night takes is noted with what this one did,
        which is on the disk before the slot is moved. A check takes what its snapshot sees, and notes nothing."""
        made = [
            sql("finding := ({holes})", holes=self.log.holes()),
            self.dialect.where(sql("finding IS NOT NULL"), self.dialect.raised(word("finding"))),
            sql("IF NOT is_night THEN {flushed} ELSIF current_setting({key}) = {off} THEN PERFORM set_config({key}, {local}, TRUE){end} END IF",
                flushed=statements(self.log.flushed(), 2), key=text("synchronous_commit"), off=text("off"), local=text("local"), end=END_OF_STATEMENT),
            sql("CREATE TEMPORARY TABLE {log} ON COMMIT DROP AS SELECT * FROM {read}()", log=self.rows.log_name(), read=self.log.function("read")),
            sql("finding := (SELECT format({told}, l.said, current_user) FROM {log} AS l WHERE l.act = {hiding} LIMIT 1)", told=text(UNREADABLE), hiding=text(HIDDEN),
                log=self.rows.log_table()),
            self.dialect.where(sql("finding IS NOT NULL"), self.dialect.raised(word("finding"))),
            # A night may have moved the slot while a check came to read it.
            sql("IF NOT is_night THEN finding := ({holes}){end} {raised}{end} END IF", holes=self.log.holes(), end=END_OF_STATEMENT,
                raised=self.dialect.where(sql("finding IS NOT NULL"), self.dialect.raised(word("finding")))),
            sql("IF NOT is_night THEN DELETE FROM {log} AS l WHERE NOT pg_visible_in_snapshot(l.number, pg_current_snapshot()){end} END IF",
                log=self.rows.log_table(), end=END_OF_STATEMENT),
            sql("ANALYZE {log}", log=self.rows.log_table()),
            sql("FOR finding IN SELECT o.made FROM {table} AS o ORDER BY o.view LOOP EXECUTE concat({select}, finding, {call}){end} END LOOP", table=self.log.table,
                select=text("SELECT "), call=text("()"), end=END_OF_STATEMENT),
            sql("IF is_night THEN UPDATE {table} AS o SET taken = l.ended FROM {log} AS l WHERE l.place = 0 AND l.ended > o.taken{end} END IF",
                table=self.log.table, log=self.rows.log_table(), end=END_OF_STATEMENT),
        ]
        return sql("\n#variable_conflict use_column\nDECLARE finding text{end}\nseen pg_lsn{end}\ntries int4{end}\nBEGIN{made}\nEND{end}", made=statements(made, 1),
                   end=END_OF_STATEMENT)


def array_of(said: Iterable[str]) -> str:
    """Plain texts as the text of an array."""
    return "{" + ",".join(f'"{each}"' for each in said) + "}"
