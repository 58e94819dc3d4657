"""Whether PostgreSQL's tables are captured as they were, and the night's own as they were judged."""

from __future__ import annotations

from collections.abc import Iterable, Sequence
from hashlib import sha256
from itertools import starmap
from typing import NamedTuple

from ..tokens import Sql, body, joined, sql, statements, text, word
from .captured import ATTRIBUTES, FILE, TRIGGERS, CapturedTables
from .definitions import definitions, told_unopened
from .history import SIZES
from .log_standing import OF_LOG, OF_WHOLE

JUDGED = "~judged"


class Hole(NamedTuple):
    """What may be otherwise than it was captured: a query for it, or the rest of one, and what is told of it."""

    query: str
    why: str


# A column's place, its type and, of an enumeration, its values: more of them may come behind, and none may get another name, also for a while, of which its
# row tells. How a type of one's own is called depends on the search path, its number does not; and a value may have a comma.
TYPE = (
    "concat(a.attnum, {comma}, CASE WHEN a.atttypid < 16384 THEN format_type(a.atttypid, a.atttypmod) ELSE a.atttypid::text END, {comma},"
    " (SELECT string_agg(concat(e.xmin, {comma}, length(e.enumlabel::text), {comma}, e.enumlabel, {comma}), {none} ORDER BY e.oid) FROM pg_enum AS e"
    " WHERE e.enumtypid = a.atttypid))"
)
# How many triggers a part b of a source has that itself is partitioned or not.
WANTED = (
    "(SELECT CASE WHEN c.relkind = {ordinary} THEN 5 ELSE 3 END + CASE WHEN s.relkind <> {parted} THEN 0 WHEN c.relkind = {ordinary} THEN 2 ELSE 1 END"
    " FROM pg_class AS c, {state} AS o JOIN pg_class AS s ON s.oid = o.source WHERE c.oid = b.relation AND o.view = b.view)"
)
# Parts b of a source whose rows may change while no trigger is fired.
UNFIT = (
    Hole("JOIN pg_class AS k ON k.oid = b.relation WHERE k.relkind = {ordinary} AND k.relpersistence <> {logged}",
         "%s is unlogged, and a crash would empty it unnoticed"),
    Hole("JOIN pg_subscription_rel AS r ON r.srrelid = b.relation", "%s is written by logical replication, which fires no such triggers"),
)
# A unique index of a source c over no other columns than those of the key by which it was captured.
KEYED = (
    "EXISTS (SELECT 1 FROM pg_index AS i WHERE i.indrelid = c.source AND i.indisunique AND i.indisvalid AND i.indpred IS NULL AND i.indexprs IS NULL"
    " AND NOT EXISTS (SELECT 1 FROM generate_series(0, i.indnkeyatts - 1) AS g JOIN pg_attribute AS a ON a.attrelid = i.indrelid"
    " AND a.attnum = i.indkey[g] WHERE NOT a.attnotnull OR NOT EXISTS (SELECT 1 FROM {columns} AS k WHERE k.view = c.view AND k.is_key"
    " AND k.name = a.attname)))"
)
# All sources at once; and what may be otherwise than it was captured, each a query for a sentence, with its words.
ALL_BELOW = (
    "WITH RECURSIVE sources (view, made) AS (VALUES {rows}), below (view, made, relation) AS (SELECT w.view, w.made, c.source::oid FROM sources AS w"
    " JOIN {state} AS c ON c.view = w.view UNION SELECT b.view, b.made, i.inhrelid FROM below AS b JOIN pg_inherits AS i ON i.inhparent = b.relation)"
    " SELECT coalesce({queries})"
)
OF_COLUMN = (
    "SELECT format({told}, k.view, format({why}, k.name%s)) FROM {columns} AS k JOIN sources AS w ON w.view = k.view JOIN {state} AS c ON c.view = k.view"
)
STANDS = " LEFT JOIN pg_attribute AS a ON a.attrelid = c.source AND a.attname = k.name AND a.attnum > 0 AND NOT a.attisdropped WHERE k.name <> {none} AND "
PLACED = "pg_attribute AS m ON m.attrelid = c.source AND m.attnum::text = split_part(k.type, {comma}, 1)"
HOLES = tuple(starmap(Hole, (
    ("SELECT format({told}, w.view, {why}) FROM sources AS w WHERE NOT EXISTS (SELECT 1 FROM {state} AS c JOIN pg_class AS k ON k.oid = c.source"
     " WHERE c.view = w.view AND c.filled)", "its table is gone, or was never filled"),
    (OF_COLUMN % ", m.attname" + " JOIN " + PLACED + " AND NOT m.attisdropped" + STANDS + "a.attname IS NULL", "its column %s is called %s now"),
    (OF_COLUMN % "" + STANDS + "a.attname IS NULL", "its column %s is gone"),
    (OF_COLUMN % "" + STANDS + "k.is_filled AND NOT a.attnotnull AND NOT EXISTS (SELECT 1 FROM pg_type AS y WHERE y.oid = a.atttypid AND y.typtype = {domain})",
     "its column %s may be NULL now"),
    (OF_COLUMN % "" + STANDS + "NOT starts_with(" + TYPE + ", k.type)", "its column %s is of another type, or its values have other names, or it was made anew"),
    ("SELECT format({told}, c.view, format({why}, string_agg(k.name, {comma} ORDER BY k.name))) FROM sources AS w JOIN {state} AS c ON c.view = w.view"
     " JOIN {columns} AS k ON k.view = c.view AND k.is_key WHERE NOT " + KEYED + " GROUP BY c.view", "its key (%s) is gone: a row may stand in it twice"),
    ("SELECT format({told}, b.view, format({why}, b.relation::regclass)) FROM below AS b WHERE (SELECT count(*) FROM pg_trigger AS t"
     " WHERE t.tgrelid = b.relation AND t.tgfoid = b.made AND t.tgenabled IN ({always}, {replica})) < " + WANTED, "%s has no triggers"),
    ("SELECT format({told}, p.view, format({why}, p.name)) FROM {noted} AS p JOIN sources AS w ON w.view = p.view"
     " WHERE NOT EXISTS (SELECT 1 FROM below AS b WHERE b.view = p.view AND b.relation = p.part)", "%s is no part of it any more"),
    ("SELECT format({told}, w.view, format({why}, i.inhparent::regclass)) FROM sources AS w JOIN {state} AS c ON c.view = w.view JOIN pg_inherits AS i"
     " ON i.inhrelid = c.source", "it inherits from %s, through which its rows may change unnoticed"),
    ("SELECT format({told}, p.view, format({why}, p.name)) FROM {noted} AS p JOIN sources AS w ON w.view = p.view WHERE p.triggers <> "
     + TRIGGERS.replace("{part}", "p.part").replace("to_regprocedure({function})", "w.made"), "the triggers of %s were disabled or made anew"),
    ("SELECT format({told}, p.view, format({why}, p.name)) FROM {noted} AS p JOIN sources AS w ON w.view = p.view WHERE p.file <> "
     + FILE.replace("{part}", "p.part") + " AND p.attributes <> " + ATTRIBUTES.replace("{part}", "p.part").replace("{view}", "p.view"),
     "columns of %s were written anew"),
    ("SELECT format({told}, w.view, format({why}, c.source)) FROM sources AS w JOIN {state} AS c ON c.view = w.view JOIN pg_class AS k ON k.oid = c.source"
     " WHERE k.relname <> w.view OR EXISTS (SELECT 1 FROM {noted} AS p WHERE p.view = w.view AND p.part = c.source AND to_regclass(p.name) <> p.part)",
     "it is %s now, and another table may have its name"),
    *(("SELECT format({told}, b.view, format({why}, b.relation::regclass)) FROM below AS b " + test, why) for test, why in UNFIT),
    ("SELECT format({told}, w.view, format({why}, o.why)) FROM sources AS w JOIN {torn} AS o ON o.view = w.view", "%s"),
)))

# What is asked of triggers has no place where there are none.
OF_TRIGGERS = ("%s has no triggers", "the triggers of %s were disabled or made anew", UNFIT[1].why)
WITHOUT = tuple(hole for hole in HOLES if hole.why not in OF_TRIGGERS)
ALTERED = Hole(OF_WHOLE[0] + ATTRIBUTES.replace("{part}", "p.part").replace("{view}", "p.view"), OF_WHOLE[1])
LOG_HOLES = (*WITHOUT[:-1], *starmap(Hole, OF_LOG), ALTERED, WITHOUT[-1])


class Standing(CapturedTables):
    """A night's look at the tables that are captured, and at its own."""

    # ---- the tables of the night and of the application, which are judged where they changed

    def own(self) -> Sql:
        """The tables of the night."""
        tables = [self.script.tables.table(v) for v in range(len(self.script.views))]
        tables += [self.script.tables.table(v, "~changes") for v in self.script.steps.base()]
        return sql("ARRAY[{tables}]::oid[]", tables=joined([sql("to_regclass({table})", table=self.written(table)) for table in tables]))

    def sources(self) -> Sql:
        """The tables that are captured, with their parts and heirs."""
        return sql("ARRAY(SELECT p.part FROM {noted} AS p ORDER BY p.part)", noted=self.parts)

    def print(self) -> Sql:
        """What tells whether all of these are as they were, for this role and these definitions of the views: their columns, whatever may act on
        their rows, keys, parts, names, and values of enumerations, if only of others; and what triggers could not note. A row of the server's
        catalogue that is written anew has the number of another transaction. In which order they come is the server's: where it is another
        one, the tables are judged once more."""
        both, parts = sql("(own || captured)"), (
            "SELECT concat_ws({comma}, CASE WHEN k.oid = ANY (own) THEN k.xmin END, CASE WHEN k.oid = ANY (captured) THEN concat_ws({comma}, k.relname,"
            " k.relnamespace, k.relpersistence, k.relreplident, k.relfilenode, y.xmin, n.xmin) END) FROM pg_class AS k JOIN pg_namespace AS n ON n.oid = k.relnamespace LEFT JOIN"
            " pg_type AS y ON y.oid = k.reltype WHERE k.oid = ANY {both}",
            "SELECT a.xmin FROM pg_attribute AS a WHERE a.attrelid = ANY {both} AND a.attnum > 0",
            "SELECT t.xmin FROM pg_trigger AS t WHERE t.tgrelid = ANY {both}",
            "SELECT x.xmin FROM pg_index AS x WHERE x.indrelid = ANY (captured) AND x.indisunique",
            "SELECT i.xmin FROM pg_inherits AS i WHERE i.inhparent = ANY {both} OR i.inhrelid = ANY {both}",
            "SELECT r.xmin FROM pg_subscription_rel AS r WHERE r.srrelid = ANY (captured)",
            "SELECT e.xmin FROM pg_enum AS e",
            "SELECT o.why FROM {torn} AS o",
        )
        listed = joined([sql("ARRAY(" + part + ")", both=both, comma=text(","), torn=self.torn_table) for part in parts])
        prints = sha256("".join(definitions(self.script.tables).values()).encode()).hexdigest()
        return sql("concat_ws({comma}, current_user, {definitions}, captured, {parts})", comma=text(","), definitions=text(prints), parts=listed)

    def looked_at(self) -> list[Sql]:
        """The tables, and their print."""
        return [sql("own := {own}", own=self.own()), sql("captured := {sources}", sources=self.sources()), sql("seen := {print}", print=self.print())]

    def is_changed(self) -> Sql:
        """Whether they have another print than when they were judged last."""
        return sql("NOT EXISTS (SELECT 1 FROM {judged} AS j WHERE j.print = seen)", judged=self.script.tables.own(JUDGED))

    def judged(self) -> list[Sql]:
        """A refusal of triggers on the night's tables that may change what it writes, since it does not look again."""
        names = joined([text(self.script.tables.said(v)) for v in range(len(self.script.views))])
        acting = sql(
            "SELECT format({told}, k.relname, t.tgname) FROM pg_trigger AS t JOIN pg_class AS k ON k.oid = t.tgrelid"
            " WHERE k.relnamespace = to_regnamespace({schema}) AND k.relname IN ({names}) AND (t.tgtype & 2 = 2 OR NOT t.tgisinternal AND"
            " t.tgconstraint <> 0 OR t.tgisinternal) LIMIT 1",
            told=text("table %s does not fit: the trigger %s may change what a night writes; use one that is fired AFTER and writes elsewhere"),
            schema=self.schema(), names=names,
        )
        return self.dialect.refuse_with(acting)

    def noted_as_judged(self) -> list[Sql]:
        """All passed, as it was seen."""
        judged = self.script.tables.own(JUDGED)
        return [sql("DELETE FROM {judged}", judged=judged), sql("INSERT INTO {judged} VALUES (seen)", judged=judged)]

    # ---- by what definitions the views were filled: in the table of columns each stands by no name

    def opened(self) -> list[Sql]:
        """A refusal of a view that was never filled, or by another definition."""
        listed = [sql("({view}, {print})", view=self.view(v), print=text(said)) for v, said in definitions(self.script.tables).items()]
        unlike = sql(
            "SELECT w.view FROM (VALUES {listed}) AS w (view, print) LEFT JOIN {columns} AS k ON k.view = w.view AND k.name = {none} WHERE k.type <> w.print"
            " OR k.type IS NULL AND NOT EXISTS (SELECT 1 FROM {sizes} AS s WHERE s.view = w.view) LIMIT 1",
            listed=joined(listed), columns=self.columns, none=text(""), sizes=self.script.tables.own(SIZES),
        )
        told = sql("SELECT replace({told}, {hole}, u.view) FROM ({unlike}) AS u", told=text(told_unopened("%s")), hole=text("%s"), unlike=unlike)
        return self.dialect.refuse_with(told) if listed else []

    def others_unfilled(self) -> list[Sql]:
        """Views that are filled and not in this catalogue are filled no more: its nights take changes of which they learn nothing."""
        views = joined([self.view(v) for v in range(len(self.script.views))])
        return [sql("UPDATE {columns} SET type = {none} WHERE name = {none} AND type <> {none} AND view NOT IN ({views})", columns=self.columns,
                    none=text(""), views=views)]

    def whole(self, base: Sequence[int] | None = None) -> list[Sql]:
        """A refusal of a source that is not captured as it was, of all or of those of these views."""
        base, is_there = self.script.steps.base() if base is None else base, self.log.is_there()
        functions = [self.written(sql("{function}()", function=self.function(v))) for v in base]
        by_triggers = self.refused_holes(HOLES, [sql("({view}::text, {made}::regprocedure::oid)", view=self.view(v), made=made) for v, made in zip(base, functions)])
        from_log = self.refused_holes(LOG_HOLES, [sql("({view}::text, NULL::oid)", view=self.view(v)) for v in base])
        return [sql("IF {is_there} THEN {from_log} ELSE {by_triggers} END IF", is_there=is_there, from_log=statements(from_log, 2), by_triggers=statements(by_triggers, 2))]

    def refused_holes(self, holes: Iterable[Hole], rows: Sequence[Sql]) -> list[Sql]:
        """A refusal of what is otherwise, of these views and what notes their changes."""
        told = text("table %s is not captured as it was: %s; run whview sql capture")
        own = {"state": self.state, "columns": self.columns, "noted": self.parts, "torn": self.torn_table, "told": told, "log": self.log.table, **self.texts,
               **self.letters_of_identity()}
        queries = [sql("(" + query + " LIMIT 1)", why=text(why), **own) for query, why in holes]
        query = sql(ALL_BELOW, rows=joined(rows), queries=joined(queries), state=self.state)
        refusal = self.dialect.where(sql("finding IS NOT NULL"), self.dialect.raised(word("finding")))
        return [sql("EXECUTE {query} INTO finding", query=body(query)), refusal]

    def letters_of_identity(self) -> dict[str, Sql]:
        """How the server and the table of the log call what is told of rows."""
        return {"whole": text("f"), "default": text("d"), "by_key": text("key")}
