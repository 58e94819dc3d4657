"""What PostgreSQL's catalogue says of the tables of a night, judged before anything is changed."""

from __future__ import annotations

from collections.abc import Iterable, Sequence

from .engine import Engine
from .plpgsql import created, refuse_with
from .tables import Part, Tables
from .tokens import Sql, joined, name, number, sql, text

# The tables of what is known of a night's tables: their names and columns, the tables themselves, and those below them. Where texts are bounded,
# PostgreSQL makes no second table and its index for long ones.
KNOWN = {
    "night~names": "number int, role varchar(9), told varchar(80), said name",
    "night~columns": "number int, place int, said name, kind varchar(9)",
    "night~tables": "number int, role varchar(9), told varchar(80), relation oid",
    "night~parts": "number int, told varchar(80), relation oid",
}
# How many rows of each table this transaction wrote, and how many it removed, where the server counts.
TOUCHED = (
    "SELECT p.number, sum(pg_stat_get_xact_tuples_inserted(p.relation) + pg_stat_get_xact_tuples_updated(p.relation)),"
    " sum(pg_stat_get_xact_tuples_deleted(p.relation) + pg_stat_get_xact_tuples_updated(p.relation)) FROM {parts} AS p GROUP BY p.number"
)
KINDS = {"int": "bigint", "text": "text", "count": "bigint"}


def cast(said: str, kind: str) -> Sql:
    return sql(f"{{said}}::{kind}", said=text(said))


def rows_of(rows: Sequence[list[Sql]]) -> Sql:
    return joined([sql("({row})", row=joined(row)) for row in rows])


def known(said: str) -> Sql:
    return sql("pg_temp.{table}", table=name(said))


class Checks(Part[Engine]):
    """The statements that find out about a script's tables and refuse what does not fit."""

    def __init__(self, tables: Tables[Engine]) -> None:
        super().__init__(tables)
        self.expected = tables.expected()
        self.parts = {said.partition("~")[2]: known(said) for said in KNOWN}

    def query(self, template: str, **parts: Sql) -> Sql:
        return sql(template, schema=text(self.dialect.schema), **{**self.parts, **parts})

    def working_tables(self) -> list[tuple[str, list[Sql]]]:
        """Those of the checks are made by themselves, before the others."""
        return []

    def statements(self, locked: Sequence[Sql]) -> list[Sql]:
        """All of them; from the lock on nobody else writes."""
        return [*self.known_tables(), *self.named(), *self.missing(), self.lock(locked), *self.dialect.deferred(), *self.found(), *self.misfits()]

    def known_tables(self) -> list[Sql]:
        return [created(name(said), [sql(columns)]) for said, columns in KNOWN.items()]

    def named(self) -> list[Sql]:
        """The names and columns that are expected."""
        return [
            self.query("INSERT INTO {names} VALUES {rows}", rows=rows_of(self.names())),
            self.query("INSERT INTO {columns} VALUES {rows}", rows=rows_of(self.columns())),
        ]

    def names(self) -> list[list[Sql]]:
        """Of each table that is expected its number, role, what it is called, and its name."""
        return [[number(at), text(each.role), text(each.told), cast(each.said, "name")] for at, each in enumerate(self.expected)]

    def columns(self) -> list[list[Sql]]:
        """Of each of its columns the table's number, its place, name and kind."""
        return [[number(at), number(place), cast(said, "name"), text(KINDS[kind])]
                for at, each in enumerate(self.expected) for place, (said, kind) in enumerate(each.columns, 1)]

    def missing(self) -> list[Sql]:
        """A refusal of names under which no table stands, or something else than a table."""
        none = "there is no table %s in the schema %s: make it, or name another schema by --schema"
        other = "table %s does not fit: it is no ordinary or partitioned table"
        return refuse_with(
            self.query(
                "SELECT CASE WHEN c.oid IS NULL THEN format({none}, w.said, {schema}) ELSE format({other}, w.told) END FROM {names} AS w"
                " LEFT JOIN pg_class AS c ON c.relname = w.said AND c.relnamespace = (SELECT s.oid FROM pg_namespace AS s WHERE s.nspname = {schema})"
                " WHERE c.oid IS NULL OR c.relkind NOT IN {kinds} ORDER BY c.oid IS NOT NULL, w.number LIMIT 1",
                none=text(none), other=text(other), kinds=sql("({r}, {p})", r=text("r"), p=text("p")),
            )
        )

    def lock(self, locked: Sequence[Sql]) -> Sql:
        """Writers wait from here on; readers go on with the contents before."""
        return sql("LOCK TABLE {tables} IN EXCLUSIVE MODE", tables=joined(locked))

    def found(self) -> list[Sql]:
        """The tables and those below them."""
        return [
            self.query(
                "INSERT INTO {tables} SELECT w.number, w.role, w.told, c.oid FROM {names} AS w JOIN pg_class AS c ON c.relname = w.said"
                " JOIN pg_namespace AS s ON s.oid = c.relnamespace AND s.nspname = {schema}"
            ),
            self.query(
                "INSERT INTO {parts} WITH RECURSIVE below (number, told, relation) AS (SELECT t.number, t.told, t.relation"
                " FROM {tables} AS t"
                " UNION SELECT b.number, b.told, i.inhrelid FROM below AS b JOIN pg_inherits AS i ON i.inhparent = b.relation)"
                " SELECT b.number, b.told, b.relation FROM below AS b"
            ),
            *self.dialect.filled(self.parts["tables"]),
            *self.dialect.filled(self.parts["columns"]),
            *self.dialect.filled(self.parts["parts"]),
        ]

    def without_key(self, v: int, places: Iterable[int]) -> Sql:
        """A query for what is told where a table has not the key that is said of its view: it has to be an ordinary one with a unique key of
        these columns."""
        said = [self.expected[v].columns[place][0] for place in places]
        told = f"table %s does not fit: --keyed wants an ordinary table with a unique key of {', '.join(said)}"
        return self.query(
            "SELECT format({told}, t.told) FROM {tables} AS t JOIN pg_class AS c ON c.oid = t.relation WHERE t.number = {v} AND (c.relkind <> {r}"
            " OR EXISTS (SELECT 1 FROM pg_inherits AS i WHERE i.inhparent = c.oid OR i.inhrelid = c.oid) OR NOT EXISTS (SELECT 1"
            " FROM pg_index AS i WHERE i.indrelid = c.oid AND i.indisunique AND i.indisvalid AND i.indpred IS NULL AND i.indexprs IS NULL"
            " AND i.indnkeyatts = {many} AND NOT EXISTS (SELECT 1 FROM generate_series(0, i.indnkeyatts - 1) AS k JOIN pg_attribute AS a"
            " ON a.attrelid = i.indrelid AND a.attnum = i.indkey[k] WHERE a.attname NOT IN ({listed}))))",
            told=text(told), v=number(v), r=text("r"), many=number(len(said)), listed=joined(list(map(text, said))),
        )

    def spare(self) -> Sql:
        """A query for columns that the catalogue has not and that a new row has no value for."""
        return self.query(
            "SELECT t.number AS view, a.attname AS told FROM {tables} AS t JOIN pg_attribute AS a ON a.attrelid = t.relation"
            " JOIN pg_type AS y ON y.oid = a.atttypid WHERE t.role <> {changes} AND a.attnum > 0 AND NOT a.attisdropped AND NOT a.atthasdef"
            " AND a.attidentity = {none} AND y.typdefault IS NULL"
            " AND NOT EXISTS (SELECT 1 FROM {columns} AS w WHERE w.number = t.number AND w.said = a.attname)",
            changes=text("changes"), none=text(""),
        )

    def referred(self) -> Sql:
        """A query for foreign keys to the tables that change other rows where a row goes or its key changes, column by column."""
        acts = sql("({c}, {n}, {d})", c=text("c"), n=text("n"), d=text("d"))
        return self.query(
            "SELECT p.number AS view, w.place, f.conname AS told, f.confdeltype IN {acts} AS by_delete, f.confupdtype IN {acts} AS by_update"
            " FROM {parts} AS p JOIN pg_constraint AS f ON f.confrelid = p.relation AND f.contype = {foreign}"
            " AND (f.confdeltype IN {acts} OR f.confupdtype IN {acts}) CROSS JOIN LATERAL unnest(f.confkey) AS k"
            " JOIN pg_attribute AS a ON a.attrelid = f.confrelid AND a.attnum = k"
            " LEFT JOIN {columns} AS w ON w.number = p.number AND w.said = a.attname",
            acts=acts, foreign=text("f"),
        )

    def misfits(self) -> list[Sql]:
        """Refusals of tables on which a night would not do what it says."""
        return [each for query in self.unfit() for each in refuse_with(query)]

    def unfit(self) -> list[Sql]:
        """Queries for what is told of such tables, by their columns and by what they are, the first fault of any."""
        tests = {
            "a table below it is no ordinary or partitioned table": sql("c.relkind NOT IN ({r}, {p})", r=text("r"), p=text("p")),
            "row-level security hides rows of it from this role": sql("row_security_active(c.oid)"),
            "it has a rule, which would change what a night does; drop the rule": sql("EXISTS (SELECT 1 FROM pg_rewrite AS r WHERE r.ev_class = c.oid)"),
        }
        faults = joined([sql("WHEN {test} THEN {at}", test=test, at=number(at)) for at, test in enumerate(tests.values(), 1)], "")
        told = joined([sql("WHEN {at} THEN {said}", at=number(at), said=text(said)) for at, said in enumerate(tests, 1)], "")
        unfit = self.query(
            "SELECT format({sentence}, u.told, CASE u.fault {told} END) FROM (SELECT p.number, p.told, CASE {faults} END AS fault FROM {parts} AS p"
            " JOIN pg_class AS c ON c.oid = p.relation) AS u WHERE u.fault IS NOT NULL ORDER BY u.fault, u.number LIMIT 1",
            sentence=text("table %s does not fit: %s"), told=told, faults=faults,
        )
        return [self.misfit(), unfit]

    def misfit(self) -> Sql:
        """Columns that are not as they have to be, with what they are."""
        has = (
            "CASE WHEN a.attname IS NULL THEN {nothing} WHEN NOT a.attnotnull THEN {null} WHEN a.attgenerated <> {none} OR a.attidentity = {a}"
            " THEN {generated} ELSE format_type(a.atttypid, a.atttypmod) END"
        )
        sound = (
            "a.attnotnull AND a.attgenerated = {none} AND a.attidentity <> {a} AND a.atttypmod = -1 AND a.atttypid ="
            " ANY (CASE w.kind WHEN {text} THEN {texts}::regtype[] ELSE {numbers}::regtype[] END)"
            " AND coalesce(c.collname IN {collations} AND c.collisdeterministic, TRUE)"
        )
        return self.query(
            "SELECT format({sentence}, t.told, string_agg(format({each}, w.said, w.kind, " + has + "), {comma} ORDER BY w.place))"
            " FROM {tables} AS t JOIN {columns} AS w ON w.number = t.number LEFT JOIN pg_attribute AS a ON a.attrelid = t.relation"
            " AND a.attname = w.said AND a.attnum > 0 AND NOT a.attisdropped LEFT JOIN pg_collation AS c ON c.oid = a.attcollation"
            " WHERE NOT coalesce(" + sound + ", FALSE) GROUP BY t.number, t.told ORDER BY t.number LIMIT 1",
            sentence=text("table %s does not fit: it wants %s, NOT NULL, of a type that alters no value and of a deterministic collation"),
            each=text("%s %s (there is %s)"), comma=text(", "), nothing=text("nothing"), null=text("one that may be NULL"), none=text(""),
            a=text("a"), generated=text("a generated one"), text=text("text"), texts=text("{text,varchar}"), numbers=text("{int2,int4,int8}"),
            collations=sql("({c}, {default})", c=text("C"), default=text("default")),
        )

    # ---- what steps ask

    def watchers(self) -> dict[str, Sql]:
        """The server counts by itself."""
        return {}

    def watched(self) -> Sql:
        """Whether a trigger of somebody else's may change what is installed, or the server does not count what is touched."""
        return self.query(
            "EXISTS (SELECT 1 FROM {parts} AS p JOIN pg_trigger AS t ON t.tgrelid = p.relation WHERE NOT t.tgisinternal)"
            " OR current_setting({key}) <> {on}", key=text("track_counts"), on=text("on"),
        )

    def all_untouched(self, expected: Sequence[tuple[int, str, Sql, Sql]]) -> list[Sql]:
        """A refusal where other rows were written or removed than are expected: of each table what is told, and how many of both."""
        rows = joined([sql("({v}, {told}, {written}, {removed})", v=number(v), told=text(told), written=written, removed=removed)
                       for v, told, written, removed in expected])
        return refuse_with(
            self.query(
                "SELECT w.told FROM (VALUES {rows}) AS w (view, told, written, removed) JOIN {touched} AS b ON b.view = w.view"
                " JOIN (" + TOUCHED + ") AS a (view, written, removed) ON a.view = w.view WHERE (a.written - b.written <> w.written"
                " OR a.removed - b.removed <> w.removed) AND current_setting({key}) = {on} ORDER BY w.view LIMIT 1",
                rows=rows, key=text("track_counts"), on=text("on"),
            )
        ) if expected else []

    def cascading(self, v: int, gone: Sql, moved: Sql) -> Sql:
        """A query for what is told of such a foreign key."""
        told = "refused cascade %s: the foreign key %s to it would delete or change other rows; make it NO ACTION"
        return self.query(
            "SELECT format({told}, {view}::text, min(r.told)) FROM {referred} AS r WHERE r.view = {v}"
            " AND ((r.by_delete AND EXISTS ({gone}))"
            " OR (r.by_update AND EXISTS ({moved}))) HAVING count(*) > 0",
            told=text(told), view=text(self.views[v].name), v=number(v), gone=gone, moved=moved,
        )
