"""What SQLite says of the tables of a night, judged before anything is changed."""

from __future__ import annotations

from collections.abc import Mapping, Sequence

from .engine import Engine
from .formulas import bracketed
from .tables import Expected, Part, Tables
from .tokens import END_OF_STATEMENT, Sql, joined, name, number, sql, text, word

KNOWN = {
    "night~names": "view, said COLLATE NOCASE",
    "night~columns": "view, place, said COLLATE NOCASE",
    "night~keys": "view, place",
    "night~referred": "view, place, by_delete, by_update",
    "night~spare": "view",
    "night~touched": "view INTEGER PRIMARY KEY, written, removed",
}
# What is counted where a row of a table is touched, by whoever does it.
WRITTEN, REMOVED = "written = written + 1", "removed = removed + 1"
COUNTED = (("INSERT", WRITTEN), ("UPDATE", f"{WRITTEN}, {REMOVED}"), ("DELETE", REMOVED))
# A column's kind by its affinity, and whether it can be NULL: a primary key of one INTEGER column is the row's number.
INT, CHAR, CLOB, TEXT = (f"instr(upper(x.type), {{{said}}}) > 0" for said in ("int", "char", "clob", "text"))
NUMBERED = "x.pk = 1 AND upper(x.type) = {integer} AND (SELECT count(*) FROM pragma_table_xinfo({table}, {schema}) AS y WHERE y.pk > 0) = 1"
WORDS = {said.lower(): text(said) for said in ("INT", "CHAR", "CLOB", "TEXT", "INTEGER")}


class Checks(Part[Engine]):
    """The statements that find out about a script's tables and refuse what does not fit."""

    def __init__(self, tables: Tables[Engine]) -> None:
        super().__init__(tables)
        self.expected = tables.expected()
        self.parts = {said.partition("~")[2]: self.dialect.working(said) for said in KNOWN}

    def query(self, template: str, **parts: Sql) -> Sql:
        return sql(template, schema=text(self.dialect.schema), **self.parts, **WORDS, **parts)

    def refuse(self, told: str, template: str, **parts: Sql) -> list[Sql]:
        return self.dialect.refuse(told, self.query(template, **parts))

    def working_tables(self) -> list[tuple[str, list[Sql]]]:
        return [(said, [sql(columns)]) for said, columns in KNOWN.items()]

    def statements(self, _: Sequence[Sql]) -> list[Sql]:
        """All of them. Nobody else writes from the transaction's beginning on."""
        fits = [each for expected in self.expected for each in self.fits(expected)]
        return [*fits, *self.named(), *(each for v in self.steps.base() for each in self.keys(v)), self.spare(), self.referred()]

    # ---- what fits

    def fits(self, expected: Expected) -> list[Sql]:
        """Refusals of a table that is not as it has to be."""
        table = text(expected.said)
        told = f"table {expected.told} does not fit"
        wanted = ", ".join(f"{said} {'TEXT' if kind == 'text' else 'INTEGER'}" for said, kind in expected.columns)
        there = "EXISTS (SELECT 1 FROM pragma_table_list AS l WHERE l.name = {table} COLLATE NOCASE AND "
        return [
            *self.refuse(
                f"{told}: another database of this connection has a table of this name, which hides it",
                "SELECT 1 WHERE " + there + "(l.schema = {temp} OR (l.schema <> {schema} AND {schema} <> {main})))",
                table=table, temp=text("temp"), main=text("main"),
            ),
            *self.refuse(
                f"there is no table {expected.said} in {self.dialect.schema}: make it, or name another database by --schema",
                "SELECT 1 WHERE NOT " + there + "l.schema = {schema} AND l.type = {kind})", table=table, kind=text("table"),
            ),
            *self.refuse(
                f"{told}: it is WITHOUT ROWID, and a night tells rows by their rowids",
                "SELECT 1 WHERE " + there + "l.schema = {schema} AND l.wr <> 0)", table=table,
            ),
            *self.dialect.refuse(f"{told}: it wants {wanted} , NOT NULL, neither generated nor with COLLATE", self.misfit(expected)),
        ]

    def misfit(self, expected: Expected) -> Sql:
        """A query for a table that lacks a column as it has to be, or has one that hides the rows' numbers, or has other collations."""
        table, tests = text(expected.said), []
        for kinds, test in (("int", "count"), INT), (("text",), f"NOT {INT} AND ({CHAR} OR {CLOB} OR {TEXT})"):
            names = [text(said) for said, kind in expected.columns if kind in kinds]
            if names:
                tests.append(bracketed(self.query("x.name COLLATE NOCASE IN ({listed}) AND " + test, listed=joined(names))))
        return self.query(
            "SELECT 1 WHERE (SELECT count(*) FROM pragma_table_xinfo({table}, {schema}) AS x WHERE x.hidden = 0"
            " AND (x.{notnull} <> 0 OR (" + NUMBERED + ")) AND ({tests})) <> {many}"
            " OR EXISTS (SELECT 1 FROM pragma_table_xinfo({table}, {schema}) AS x WHERE x.name = {number} COLLATE NOCASE)"
            " OR EXISTS (SELECT 1 FROM {own}.sqlite_master AS s WHERE s.type = {kind} AND s.name = {table} COLLATE NOCASE"
            " AND instr(upper(s.sql), {collate}) > 0)",
            table=table, notnull=name("notnull"), tests=joined(tests, "OR"), many=number(len(expected.columns)), number=text("_rowid_"),
            own=name(self.dialect.schema), kind=text("table"), collate=text("COLLATE"),
        )

    # ---- what is known of them

    def filled(self, said: str, rows: Sequence[Sql]) -> list[Sql]:
        return [sql("INSERT INTO {table} VALUES {rows}", table=name(said), rows=joined(rows))] if rows else []

    def named(self) -> list[Sql]:
        """The names of the views' tables and of their columns."""
        names, columns = [], []
        for v, expected in enumerate(self.expected[: len(self.views)]):
            names.append(sql("({v}, {said})", v=number(v), said=text(expected.said)))
            for place, (said, _) in enumerate(expected.columns, 1):
                columns.append(sql("({v}, {place}, {said})", v=number(v), place=number(place), said=text(said)))
        counts = [sql("({v}, 0, 0)", v=number(v)) for v in range(len(self.views))]
        filled = {"night~names": names, "night~columns": columns, "night~touched": counts}
        return [each for said, rows in filled.items() for each in self.filled(said, rows)]

    def keys(self, v: int) -> list[Sql]:
        """The primary key of a base table, or else its least unique index, if all columns are in the catalogue, and not all of these."""
        parts = {"table": text(self.tables.said(v)), "v": number(v), "width": number(self.shape.width(v)), "keys_target": name("night~keys")}
        if v in self.tables.keyed:
            return self.keyed(v, self.tables.keyed[v], parts)
        one = "EXISTS (SELECT 1 FROM {columns} AS c WHERE c.view = {v} AND c.place <= {width} AND c.said = x.name)"
        of_index = "FROM pragma_index_info(l.name, {schema}) AS x"
        return [
            self.query(
                "INSERT INTO {keys_target} SELECT {v}, c.place FROM pragma_table_xinfo({table}, {schema}) AS x JOIN {columns} AS c"
                " ON c.view = {v} AND c.said = x.name WHERE " + NUMBERED + " AND {width} > 1", **parts,
            ),
            self.query(
                "INSERT INTO {keys_target} SELECT {v}, c.place FROM (SELECT l.name AS name FROM pragma_index_list({table}, {schema}) AS l"
                " WHERE l.{unique} = 1 AND l.partial = 0 AND NOT EXISTS (SELECT 1 " + of_index + " WHERE NOT " + one + ")"
                " AND (SELECT count(*) " + of_index + ") < {width} ORDER BY l.origin = {pk} DESC, (SELECT count(*) " + of_index + "), l.seq"
                " LIMIT 1) AS b JOIN pragma_index_info(b.name, {schema}) AS x JOIN {columns} AS c ON c.view = {v} AND c.said = x.name"
                " WHERE NOT EXISTS (SELECT 1 FROM {keys} AS k WHERE k.view = {v})", unique=name("unique"), pk=text("pk"), **parts,
            ),
        ]

    def keyed(self, v: int, places: Sequence[int], parts: Mapping[str, Sql]) -> list[Sql]:
        """The key that is said of a view: its table has to have a unique key of these columns."""
        said = [self.expected[v].columns[place][0] for place in places]
        told = f"table {self.views[v].name} does not fit: --keyed wants an ordinary table with a unique key of {', '.join(said)}"
        listed, rows = joined(list(map(text, said))), joined([sql("({v}, {place})", v=number(v), place=number(place + 1)) for place in places])
        of_index = "(SELECT count(*) FROM pragma_index_info(l.name, {schema}) AS x"
        unfit = (
            "SELECT 1 WHERE NOT EXISTS (SELECT 1 FROM pragma_index_list({table}, {schema}) AS l WHERE l.{unique} = 1 AND l.partial = 0 AND "
            + of_index + ") = {many} AND " + of_index + " WHERE x.name COLLATE NOCASE IN ({listed})) = {many}) AND NOT EXISTS (SELECT 1"
            " FROM pragma_table_xinfo({table}, {schema}) AS x WHERE " + NUMBERED + " AND {many} = 1 AND x.name COLLATE NOCASE IN ({listed}))"
        )
        return [
            *self.refuse(told, unfit, listed=listed, many=number(len(said)), unique=name("unique"), **parts),
            self.query("INSERT INTO {keys_target} VALUES {rows}", rows=rows, **parts),
        ]

    def spare(self) -> Sql:
        """Tables with a column that the catalogue has not and that a new row has no value for."""
        numbered = NUMBERED.replace("{table}", "n.said")
        return self.query(
            "INSERT INTO {target} SELECT n.view FROM {names} AS n JOIN pragma_table_xinfo(n.said, {schema}) AS x WHERE x.hidden = 0"
            " AND x.dflt_value IS NULL AND NOT (" + numbered + ")"
            " AND NOT EXISTS (SELECT 1 FROM {columns} AS c WHERE c.view = n.view AND c.said = x.name)", target=name("night~spare"),
        )

    def referred(self) -> Sql:
        """Foreign keys in force that change other rows where a row of a table goes or its key changes, column by column."""
        acts = joined([text(said) for said in ("CASCADE", "SET NULL", "SET DEFAULT")])
        return self.query(
            "INSERT INTO {target} SELECT n.view, c.place, f.on_delete IN ({acts}), f.on_update IN ({acts}) FROM {names} AS n"
            " JOIN pragma_table_list AS l ON l.schema = {schema} AND l.type = {kind} JOIN pragma_foreign_key_list(l.name, {schema}) AS f"
            " ON n.said = f.{table_name} LEFT JOIN {columns} AS c ON c.view = n.view AND c.said = coalesce(f.{to_name}, (SELECT x.name"
            " FROM pragma_table_xinfo(n.said, {schema}) AS x WHERE x.pk = f.seq + 1))"
            " WHERE (f.on_delete IN ({acts}) OR f.on_update IN ({acts})) AND (SELECT p.foreign_keys FROM pragma_foreign_keys AS p) = 1",
            target=name("night~referred"), acts=acts, kind=text("table"), table_name=name("table"), to_name=name("to"),
        )

    def watchers(self) -> dict[str, Sql]:
        """The triggers that count what rows of a table are touched, by their names."""
        found = {}
        for v, view in enumerate(self.views):
            for event, counts in COUNTED:
                found[f"night~{event.lower()}{v}"] = sql(
                    "AFTER {event} ON {table} BEGIN UPDATE {touched} SET " + counts + " WHERE view = {v}{end} END",
                    event=word(event), table=self.tables.table(v), touched=name("night~touched"), v=number(v), end=END_OF_STATEMENT,
                )
        return found

    def untouched(self, v: int, told: str, written: Sql, removed: Sql) -> list[Sql]:
        """A refusal where other rows were written or removed than these numbers of them."""
        return self.refuse(
            told, "SELECT 1 FROM {touched} AS b WHERE b.view = {v} AND (b.written <> {written} OR b.removed <> {removed})",
            v=number(v), written=written, removed=removed,
        )

    # ---- what steps ask

    def spared(self, v: int, coming: Sql) -> list[Sql]:
        told = f"table {self.views[v].name} does not fit: a row comes, and a column that the catalogue has not has no default"
        return self.refuse(told, "SELECT 1 FROM {spare} AS s WHERE s.view = {v} AND EXISTS ({coming})", v=number(v), coming=coming)

    def cascades(self, v: int, gone: Sql, moved: Sql) -> list[Sql]:
        told = f"refused cascade {self.views[v].name}: a foreign key to it would delete or change other rows; make it NO ACTION"
        return self.refuse(
            told,
            "SELECT 1 FROM {referred} AS r WHERE r.view = {v} AND ((r.by_delete AND EXISTS ({gone})) OR (r.by_update AND EXISTS ({moved})))",
            v=number(v), gone=gone, moved=moved,
        )
