"""An application's database as it is asked: PostgreSQL through psql, which finds the server as it always does, or a file of SQLite."""

from __future__ import annotations

import json
import re
import sqlite3
import subprocess
import time
from collections.abc import Iterable, Sequence
from pathlib import Path
from typing import TYPE_CHECKING, Any, NamedTuple, TypeAlias

from ..postgresql import PATH
from ..tokens import END_OF_STATEMENT, Sql, Unfit, joined, name, name_of, sql, text
from .session import PostgreSQLSession, SQLiteSession
from .turned import DIGITS, Told, form_of, has_form

if TYPE_CHECKING:
    from .postgresql import LivePostgreSQL
    from .sqlite import LiveSQLite

# What is written through a parent fires no trigger of its heirs.
HEIR = "it inherits from {parent}, through which its rows may change unnoticed: capture {parent}, whose rows they are too"

# The rows of an answer, whose cells are what JSON or SQLite has: who asks knows their kinds, and makes of each row what it is.
Rows: TypeAlias = list[list[Any]]


class Table(NamedTuple):
    """An ordinary or partitioned table: its columns, its keys without NULLs, the primary one first and then the narrowest, by names, why it cannot
    be captured, or None, and whether it is partitioned."""

    name: str
    columns: list[Told]
    keys: list[list[str]]
    unfit: str | None = None
    is_parted: bool = False


class Standing(NamedTuple):
    """A column of a table that is there, and its type."""

    table: str
    column: str
    type: str


class Indexed(NamedTuple):
    """A column of an index that is there, and whether its digest stands there for it."""

    said: str
    column: str
    is_digest: bool = False


class ColumnRow(NamedTuple):
    """What a server answers of a column: its table, what that inherits from and whether it is partitioned; and then what is told of the column."""

    table: str
    parent: str | None
    is_parted: bool
    name: str
    shown: str
    type: str
    modifier: int
    may_be_null: bool
    is_folded: bool
    number: int
    own_number: int
    place: int
    described: str
    relation: int

    def told(self) -> Told:
        """What is told of the column; the digits and places of a number stand in what modifies its type."""
        is_bounded = self.modifier >= 4
        digits, places = ((self.modifier - 4) >> 16 & 0xFFFF, self.modifier - 4 & 0x7FF) if is_bounded else (None, None)
        return Told(self.name, self.shown, self.type, digits, places, self.may_be_null, self.is_folded, self.number, self.own_number, self.place,
                    self.described, self.modifier, relation=self.relation)


class FileColumn(NamedTuple):
    """What a file says of a column: its name, its declared type, whether it is NOT NULL, and its place in the primary key, from 1, or 0."""

    name: str
    type: str
    is_filled: int
    place: int


class UniqueColumn(NamedTuple):
    """A column of a unique index, or None for an expression; by what collation it is compared; and whether REPLACE puts another value in the place
    of a NULL there."""

    name: str | None
    collation: str
    is_filled: bool


class PostgreSQLAsked:
    """A database of a PostgreSQL server: the name or the address that psql takes, or what it takes by itself."""

    own_schema = "public"

    def __init__(self, address: str, dialect: LivePostgreSQL) -> None:
        self.address, self.dialect = address, dialect

    def command(self) -> list[str]:
        """The words that psql is begun with."""
        where = [self.address] if self.address else []
        return ["psql", "-X", "-q", "-A", "-t", "-v", "ON_ERROR_STOP=1", *where]

    def run(self, lines: Iterable[Sql]) -> str:
        """What statements print."""
        set_before = ["SET client_min_messages = warning;", f"SET search_path = {PATH};", *self.dialect.owner.session()]
        given = "\n".join([*self.dialect.head, *set_before, *self.dialect.written(lines), ""])
        try:
            ran = subprocess.run(self.command(), input=given.encode(), capture_output=True, check=False)
        except OSError as fault:
            raise Unfit(f"psql cannot be run: {fault.strerror}") from fault
        if ran.returncode:
            told = ran.stderr.decode(errors="replace").strip().split("\n")
            raise Unfit(f"the database says: {' '.join(told)[:600]}")
        return ran.stdout.decode()

    def put(self, lines: Sequence[Sql]) -> None:
        """Statements that write."""
        self.run(lines)

    def rows(self, *queries: Sql, before: Sequence[Sql] = (), after: Sequence[Sql] = ()) -> list[Rows]:
        """The rows of each query, whose columns are listed in it as an array of JSON, between other statements."""
        marked = [sql("{each}{end}", each=each, end=END_OF_STATEMENT) for query in queries for each in (query, sql("SELECT {mark}", mark=text("--")))]
        found: list[Rows] = [[]]
        for line in self.run([*before, *marked, *after]).split("\n")[:-1]:
            if line == "--":
                found.append([])
            else:
                found[-1].append(json.loads(line))
        return found[:-1]

    def tables(self, schema: str, names: Sequence[str] | None = None) -> dict[str, Table]:
        """The tables of a schema, by their names."""
        chosen = sql("AND c.relname IN ({names})", names=joined(list(map(text, names)))) if names else sql("")
        of = sql(
            "pg_class AS c JOIN pg_namespace AS s ON s.oid = c.relnamespace AND s.nspname = {schema} WHERE c.relkind IN ({kinds})"
            " AND NOT c.relispartition {chosen}", schema=text(schema), kinds=joined([text("r"), text("p")]), chosen=chosen,
        )
        columns, keys = self.rows(self.columns_query(of), self.keys_query(of))
        found: dict[str, Table] = {}
        for column in (ColumnRow(*row) for row in columns):
            unfit = HEIR.format(parent=column.parent) if column.parent else None
            found.setdefault(column.table, Table(column.table, [], [], unfit, column.is_parted)).columns.append(column.told())
        for table, key in keys:
            found[table].keys.append(key)
        return found

    def views(self, schema: str) -> dict[str, str]:
        """The views of a schema with their texts, kept ones and others, by their names; each table stands there with its schema."""
        query = sql(
            "SELECT json_build_array(c.relname, pg_get_viewdef(c.oid)) FROM pg_class AS c JOIN pg_namespace AS s ON s.oid = c.relnamespace"
            " WHERE s.nspname = {schema} AND c.relkind IN ({kinds}) ORDER BY c.relname", schema=text(schema), kinds=joined([text("v"), text("m")]),
        )
        return {said: defined for said, defined in self.rows(query)[0]}

    # ---- the tables of the nights

    def is_there(self, table: Sql) -> bool:
        """Whether a table of the nights is there."""
        found = self.rows(sql("SELECT to_json(to_regclass({table}) IS NOT NULL)", table=text(self.dialect.written([table])[0])))
        return bool(found[0][0])

    def schema(self) -> Sql:
        """The schema of the nights as it is written, as a text."""
        return text(self.dialect.written([name(self.dialect.schema)])[0])

    def is_of(self, role: str) -> bool:
        """Whether what stands is a role's."""
        query = sql("SELECT json_build_array(r.rolname) FROM pg_namespace AS n JOIN pg_roles AS r ON r.oid = n.nspowner WHERE n.oid = to_regnamespace({schema})",
                    schema=self.schema())
        return self.rows(query)[0] == [[role]]

    def standing_columns(self, names: Sequence[str]) -> list[Standing]:
        """The columns of these of the nights' tables."""
        query = sql(
            "SELECT json_build_array(k.relname, a.attname, format_type(a.atttypid, a.atttypmod)) FROM pg_class AS k JOIN pg_attribute AS a ON a.attrelid = k.oid"
            " AND a.attnum > 0 AND NOT a.attisdropped WHERE k.relnamespace = to_regnamespace({schema}) AND k.relname IN ({names}) ORDER BY a.attnum",
            schema=self.schema(), names=joined(list(map(text, names))),
        )
        return [Standing(*row) for row in self.rows(query)[0]]

    def standing_indexes(self, names: Sequence[str]) -> list[Indexed]:
        """The columns of the indexes of these of the nights' tables."""
        query = sql(
            "SELECT json_build_array(x.relname, pg_get_indexdef(i.indexrelid, a.attnum, FALSE)) FROM pg_index AS i JOIN pg_class AS k ON k.oid = i.indrelid"
            " JOIN pg_class AS x ON x.oid = i.indexrelid JOIN pg_attribute AS a ON a.attrelid = i.indexrelid"
            " WHERE k.relnamespace = to_regnamespace({schema}) AND k.relname IN ({names}) ORDER BY a.attnum",
            schema=self.schema(), names=joined(list(map(text, names))),
        )
        return [indexed(*row) for row in self.rows(query)[0]]

    def session(self, is_writing: bool, is_noting: bool = False) -> PostgreSQLSession:
        """A transaction of it."""
        return PostgreSQLSession(self, is_writing, is_noting)

    def rolled_back(self, lines: Sequence[Sql], asked: Sequence[Sql]) -> list[Rows]:
        """The answers of queries behind statements, which are rolled back."""
        return self.rows(*asked, before=lines, after=[sql("ROLLBACK{end}", end=END_OF_STATEMENT)])

    # ---- what is asked of the application's tables

    def columns_query(self, of: Sql) -> Sql:
        """Each column by its base type: an enumeration's is told as such, unless a domain hides whether its values are renamed."""
        return sql(
            "WITH RECURSIVE b (relation, place, type, modifier, nothing) AS (SELECT a.attrelid, a.attnum, a.atttypid, a.atttypmod,"
            " NOT a.attnotnull FROM pg_attribute AS a WHERE a.attnum > 0 AND NOT a.attisdropped AND a.attrelid IN (SELECT c.oid FROM {of})"
            " UNION ALL SELECT b.relation, b.place, t.typbasetype, CASE WHEN b.modifier = -1 THEN t.typtypmod ELSE b.modifier END,"
            " b.nothing AND NOT t.typnotnull FROM b JOIN pg_type AS t ON t.oid = b.type AND t.typtype = {domain})"
            " SELECT json_build_array(c.relname, (SELECT min(i.inhparent::regclass::text) FROM pg_inherits AS i WHERE i.inhrelid = c.oid), c.relkind = {parted},"
            " a.attname, format_type(a.atttypid, a.atttypmod), CASE WHEN t.typtype = {of_enum} AND t.oid = a.atttypid THEN {enum}"
            " WHEN n.nspname <> {own} THEN {other} ELSE t.typname END, b.modifier, b.nothing,"
            " EXISTS (SELECT 1 FROM pg_collation AS l WHERE l.oid = a.attcollation AND NOT l.collisdeterministic), t.oid::bigint, a.atttypid::bigint,"
            " a.attnum, pg_describe_object({classes}::regclass, a.attrelid, a.attnum), a.attrelid::bigint)"
            " FROM b JOIN pg_type AS t ON t.oid = b.type JOIN pg_namespace AS n ON n.oid = t.typnamespace"
            " JOIN pg_attribute AS a ON a.attrelid = b.relation AND a.attnum = b.place JOIN pg_class AS c ON c.oid = b.relation"
            " WHERE t.typtype <> {domain} ORDER BY c.relname, a.attnum",
            of=of, domain=text("d"), of_enum=text("e"), enum=text("enum"), own=text("pg_catalog"), other=text(""), parted=text("p"),
            classes=text("pg_class"),
        )

    def keys_query(self, of: Sql) -> Sql:
        """The unique indexes over columns without NULLs, for each table the primary key first, and then the narrowest. Heirs' rows are not in
        the indexes of a table."""
        return sql(
            "SELECT json_build_array(c.relname, (SELECT json_agg(a.attname ORDER BY k) FROM generate_series(0, i.indnkeyatts - 1) AS k"
            " JOIN pg_attribute AS a ON a.attrelid = i.indrelid AND a.attnum = i.indkey[k])) FROM pg_index AS i"
            " JOIN pg_class AS c ON c.oid = i.indrelid WHERE c.oid IN (SELECT c.oid FROM {of}) AND i.indisunique AND i.indisvalid"
            " AND (c.relkind = {parted} OR NOT EXISTS (SELECT 1 FROM pg_inherits AS h WHERE h.inhparent = c.oid))"
            " AND i.indpred IS NULL AND i.indexprs IS NULL AND NOT EXISTS (SELECT 1 FROM generate_series(0, i.indnkeyatts - 1) AS k"
            " JOIN pg_attribute AS a ON a.attrelid = i.indrelid AND a.attnum = i.indkey[k] WHERE NOT a.attnotnull)"
            " ORDER BY c.relname, i.indisprimary DESC, i.indnkeyatts, i.indexrelid",
            of=of, parted=text("p"),
        )


# How PostgreSQL writes the digest of a column, of which an index has an expression.
OF_DIGEST = re.compile(r'octet_length\(("(?:[^"]|"")*"|[^()]*)\)')


def indexed(index: str, said: str) -> Indexed:
    """The column of an index, of which PostgreSQL tells the name or an expression."""
    found = OF_DIGEST.search(said)
    column = found[1] if found else said
    column = column[1:-1].replace('""', '"') if column.startswith('"') else column
    return Indexed(index, column, found is not None)


class SQLiteAsked:
    """A file of SQLite, which is read, and written where that is said."""

    own_schema = "main"

    def __init__(self, address: str, dialect: LiveSQLite) -> None:
        if not address or not Path(address).is_file():
            raise Unfit(f"--database names the file of the tables, and {address or 'none'} is none")
        self.address, self.dialect = address, dialect

    def rows(self, *queries: Sql) -> list[Rows]:
        """The rows of each query."""
        found = sqlite3.connect(f"{Path(self.address).resolve().as_uri()}?mode=ro", uri=True)
        try:
            return [[list(row) for row in found.execute(self.dialect.written([query])[0])] for query in queries]
        except sqlite3.Error as fault:
            raise Unfit(f"{self.address}: {fault}") from fault
        finally:
            found.close()

    def put(self, lines: Sequence[Sql]) -> None:
        """Statements that write, in a transaction of their own."""
        database = sqlite3.connect(self.address, isolation_level=None, timeout=60)
        try:
            for line in self.dialect.written(lines):
                database.execute(line)
        except sqlite3.Error as fault:
            raise Unfit(f"{self.address}: {fault}") from fault
        finally:
            database.close()

    def session(self, is_writing: bool, is_noting: bool = False) -> SQLiteSession:
        """A transaction of it, which has nothing to note before it compares."""
        return SQLiteSession(self, is_writing)

    def rolled_back(self, lines: Sequence[Sql], asked: Sequence[Sql]) -> list[Rows]:
        """The answers of queries behind statements, which are rolled back. SQLite tells no time while a statement runs, so this process does."""
        database = sqlite3.connect(self.address, isolation_level=None, timeout=60)
        database.create_function("moment", 0, time.monotonic)
        try:
            for line in self.dialect.written(lines):
                database.execute(line)
            return [[list(row) for row in database.execute(query)] for query in self.dialect.written(asked)]
        except sqlite3.Error as fault:
            raise Unfit(f"the database says: {fault}") from fault
        finally:
            if database.in_transaction:
                database.rollback()
            database.close()

    # ---- the tables of the nights

    def is_there(self, table: Sql) -> bool:
        """Whether a table of the nights is there."""
        return name_of(table).lower() in self.names()

    def standing_columns(self, names: Sequence[str]) -> list[Standing]:
        """The columns of these of the nights' tables."""
        query = sql("SELECT s.name, x.name, x.type FROM {schema}.sqlite_master AS s JOIN pragma_table_xinfo(s.name) AS x WHERE s.type = {table}"
                    " AND s.name IN ({names}) ORDER BY x.cid", schema=name(self.dialect.schema), table=text("table"), names=joined(list(map(text, names))))
        return [Standing(*row) for row in self.rows(query)[0]]

    def standing_indexes(self, names: Sequence[str]) -> list[Indexed]:
        """The columns of the indexes of these of the nights' tables."""
        query = sql("SELECT s.name, x.name FROM {schema}.sqlite_master AS s JOIN pragma_index_info(s.name) AS x WHERE s.type = {index}"
                    " AND s.tbl_name IN ({names}) ORDER BY x.seqno", schema=name(self.dialect.schema), index=text("index"), names=joined(list(map(text, names))))
        return [Indexed(*row) for row in self.rows(query)[0]]

    # ---- the application's tables

    def tables(self, schema: str, names: Sequence[str] | None = None) -> dict[str, Table]:
        """The tables of the file, by their names."""
        listed = self.rows(sql("SELECT l.name FROM pragma_table_list AS l WHERE l.schema = {main} AND l.type = {kind} ORDER BY l.name",
                               main=text("main"), kind=text("table")))[0]
        own = [said for said, in listed if not said.startswith("sqlite_") and (names is None or said in names)]
        return {said: self.table(said) for said in own}

    def views(self, schema: str) -> dict[str, str]:
        """The views of the file, each with the statement that makes it, by their names."""
        made = self.rows(sql("SELECT s.name, s.sql FROM sqlite_master AS s WHERE s.type = {view} ORDER BY s.rowid", view=text("view")))[0]
        return {said: defined for said, defined in made}

    def table(self, said: str) -> Table:
        """A table of the file."""
        listed, indexes = self.rows(
            sql("SELECT x.name, x.type, x.{notnull}, x.pk FROM pragma_table_xinfo({table}) AS x WHERE x.hidden <> 1 ORDER BY x.cid",
                notnull=name("notnull"), table=text(said)),
            sql("SELECT l.name, l.origin = {primary}, l.partial FROM pragma_index_list({table}) AS l WHERE l.{unique} = 1"
                " ORDER BY l.origin <> {primary}, l.seq", table=text(said), unique=name("unique"), primary=text("pk")),
        )
        columns = [FileColumn(*row) for row in listed]
        names = [column.name for column in columns]
        primary = [column.name for column in sorted(columns, key=lambda column: column.place) if column.place]
        is_rowid = len(primary) == 1 and next(column.type for column in columns if column.name == primary[0]).upper() == "INTEGER"
        try:
            folded = self.folded(said, names)
        except (sqlite3.Error, Unfit) as fault:
            return Table(said, [], [], f"its columns cannot be compared: {fault}")
        told = [self.told(said, column, is_rowid and column.name == primary[0], column.name in folded) for column in columns]
        filled = {each.name for each in told if not each.may_be_null}
        keys = [primary] if primary and filled.issuperset(primary) else []
        keys += [key for key in map(self.indexed, [index for index, _, partial in indexes if not partial]) if key and filled.issuperset(key)]
        return Table(said, told, keys, self.unfit(said, names))

    def unfit(self, table: str, columns: Sequence[str]) -> str | None:
        """Why rows cannot be told by their numbers, or None."""
        if self.is_without_rowid(table):
            return "it is WITHOUT ROWID"
        return "its column _rowid_ hides the numbers of the rows" if "_rowid_" in map(str.lower, columns) else None

    def columns(self, table: str) -> list[str]:
        """The names of a table's columns."""
        return [said for said, in self.rows(sql("SELECT x.name FROM pragma_table_xinfo({table}) AS x ORDER BY x.cid", table=text(table)))[0]]

    def indexed(self, index: str) -> list[str]:
        """The columns of an index, or none where it is over more than columns."""
        columns = [column for column, in self.rows(sql("SELECT x.name FROM pragma_index_info({index}) AS x ORDER BY x.seqno", index=text(index)))[0]]
        return columns if None not in columns else []

    def folded(self, table: str, columns: Sequence[str]) -> set[str]:
        """The columns that are compared otherwise than byte by byte, which a table of the same text tells where nothing is changed by asking."""
        ((made,),) = self.rows(sql("SELECT s.sql FROM sqlite_master AS s WHERE s.type = {kind} AND s.name = {table}", kind=text("table"), table=text(table)))[0]
        copy, found = sqlite3.connect(":memory:"), set[str]()
        try:
            copy.execute(made)
            for column in columns:
                indexed = sql("CREATE INDEX {index} ON {table} ({column})", index=name("by column"), table=name(table), column=name(column))
                copy.execute(self.dialect.written([indexed])[0])
                ((collation,),) = copy.execute("SELECT coll FROM pragma_index_xinfo('by column') WHERE key = 1").fetchall()
                found |= {column} if collation != "BINARY" else set()
                copy.execute('DROP INDEX "by column"')
        finally:
            copy.close()
        return found

    def told(self, table: str, column: FileColumn, is_rowid: bool, is_folded: bool) -> Told:
        """What the file says of a column."""
        digits = DIGITS.fullmatch(column.type.upper())
        wide, places = (int(digits[1]), int(digits[2] or 0)) if digits else (None, None)
        form = form_of(self.first(table, column.name)) if has_form(column.type) else None
        may_be_null = not (column.is_filled or is_rowid)
        return Told(column.name, column.type or "none", column.type, wide, places, may_be_null, is_folded, form=form)

    def first(self, table: str, column: str) -> object:
        """The first value of a column, or None."""
        query = "SELECT r.{column} FROM {table} AS r WHERE r.{column} IS NOT NULL LIMIT 1"
        found = self.rows(sql(query, column=name(column), table=name(table)))[0]
        return found[0][0] if found else None

    def names(self) -> set[str]:
        """The names of all tables and views, in small letters."""
        return {said.lower() for said, in self.rows(sql("SELECT s.name FROM sqlite_master AS s"))[0]}

    def is_without_rowid(self, table: str) -> bool:
        """Whether the rows of a table have no numbers."""
        return bool(self.rows(sql("SELECT l.wr FROM pragma_table_list AS l WHERE l.name = {table} AND l.schema = {main}", table=text(table),
                                  main=text("main")))[0][0][0])

    def unique(self, table: str) -> list[list[UniqueColumn]]:
        """The columns of each unique index."""
        listed = self.rows(sql("SELECT l.name FROM pragma_index_list({table}) AS l WHERE l.{unique} = 1", table=text(table), unique=name("unique")))
        query = (
            "SELECT x.name, x.coll, EXISTS (SELECT 1 FROM pragma_table_xinfo({table}) AS c WHERE c.name = x.name AND c.{notnull} AND c.dflt_value IS NOT NULL)"
            " FROM pragma_index_xinfo({index}) AS x WHERE x.key = 1"
        )
        found = [self.rows(sql(query, index=text(index), table=text(table), notnull=name("notnull")))[0] for index, in listed[0]]
        return [[UniqueColumn(said, by, bool(fills)) for said, by, fills in columns] for columns in found]
