"""One transaction of an application's database, whose statements follow from what the ones before answered."""

from __future__ import annotations

import json
import sqlite3
import subprocess
import tempfile
from collections.abc import Iterable, Sequence
from typing import TYPE_CHECKING, Any, NoReturn, cast

from ..postgresql import PATH
from ..tokens import END_OF_STATEMENT, Sql, Unfit, body, name, sql, text
from .compared import Digest
from .live import Session

if TYPE_CHECKING:
    from .database import PostgreSQLAsked, Rows, SQLiteAsked

# A table that somebody alters is waited for so long, and no longer.
PATIENCE = "60s"
MARK = "--"
IS_STANDBY = (
    "SELECT CASE WHEN NOT pg_is_in_recovery() THEN NULL WHEN EXISTS (SELECT 1 FROM pg_roles AS r WHERE r.rolname = session_user AND r.rolsuper"
    " AND r.rolname <> current_user) THEN {unsafe} ELSE {standby} END"
)
# Tables of the application are read within functions of whoever owns the night's schema, which what their owner has put on them does not leave for
# another role.
ROWS, DONE = (sql("pg_temp.{said}", said=name(said)) for said in ("whview rows", "whview done"))
APART = [
    sql("CREATE FUNCTION {rows}(query text) RETURNS SETOF json LANGUAGE plpgsql SECURITY DEFINER AS {program}{end}", rows=ROWS, end=END_OF_STATEMENT,
        program=body(sql("\nBEGIN\n  RETURN QUERY EXECUTE query{end}\nEND{end}", end=END_OF_STATEMENT))),
    sql("CREATE FUNCTION {done}(said text) RETURNS void LANGUAGE plpgsql SECURITY DEFINER AS {program}{end}", done=DONE, end=END_OF_STATEMENT,
        program=body(sql("\nBEGIN\n  EXECUTE said{end}\nEND{end}", end=END_OF_STATEMENT))),
]


class PostgreSQLSession(Session):
    """A transaction through psql, which is given statements one by one. All of it sees one snapshot, which is taken when the tables are
    locked: one that is written anew by ALTER TABLE would look empty to a snapshot from before. One that only compares may note first what the log
    has, which is undone with it."""

    def __init__(self, asked: PostgreSQLAsked, is_writing: bool, is_noting: bool = False) -> None:
        self.asked, self.dialect, self.is_writing, self.is_noting = asked, asked.dialect, is_writing, is_noting
        self.told = tempfile.TemporaryFile()
        try:
            self.client = subprocess.Popen(asked.command(), stdin=subprocess.PIPE, stdout=subprocess.PIPE, stderr=self.told)
        except OSError as fault:
            raise Unfit(f"psql cannot be run: {fault.strerror}") from fault
        assert self.client.stdin is not None and self.client.stdout is not None
        self.into, self.out = self.client.stdin, self.client.stdout

    def __enter__(self) -> PostgreSQLSession:
        level = "READ WRITE" if self.is_writing or self.is_noting else "READ ONLY"
        settings = ("client_min_messages = warning", f"search_path = {PATH}", "row_security = off", "jit = off", f"lock_timeout = '{PATIENCE}'")
        for line in (*self.dialect.head, *(f"SET {each};" for each in settings), *self.dialect.owner.session()):
            self.given(line)
        self.is_apart = self.read_apart()
        self.given(f"BEGIN ISOLATION LEVEL REPEATABLE READ {level};")
        return self

    def read_apart(self) -> bool:
        """Makes the functions by which tables are read, but on a standby, which takes none: there nobody reads as another role whom others gain by."""
        (standby,) = self.run([sql(IS_STANDBY + "{end}", unsafe=text("unsafe"), standby=text("standby"), end=END_OF_STATEMENT)])
        if standby == "unsafe":
            raise Unfit("a standby is checked as a member of the role that owns the nights' tables, and not as a superuser, who would carry out what others put on theirs")
        if not standby:
            self.run(APART)
        return not standby

    def __exit__(self, *_: object) -> None:
        """What is not committed by now is rolled back."""
        for pipe in (self.into, self.out):
            try:
                pipe.close()
            except OSError:
                pass
        self.client.wait()
        self.told.close()

    @property
    def makes_tables(self) -> bool:
        """A transaction that only reads makes none."""
        return self.is_writing

    def set_aside(self, said: str, rows: Sql) -> Sql | None:
        """Queries stand within each other as deep as one likes."""
        return None

    def locked(self, own: Sequence[Sql], sources: Sequence[Sql]) -> None:
        """From here on the tables stay what they are; where rows are written, no night runs, and writers to the sources go on."""
        mode = "EXCLUSIVE" if self.is_writing else "ACCESS SHARE"
        for tables, how in ((own, mode), (sources, "ACCESS SHARE")):
            for table in tables:
                self.run([sql("LOCK TABLE {table} IN " + how + " MODE{end}", table=table, end=END_OF_STATEMENT)])

    def given(self, line: str) -> None:
        """Gives psql a line."""
        try:
            self.into.write(line.encode() + b"\n")
            self.into.flush()
        except BrokenPipeError:
            self.failed()

    def failed(self) -> NoReturn:
        """Tells why psql came to an end."""
        self.client.wait()
        self.told.seek(0)
        told = self.told.read().decode(errors="replace").partition("\nCONTEXT:")[0]
        told = " ".join(told.strip().removeprefix("ERROR:  ").split("\n"))
        if "lock timeout" in told:
            raise Unfit(f"somebody alters a table, and was waited for {PATIENCE}: try once more later")
        raise Unfit(told[:600])

    def run(self, lines: Iterable[Sql]) -> list[str]:
        """What statements print, line by line."""
        # A query would tell where the answer ends, and take the snapshot before all tables are locked.
        for given in [*self.dialect.written(lines), rf"\echo {MARK}"]:
            self.given(given)
        found: list[str] = []
        for line in self.out:
            if line == f"{MARK}\n".encode():
                return found
            found.append(line.decode().removesuffix("\n"))
        self.failed()

    def rows(self, columns: str, rest: str, **parts: Sql) -> Rows:
        """The rows of a query, whose columns and whose rest are templates."""
        query = sql("SELECT json_build_array(" + columns + ") " + rest, **parts)
        if self.is_apart:
            query = sql("SELECT * FROM {rows}({query})", rows=ROWS, query=text(self.dialect.written([query])[0]))
        return [json.loads(line) for line in self.run([sql("{query}{end}", query=query, end=END_OF_STATEMENT)])]

    def carried_out(self, statements: Sequence[Sql]) -> None:
        """Statements one by one."""
        for each in self.dialect.written(statements):
            self.run([sql("SELECT {done}({each}){end}", done=DONE, each=text(each), end=END_OF_STATEMENT)])

    def judged(self, statements: Sequence[Sql]) -> None:
        """Statements of a block, which may refuse what there is."""
        if statements:
            self.run([self.dialect.block(statements)])

    def noted(self, statements: Sequence[Sql]) -> None:
        """The same, which change what there is."""
        self.judged(statements)

    def committed(self) -> None:
        self.run([sql("COMMIT{end}", end=END_OF_STATEMENT)])


class SQLiteSession(Session):
    """A transaction of a file, of which there is one snapshot anyhow."""

    def __init__(self, asked: SQLiteAsked, is_writing: bool) -> None:
        self.asked, self.dialect, self.is_writing = asked, asked.dialect, is_writing

    def __enter__(self) -> SQLiteSession:
        self.database = sqlite3.connect(self.asked.address, isolation_level=None, timeout=60)
        # The library's types know of aggregates of one number alone.
        self.database.create_aggregate("digest", -1, cast(Any, Digest))
        self.said("BEGIN IMMEDIATE" if self.is_writing else "BEGIN")
        return self

    def __exit__(self, *_: object) -> None:
        if self.database.in_transaction:
            self.database.rollback()
        self.database.close()

    @property
    def makes_tables(self) -> bool:
        """Those that pass with it, in any case."""
        return True

    def set_aside(self, said: str, rows: Sql) -> Sql:
        """The parser has no room for a formula deep within others, nor for such relations in each other."""
        kept = self.dialect.working(said)
        self.carried_out([sql("CREATE TABLE {kept} AS {rows}", kept=kept, rows=rows)])
        return kept

    def locked(self, own: Sequence[Sql], sources: Sequence[Sql]) -> None:
        """A transaction of SQLite sees and keeps what there was at its first query."""

    def said(self, statement: str) -> sqlite3.Cursor:
        """What a statement answers."""
        try:
            return self.database.execute(statement)
        except sqlite3.Error as fault:
            raise Unfit(f"{self.asked.address}: {fault}") from fault

    def rows(self, columns: str, rest: str, **parts: Sql) -> Rows:
        """The rows of a query, whose columns and whose rest are templates."""
        said = self.said(self.dialect.written([sql("SELECT " + columns + " " + rest, **parts)])[0])
        try:
            return [list(row) for row in said]
        except sqlite3.Error as fault:
            raise Unfit(f"{self.asked.address}: {fault}") from fault

    def carried_out(self, statements: Sequence[Sql]) -> None:
        """Statements one by one."""
        for line in self.dialect.written(statements):
            self.said(line)

    def judged(self, statements: Sequence[Sql]) -> None:
        """Statements of a trigger's program, which may refuse what there is, and change nothing that stays."""
        if statements:
            self.carried_out([sql("SAVEPOINT judged"), sql("CREATE TABLE temp.judged (begun)"), *self.dialect.fired("judged", statements),
                              sql("ROLLBACK TO judged"), sql("RELEASE judged")])

    noted = carried_out

    def committed(self) -> None:
        self.said("COMMIT")
