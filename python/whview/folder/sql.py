"""`sql`: a version's tables in SQLite, for a query, or for the statements on standard input, one after another.

Numbers are INTEGER and texts TEXT, by the catalogue. Each row stands once, with the column "#", how often it counts: SUM("#") counts rows.
A table is read when a statement first asks for it, into a temporary file without a name; what statements change ends with the command, and
the folder stays as it is. At a terminal `whview folder sql FOLDER` asks for statements, each of which ends with a semicolon.
"""

from __future__ import annotations

import sqlite3
import sys
from collections.abc import Iterable, Iterator, Sequence
from itertools import repeat
from pathlib import Path
from typing import TYPE_CHECKING, NamedTuple, TypeAlias

from ..finding import Failure, warn
from ..status import BAD_WORDS, DONE, NOT_WRITTEN, SPENT, Status
from .blocks import Damaged
from .forms import Form, Shown, form_of, written
from .held import Held
from .read import printed
from .reading import Tables, quoted, version_tables, whole_number

if TYPE_CHECKING:
    from .command import Words

# How much of the file SQLite has in memory, in KiB; how large the file may be, and all that SQLite has in memory, in bytes.
IN_MEMORY, MOST, MOST_MEMORY = 65_536, 2**34, 2**29
PRAGMAS = ("table_info", "table_xinfo", "table_list", "function_list", "compile_options")
# What leads to other files, or keeps what was read from being there for the next statement; and what asks for the rows of a table.
LEADS_OUT = (sqlite3.SQLITE_ATTACH, sqlite3.SQLITE_DETACH, sqlite3.SQLITE_TRANSACTION, sqlite3.SQLITE_SAVEPOINT)
OF_ROWS = (sqlite3.SQLITE_READ, sqlite3.SQLITE_INSERT, sqlite3.SQLITE_UPDATE, sqlite3.SQLITE_DELETE)
OPENS = ("OpenRead", "OpenWrite")
PROMPT, GOES_ON = "sql> ", "...> "
# What SQLite says where there is no room, neither on the disk nor by the limit.
FULL = (sqlite3.SQLITE_FULL, sqlite3.SQLITE_IOERR)


# What SQLite has in a cell.
Value: TypeAlias = int | float | str | bytes | None


class Found(NamedTuple):
    """The columns of a statement's rows, and these."""

    names: list[str]
    rows: sqlite3.Cursor


class Database:
    """A version in SQLite. Its tables are empty until they are asked for."""

    def __init__(self, tables: Tables) -> None:
        self.tables = tables
        # The tables that a statement asks for, and those whose rows are there.
        self.asked: set[str] = set()
        self.filled: set[str] = set()
        # The names of the tables by the pages where they begin.
        self.roots: dict[int, str] = {}
        self.connection = sqlite3.connect("", isolation_level=None)
        self.set_up()

    def set_up(self) -> None:
        """Makes the tables, and notes where each is."""
        self.bound()
        for name in self.tables.paths:
            self.make(name)
        self.roots = {root: name for name, root in self.connection.execute("SELECT name, rootpage FROM sqlite_schema WHERE type = 'table'")}
        self.connection.set_authorizer(self.allows)

    def bound(self) -> None:
        """Bounds the file, and what is in memory."""
        size = self.connection.execute("PRAGMA page_size").fetchone()[0]
        bounds = f"cache_size = -{IN_MEMORY}", f"max_page_count = {MOST // size}", f"hard_heap_limit = {MOST_MEMORY}"
        for pragma in (*bounds, "journal_mode = MEMORY", "synchronous = OFF", "temp_store = FILE"):
            self.connection.execute(f"PRAGMA {pragma}").close()

    def make(self, name: str) -> None:
        """Makes a table. Names that differ in case alone are one for SQLite."""
        try:
            self.connection.execute(f"CREATE TABLE {quoted(name)} ({', '.join(self.tables.declared(name))})")
        except sqlite3.Error as error:
            warn([f"{name} is left out, since SQLite takes no table of these names: {error}"])

    def allows(self, action: int, first: str | None, second: str | None, _database: str | None, _inner: str | None) -> int:
        """Whether a statement may do something: whatever stays in this file. What it reads is noted."""
        if action in LEADS_OUT or (action == sqlite3.SQLITE_PRAGMA and first not in PRAGMAS):
            return sqlite3.SQLITE_DENY
        if {first, second} & self.tables.paths.keys() and action in (sqlite3.SQLITE_DROP_TABLE, sqlite3.SQLITE_ALTER_TABLE):
            return sqlite3.SQLITE_DENY
        if action in OF_ROWS and first in self.tables.paths:
            self.asked.add(first)
        return sqlite3.SQLITE_OK

    def asked_by(self, statement: str) -> set[str]:
        """The tables whose rows a statement asks for. What is allowed names most of them, and not those that a join by USING reads; the steps
        that SQLite makes of it open each.
        """
        self.asked.clear()
        steps = self.connection.execute(f"EXPLAIN {statement}").fetchall()
        return self.asked | {self.roots[root] for _, step, _, root, database, *_ in steps if step in OPENS and database == 0 and root in self.roots}

    def fill(self, name: str) -> None:
        """Reads a table."""
        self.connection.set_authorizer(None)
        places = ", ".join(repeat("?", len(self.tables.declared(name))))
        self.connection.execute("BEGIN")
        self.connection.executemany(f"INSERT INTO {quoted(name)} VALUES ({places})", self.tables.cells(name))
        self.connection.execute("COMMIT")
        self.connection.set_authorizer(self.allows)
        self.filled.add(name)

    def rows(self, statement: str) -> Found:
        """The rows of a statement; it is looked first what it reads."""
        is_explained = statement.lstrip()[:7].lower() == "explain"
        for name in () if is_explained else sorted(self.asked_by(statement) - self.filled):
            self.fill(name)
        found = self.connection.execute(statement)
        return Found([column[0] for column in found.description or ()], found)


def plain(row: Iterable[Value]) -> tuple[Shown, ...]:
    """A row whose bytes are written in digits, and what JSON has no number for as a text."""
    return tuple(cell.hex() if isinstance(cell, bytes) else str(cell) if cell in (float("inf"), float("-inf")) else cell for cell in row)


def judge_names(names: Sequence[str], form: Form) -> None:
    """An object has each name once."""
    twice = next((name for name in names if names.count(name) > 1), None)
    if twice is not None and form in (Form.JSON, Form.LINES):
        raise Failure(BAD_WORDS, f"two columns are named {twice}; name one of them anew by AS")


def carry_out(database: Database, statement: str, form: Form, version: int) -> None:
    """Carries a statement out, and prints its rows, if it has such."""
    try:
        names, rows = database.rows(statement)
        judge_names(names, form)
        if names:
            printed(written(form, names, map(plain, rows), {"version": version}))
    except MemoryError:
        raise Failure(SPENT, f"this statement takes more than {MOST_MEMORY:,} bytes of memory") from None
    except (sqlite3.Error, sqlite3.Warning, ValueError) as error:
        full = (getattr(error, "sqlite_errorcode", 0) or 0) & 0xFF in FULL
        raise Failure(NOT_WRITTEN if full else BAD_WORDS, f"SQLite: {error}") from None


def parted(text: str) -> list[str]:
    """The statements that a text has, and behind them what of the last one is there."""
    found, start, end = [], 0, text.find(";") + 1
    while end > 0:
        if sqlite3.complete_statement(text[start:end]):
            found.append(text[start:end])
            start = end
        end = text.find(";", end) + 1
    return [*found, text[start:].lstrip()]


def statements() -> Iterator[str]:
    """The statements on standard input. At a terminal they are asked for."""
    held, is_asked = "", sys.stdin.isatty()
    while line := prompted(GOES_ON if held else PROMPT) if is_asked else sys.stdin.readline():
        *found, held = parted(held + line)
        yield from found
    if held:
        yield held


def prompted(prompt: str) -> str:
    """A line that is asked for, or nothing at the end."""
    try:
        return input(prompt) + "\n"
    except EOFError:
        print()
        return ""


def carry_all_out(database: Database, form: Form, version: int) -> None:
    """Carries out what stands on standard input. At a terminal what is wrong with a statement ends nothing."""
    for statement in statements():
        try:
            carry_out(database, statement, form, version)
        except Damaged:
            raise
        except Failure as failure:
            if not sys.stdin.isatty():
                raise
            warn(failure.lines)


def run(words: Words) -> Status:
    version = words.option("--version")
    number = None if version is None else whole_number(version, "--version", 0, 2**63 - 1)
    is_asked = len(words.operands) < 2 and sys.stdin.isatty()
    form = form_of(words.option("--format", Form.TABLE if is_asked else Form.CSV))
    with Held(words.folder, number) as held:
        database = Database(version_tables(Path(words.folder), held.number))
        if len(words.operands) > 1:
            carry_out(database, words.operands[1], form, held.number)
        else:
            carry_all_out(database, form, held.number)
    return DONE
