"""The tables of a version as they are declared: views are read by their queries over what is kept, and cells have their kinds again."""

from __future__ import annotations

import sqlite3
import tempfile
from collections.abc import Iterable, Iterator
from contextlib import closing
from itertools import repeat
from pathlib import Path
from threading import Lock

from ...catalogue.views import Kind
from ...finding import Failure, nearest
from ...status import BAD_INPUT, BAD_WORDS
from ..reading import Columns, Missing, Table, Tables
from ..versions import place
from .cells import Value, cell_of, value_of
from .rows import AFFINITIES, quoted, write
from .said import CATALOGUE, Column, Said, SaidTable, said_by

NUMBERS, COUNT, MOST_OFTEN = "~numbers", "#", 10_000_000
NULL_NUMBER, NULL_TEXT = -(2**63), "\\N"


class ShownTables(Tables):
    """Each is made when it is first asked for, in a folder that goes with this."""

    def __init__(self, folder: Path, number: int) -> None:
        super().__init__(folder, number)
        said = said_by(folder, place(folder, number) / CATALOGUE)
        if said is None:
            raise Failure(BAD_INPUT, f"version {number} is from before this catalogue: `whview folder night --commit` makes the next one")
        self.said: Said = said
        self.kept = Tables(folder, number)
        self.tables = {each.name: each for each in self.said.tables if each.mirror in self.kept.paths}
        self.reads = {each.name: each for each in self.said.views}
        self.home, self.lock = tempfile.TemporaryDirectory(prefix="whview"), Lock()
        self.paths = {name: Path(self.home.name) / f"{name}.csv" for name in (*self.tables, *self.reads)}

    def columns_said(self, name: str) -> tuple[Column, ...]:
        """The columns of a table or a view as they are declared, each with its kind."""
        if name not in self.paths:
            raise Missing(BAD_WORDS, f"version {self.number} has no view {name!r}; it has {', '.join(self.paths)}{nearest(name, list(self.paths))}")
        return self.tables[name].columns if name in self.tables else self.reads[name].columns

    def null_of(self, name: str) -> str:
        """The cell that stands for NULL."""
        return self.tables[name].null if name in self.tables else self.said.null

    def columns(self, name: str) -> Columns:
        columns = self.columns_said(name)
        return Columns([each.name for each in columns], [Kind.INT if each.kind == "integer" else Kind.TEXT for each in columns], False)

    def table(self, name: str) -> Table:
        columns = self.columns(name)
        with self.lock:
            if name not in self.opened:
                self.make(name)
                self.opened[name] = made = Table(name, self.paths[name], dict(zip(columns.names, columns.kinds)))
                made.home = self.home
                made.pointed = frozenset(each.name for each in self.columns_said(name) if each.kind in ("numeric", "real"))
        return self.opened[name]

    def declared(self, name: str) -> list[str]:
        """The columns of a table as SQLite declares them, for who asks by SQL."""
        return [f"{quoted(each.name)} {AFFINITIES.get(each.kind, 'REAL' if each.kind == 'real' else 'TEXT')}" for each in self.columns_said(name)]

    def cells(self, name: str) -> Iterator[tuple[Value, ...]]:
        """The rows of a table or a view, as SQLite has them."""
        columns, null, table = self.columns_said(name), self.null_of(name), self.table(name)
        for _, (_, cells) in table.rows():
            yield tuple(again(str(cell), column, null) for cell, column in zip(cells, columns))

    # ---- how they are made

    def make(self, name: str) -> None:
        """Writes the file of a table or a view."""
        columns, null = self.columns_said(name), self.null_of(name)
        rows = self.rows_of_table(self.tables[name]) if name in self.tables else self.rows_of_view(name)
        write(self.paths[name], [each.name for each in columns], ([cell_of(value, column, null) for value, column in zip(row, columns)] for row in rows))

    def rows_of_table(self, table: SaidTable) -> Iterator[tuple[Value, ...]]:
        """The rows of a table, from its mirror."""
        mirror = self.kept.table(table.mirror)
        places = [mirror.columns.names.index(each.name) for each in table.columns]
        for _, (count, cells) in mirror.rows():
            row = tuple(told_again(cells[place], column) for place, column in zip(places, table.columns))
            yield from repeat(row, count)

    def rows_of_view(self, name: str) -> Iterable[tuple[Value, ...]]:
        """The rows of a view, by its query."""
        with closing(sqlite3.connect("", isolation_level=None)) as database:
            most = max([self.filled(database, each) for each in self.reads[name].over], default=1)
            if most > MOST_OFTEN:
                raise Failure(BAD_INPUT, f"a row that {name} reads counts {most:,} times")
            database.execute(f"CREATE TABLE {quoted(NUMBERS)} (i INTEGER PRIMARY KEY)")
            database.executemany(f"INSERT INTO {quoted(NUMBERS)} VALUES (?)", ((at,) for at in range(1, most + 1)))
            try:
                yield from database.execute(self.reads[name].query)
            except sqlite3.Error as error:
                raise Failure(BAD_INPUT, f"{name}: SQLite: {error}") from None

    def filled(self, database: sqlite3.Connection, name: str) -> int:
        """Has SQLite have a table of what is kept, and answers how often a row of it counts at most."""
        table, most = self.kept.table(name), 1
        names = [*table.columns.names, COUNT]
        kinds = ["INTEGER" if kind == Kind.INT else "TEXT" for kind in table.columns.kinds] + ["INTEGER"]
        database.execute(f"CREATE TABLE {quoted(name)} ({', '.join(f'{quoted(said)} {kind}' for said, kind in zip(names, kinds))})")
        database.execute("BEGIN")
        database.executemany(f"INSERT INTO {quoted(name)} VALUES ({', '.join('?' * len(names))})", ((*cells, count) for _, (count, cells) in table.rows()))
        database.execute("COMMIT")
        for said in ("n", COUNT):
            if said in names:
                most = max(most, int(database.execute(f"SELECT coalesce(max({quoted(said)}), 1) FROM {quoted(name)}").fetchone()[0]))
        return most


def told_again(kept: int | str, column: Column) -> Value:
    """The value that a mirror keeps."""
    if column.kind == "numeric" and isinstance(kept, int) and kept != NULL_NUMBER:
        return float(kept / 10**column.places)
    if isinstance(kept, int):
        return None if kept == NULL_NUMBER else kept
    if kept == NULL_TEXT:
        return None
    return kept[1:] if kept.startswith("\\") and kept.lstrip("\\") == "N" else kept


def again(cell: str, column: Column, null: str) -> Value:
    """The value of a cell that was written here."""
    if column.kind == "real":
        return None if cell == null else float(cell)
    if column.kind == "numeric" and cell != null:
        return float(cell)
    return value_of(cell, Column(column.name, column.kind), null)
