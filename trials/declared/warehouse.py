"""A folder whose catalogue is SQL, and beside it what sqlite3 says of the same views over the same rows."""

import csv
import io
import sqlite3
from collections import Counter
from contextlib import redirect_stderr, redirect_stdout
from pathlib import Path

from trials.declared.shop import NULL
from whview.folder.command import main as folder_command

AFFINITIES = {"integer": "INTEGER", "bigint": "INTEGER", "numeric": "REAL", "boolean": "INTEGER"}


class Told(Exception):
    """A command that ended otherwise than it should."""


def called(*words):
    """What a command prints, and what it tells; its status has to be 0."""
    out, told = io.StringIO(), io.StringIO()
    with redirect_stdout(out), redirect_stderr(told):
        status = folder_command(list(map(str, words)))
    if status:
        raise Told(told.getvalue() + out.getvalue())
    return out.getvalue()


class Warehouse:
    """A folder with tables and views, which days change and nights keep."""

    def __init__(self, folder, program, tables, catalogue, kinds):
        self.folder, self.program, self.tables, self.kinds = Path(folder), program, tables, kinds
        self.before = {}
        (self.folder / "data").mkdir()
        (self.folder / "changes").mkdir()
        (self.folder / "catalogue.sql").write_text(catalogue)
        for name, rows in tables.items():
            self.write(self.folder / "data" / f"{name}.csv", list(kinds[name]), rows)
        self.noted()

    def write(self, path, header, rows):
        with open(path, "w", newline="") as file:
            csv.writer(file).writerows([header, *rows])

    def noted(self):
        """Notes the rows as they are now."""
        self.before = {name: Counter(map(tuple, rows)) for name, rows in self.tables.items()}

    def put_changes(self):
        """Puts what has changed since into changes/, as somebody does by hand."""
        for name, rows in self.tables.items():
            now = Counter(map(tuple, rows))
            changed = {row: now[row] - self.before[name][row] for row in now.keys() | self.before[name].keys()}
            listed = [[count, *row] for row, count in changed.items() if count]
            if listed:
                self.write(self.folder / "changes" / f"{name}.csv", ["#", *self.kinds[name]], listed)
        self.noted()

    def night(self):
        called("night", self.folder, "--commit", "--always", "--program", self.program)

    def rows(self, view):
        """The rows of a view, as they are written."""
        found = list(csv.reader(io.StringIO(called("read", self.folder, view))))
        return found[0][1:], [row[1:] for row in found[1:] for _ in range(int(row[0]))]

    # ---- beside it

    def database(self, views):
        """What sqlite3 has of the same tables and views."""
        made = sqlite3.connect(":memory:")
        for name, kinds in self.kinds.items():
            columns = ", ".join(f"{column} {AFFINITIES.get(kind, 'TEXT')}" for column, kind in kinds.items())
            made.execute(f"CREATE TABLE {name} ({columns})")
            rows = [[value(cell, kind) for cell, kind in zip(row, kinds.values())] for row in self.tables[name]]
            made.executemany(f"INSERT INTO {name} VALUES ({', '.join('?' * len(kinds))})", rows)
        for statement in views:
            made.execute(statement)
        return made

    def differences(self, made, names):
        """What is wrong with views of these names."""
        return [told for name in names for told in self.difference(made, name)]

    def difference(self, made, name):
        """What is wrong with one."""
        cursor = made.execute(f"SELECT * FROM {name}")
        try:
            header, rows = self.rows(name)
        except Told as told:
            return [f"{name}: {told}"]
        if header != [each[0] for each in cursor.description]:
            return [f"{name}: its columns are {header}"]
        expected = Counter(tuple(map(plain, row)) for row in cursor)
        found = Counter(tuple(plain(cell_again(cell)) for cell in row) for row in rows)
        found, expected = alike(found, expected)
        return [f"{name}: too many {list((found - expected).items())[:3]}, missing {list((expected - found).items())[:3]}"] if found != expected else []


def value(cell, kind):
    """A cell as sqlite3 has it."""
    if cell == NULL:
        return None
    match kind:
        case "integer" | "bigint":
            return int(cell)
        case "numeric":
            return float(cell)
        case "boolean":
            return int(cell in ("true", "yes", "1"))
    return cell


def cell_again(cell):
    """What a cell says, as far as that can be seen from it."""
    if cell == NULL:
        return None
    if cell in ("true", "false"):
        return int(cell == "true")
    try:
        return float(cell) if "." in cell or "e" in cell else int(cell)
    except ValueError:
        return cell


def plain(said):
    """A value by which rows are compared: a number by nine digits, and a text that looks like one is one."""
    if isinstance(said, str):
        return cell_of_text(said)
    return said if said is None else float(f"{said:.9g}")


def cell_of_text(said):
    """A text as a reader of cells sees it."""
    found = cell_again(said)
    return found if isinstance(found, str) else None if found is None else float(f"{found:.9g}")


def alike(found, expected):
    """Rows in which a number differs in its last digits alone are taken for the same."""
    for row in list((found - expected).elements()):
        near = next((other for other in (expected - found) if len(other) == len(row) and all(map(is_near, row, other))), None)
        if near is not None:
            found[row] -= 1
            found[near] += 1
    return +found, +expected


def is_near(one, other):
    """Whether two values are as good as the same."""
    if isinstance(one, float) and isinstance(other, float):
        return abs(one - other) <= 1e-7 * max(1.0, abs(other))
    return one == other
