"""Views of a file of SQLite taken by whview sql take, and their nights, beside what SQLite itself says of them."""

import re
import sqlite3
import subprocess
from argparse import Namespace
from collections import Counter
from contextlib import closing, redirect_stderr
from io import StringIO
from pathlib import Path

from whview.sql.capture import command as capturing
from whview.sql.capture.database import SQLiteAsked
from whview.sql.capture.live_sqlite import LiveInSQLite
from whview.sql.capture.sqlite import LiveSQLite
from whview.sql.command import complete
from whview.views import take
from whview.views.sqlite.file import TakingStored

# What a reader may ask of a column, by which is told how SQLite compares it.
ASKED = ("{0} = '2'", "{0} > '1'", "{0} = 2", "{0} IN ('2', 'x')", "{0} IS NULL", "typeof({0}) = 'integer'", "{0} < 'City 2'")
NEAR = 1e-9


class Broken(Exception):
    """A script that fails."""


class KeptFile:
    """A file whose views are taken, with the folder of the nights."""

    def __init__(self, place, is_open=False):
        """`is_open` says that views leave open whether a number is whole, where sets and groups have whole ones and others that are alike."""
        self.place, self.file, self.folder, self.taken, self.is_open = Path(place), Path(place) / "live.db", Path(place) / "kept", [], is_open
        self.carried([""])

    def carried(self, lines):
        """Has sqlite3 carry a script out."""
        ran = subprocess.run(["sqlite3", "-bail", self.file], input="\n".join(lines).encode(), capture_output=True, check=False)
        if ran.returncode:
            raise Broken(f"{ran.stderr.decode(errors='replace')[-900:]} {ran.stdout.decode(errors='replace')[-300:]}")
        return ran.stdout.decode()

    def said(self, text):
        """What an application's statements do."""
        return self.carried([text])

    def words(self, **said):
        """The words of a command."""
        return complete(Namespace(engine="sqlite", database=str(self.file), path=str(self.folder), **said))

    def refused(self, views):
        """Of these views, why each is refused that is."""
        reasons, wanted = {}, list(views)
        while wanted:
            taking = TakingStored(SQLiteAsked(str(self.file), LiveSQLite()), "wh_")
            taking.taken(taking.chosen(wanted))
            if not taking.refused:
                break
            told = {each.spot.view if each.spot else "?": each.told() for each in reversed(taking.refused)}
            reasons.update((view, why) for view, why in told.items() if view in wanted)
            left = [view for view in wanted if view not in told]
            if left == wanted:
                raise Broken(f"refused, and no view of these: {told}")
            wanted = left
        return reasons

    def take(self, views):
        """Takes these views by the command."""
        self.taken = list(views)
        with redirect_stderr(StringIO()):
            lines = take.taken(self.words(views=",".join(views)))
        self.carried(lines)

    def command(self, **said):
        """The lines of a command over live tables."""
        with redirect_stderr(StringIO()):
            return capturing.written(LiveInSQLite(self.words(live=True, **said)))

    def night(self):
        return self.carried(self.command(night=True))

    def check(self):
        """What a check tells, and its status."""
        return capturing.answered(LiveInSQLite(self.words(live=True, check=True)))

    # ---- what is read

    def differences(self, is_asked=False):
        """What the kept views have otherwise than the views: columns, declared types and rows, with the type of each value; and how columns compare."""
        with closing(sqlite3.connect(self.file)) as database:
            database.execute("BEGIN")
            left_open = {view: self.is_open and leaves_open(database, view) for view in self.taken}
            wrong = [each for view in self.taken for each in difference(database, view, is_open=left_open[view])]
            return wrong + ([each for view in self.taken for each in compared(database, view) if not left_open[view]] if is_asked else [])


def leaves_open(database, view):
    """Whether a view has one row for several that are alike."""
    (said,) = database.execute("SELECT sql FROM sqlite_master WHERE name = ?", (view,)).fetchone()
    return re.search(r"\b(DISTINCT|UNION|EXCEPT|INTERSECT|GROUP BY|min|max)\b", said) is not None


def difference(database, view, prefix="wh_", is_open=False):
    """The same of one view."""
    own, kept = (database.execute(f'PRAGMA table_info("{name}")').fetchall() for name in (view, prefix + view))
    if [row[1:3] for row in own] != [row[1:3] for row in kept]:
        return [f"{view}: the columns are {[row[1:3] for row in kept]}, and not {[row[1:3] for row in own]}"]
    try:
        meant = Counter(tuple((type(cell).__name__, cell) for cell in row) for row in database.execute(f'SELECT * FROM "{view}"'))
    except sqlite3.Error:
        return []
    try:
        found = Counter(tuple((type(cell).__name__, cell) for cell in row) for row in database.execute(f'SELECT * FROM "{prefix}{view}"'))
    except sqlite3.Error as fault:
        return [f"{view}: {fault}"]
    more, less = apart(found, meant, is_open)
    return [f"{view}: too many {list(more.items())[:3]}, missing {list(less.items())[:3]}"] if more or less else []


def apart(found, meant, is_open):
    """The rows that only one side has. What floats add up to may differ in the last digits, and where that is open a number may be whole or not."""
    more, less = found - meant, meant - found
    for row in list(more.elements()):
        near = next((other for other in less if all(is_near(*cells, is_open) for cells in zip(row, other))), None)
        if near is not None:
            more[row], less[near] = more[row] - 1, less[near] - 1
            more, less = +more, +less
    return more, less


def is_near(one, other, is_open):
    """Whether two cells are as good as the same."""
    (kind, left), (like, right) = one, other
    if {kind, like} != {"float"} and not (is_open and {kind, like} == {"float", "int"}):
        return one == other
    return left == right or abs(left - right) <= NEAR * max(1.0, abs(left), abs(right))


def compared(database, view):
    """What is told otherwise of a view's columns where they are compared."""
    wrong = []
    for _, name, declared, *_ in database.execute(f'PRAGMA table_info("{view}")').fetchall():
        if "DATE" in declared.upper() or "TIME" in declared.upper():
            continue
        column = '"' + name.replace('"', '""') + '"'
        tests = ", ".join(f"count(*) FILTER (WHERE {test.format(column)})" for test in ASKED)
        own, kept = (database.execute(f'SELECT {tests} FROM "{each}"').fetchone() for each in (view, f"wh_{view}"))
        wrong += [f"{view}: {name} compares as {kept}, and not {own}"] if own != kept else []
    return wrong

