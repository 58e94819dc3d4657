"""Nights as a test has them: views, rows, changes and a strategy, what they come to, and the folder that whview sql is given."""

import io
import re
import sys
from collections import Counter
from contextlib import redirect_stderr, redirect_stdout
from pathlib import Path
from typing import NamedTuple
from unittest import mock

from trials.drawn.nights import carried
from whview.catalogue.evaluator import Unbounded, added
from whview.catalogue.from_bundle import views_of
from whview.catalogue.parts import Warehouse
from whview.sql import command, flat


class Night:
    """Views, the rows of the base views with their counts, and what the night changes; `plain` has the base views without counts."""

    def __init__(self, views, records, changes, strategy=None, plain=()):
        self.views, self.words, self.records, self.changes = views, Warehouse(views), records, changes
        self.strategy = strategy or self.words.one_way()
        self.plain = set(plain)
        self.text = None

    @property
    def catalogue(self):
        return self.text.encode() if self.text is not None else self.words.catalogue().partition(b"\n")[2]

    def bundle(self, changes=None):
        changes = self.changes if changes is None else changes
        catalogue = b"@catalogue\n" + self.catalogue
        return catalogue + self.words.tables("data", self.records) + self.words.tables("changes", changes) + self.words.listed(self.strategy)

    def is_counted(self, v):
        """Whether the view's table has a column of counts."""
        return v not in self.plain and not (self.views[v].over and self.views[v].keep is None)

    def option(self):
        """The words of whview sql that say which tables have no counts."""
        return ["--plain", ",".join(self.views[v].name for v in sorted(self.plain))] if self.plain else []

    # ---- what it comes to

    def base(self, is_after):
        return [added(records + (changes if is_after else [])) for records, changes in zip(self.records, self.changes)]

    def defined(self, is_after):
        """The tables of all views by the definitions."""
        return Unbounded().contents(self.views, self.base(is_after))

    def is_absent(self):
        """Whether the changes take away what is not there."""
        return any(count < 0 for table in self.base(True) for count in table.values())

    def answered(self, program, is_after):
        """The tables of all views by the program, or the words of a refusal."""
        changes = self.changes if is_after else [[] for _ in self.views]
        derived, told = carried(program, self.views, self.bundle(changes))
        if told is not None:
            return None, told
        return [derived.get(view.name, table) for view, table in zip(self.views, self.base(is_after))], None

    def contents(self, program=None):
        """The tables before and after, and the words of a refusal, by the program or else by the definitions."""
        if program:
            before, _ = self.answered(program, False)
            after, told = self.answered(program, True)
            return before, after, told
        absent = self.is_absent()
        return self.defined(False), None if absent else self.defined(True), "refused absent" if absent else None

    def folder(self, path):
        return lay(path, self.catalogue, self.words.listed(self.strategy))


def lay(path, catalogue, listed=None):
    """A folder with a catalogue, and a strategy: that of one way, where it is not given as the words of a bundle."""
    path, catalogue = Path(path), catalogue if isinstance(catalogue, bytes) else catalogue.encode()
    path.mkdir(exist_ok=True)
    if listed is None:
        words = Warehouse(views_of(catalogue.decode()))
        listed = words.listed(words.one_way())
    (path / "catalogue.toml").write_bytes(catalogue)
    (path / "strategy.txt").write_bytes(listed.partition(b"\n")[2])
    return path


class Written(NamedTuple):
    """What `whview sql` writes, what it says, and its status."""

    text: str
    told: str
    status: int


def written(*words):
    """What `whview sql` does for words without commands, in this process."""
    output, told = io.TextIOWrapper(io.BytesIO(), encoding="utf-8", newline=""), io.StringIO()
    status = 0
    with mock.patch.object(sys, "argv", ["whview", *map(str, words)]), redirect_stdout(output), redirect_stderr(told):
        try:
            status = command.answer(flat.asked(sys.argv[1:])) or 0
        except SystemExit as end:
            status = end.code if isinstance(end.code, int) else 1
            told.write("" if end.code is None or isinstance(end.code, int) else f"{end.code}\n")
        except Exception as fault:  # what a person would see as a traceback
            status = 70
            told.write(f"Traceback: {fault!r}\n")
    output.flush()
    return Written(output.buffer.getvalue().decode(), told.getvalue(), status)


# A script that raises and does nothing else, as each engine has it: its text has no quote that ends it, and no line's end.
FAILING = {
    "postgresql": re.compile(
        r"\\set ON_ERROR_STOP on\n\\set ON_ERROR_ROLLBACK off\nSET client_encoding = 'UTF8';\nDO (\$\w*\$)\nBEGIN\n"
        r"  RAISE EXCEPTION USING MESSAGE = (?P<told>E'(?:[^'\\\n]|\\\\|\\')*'|'(?:[^'\\\n]|'')*');\nEND;\n\1;\n"
    ),
    "sqlite": re.compile(
        r'CREATE TABLE temp\."night~" \(begun\);\nCREATE TEMPORARY TRIGGER "night~" AFTER INSERT ON "night~" BEGIN\n'
        r"  SELECT RAISE\(ROLLBACK, (?P<told>'(?:[^'\n]|'')*')\);\nEND;\n"
        r'INSERT INTO temp\."night~" VALUES \(1\);\n'
    ),
}


def begun(engine, text):
    """Whether more was written of a script that was refused than one that raises."""
    found = FAILING[engine].fullmatch(text)
    return found is None or (engine == "postgresql" and found[1] in found["told"])


def bag(rows, columns, count=None):
    """Rows of a database as a view has them: cells by their columns, and how often each stands there."""
    found = Counter()
    for row, times in rows.items():
        cells = dict(row)
        found[tuple(cells[column] for column in columns)] += times * (cells[count] if count else 1)
    return found
