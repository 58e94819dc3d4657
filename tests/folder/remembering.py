"""Folders of drawn versions, served with a program that stays and without one."""

import csv
import io
import os
import random
from pathlib import Path

from whview.folder.answers import Answers, Request
from whview.folder.memory import Memory
from whview.program import Chosen

from .stand_in import stays

CATALOGUE = """[[view]]
name = "orders"
columns = ["id", "day:text", "pieces"]

[[view]]
name = "words"
columns = ["word:text"]

[[view]]
name = "days"
over = ["orders"]
group = [["day", "orders.day"]]
count = "n"
"""
COLUMNS = {"orders": ["id", "day", "pieces"], "words": ["word"], "days": ["day", "n"]}
DAYS = ["Monday", "a, b", 'the "third"', "", "süd", "@end", "end", "#", " 5"]


def text_of(rows):
    """A table of the tool's own."""
    written = io.StringIO()
    csv.writer(written, lineterminator="\n").writerows(rows)
    return written.getvalue()


class Remembered:
    """A folder whose versions are drawn, each from the one before; what is answered of it with a program's memory, and without."""

    def __init__(self, room: Path, seed: int = 1, count: int = 2) -> None:
        self.folder, self.program, self.source, self.number = room / "folder", stays(room / "program"), random.Random(seed), 0
        self.folder.mkdir()
        (self.folder / "catalogue.toml").write_text(CATALOGUE)
        self.rows = {name: [self.row(name) for _ in range(self.source.randrange(600))] for name in COLUMNS}
        self.told, self.answers = [], Answers(self.folder, 900)
        self.memory = Memory(self.folder, self.answers.tables, lambda: Chosen(self.program, "named"), count, self.told.append)
        self.version()

    def row(self, name):
        """A row of a view, behind its count."""
        number, day = self.source.randrange(-(2**40), 2**40), self.source.choice(DAYS)
        cells = {"orders": [number, day, self.source.randrange(9)], "words": [day], "days": [day, number]}[name]
        return [self.source.choice([1, 1, 1, 7]), *cells]

    def changed(self, name):
        """The rows of a view in the next version: of those that are there some leave, and others come in their place or at the end."""
        rows = []
        for row in self.rows[name]:
            drawn = self.source.random()
            rows += [row] if drawn > 0.04 else [self.row(name)] if drawn > 0.02 else []
        return rows + [self.row(name) for _ in range(self.source.randrange(5))]

    def version(self):
        """Makes a version of the rows as they stand, to which `current` leads; a table that is as it was is a link."""
        before, self.number = self.folder / f"versions/{self.number}", self.number + 1
        made = self.folder / f"versions/{self.number}"
        for name, rows in self.rows.items():
            file = f"{'views' if name == 'days' else 'data'}/{name}.csv"
            text = text_of([["#", *COLUMNS[name]], *rows])
            (made / file).parent.mkdir(parents=True, exist_ok=True)
            if (before / file).is_file() and (before / file).read_text() == text:
                os.link(before / file, made / file)
            else:
                (made / file).write_text(text)
        (made / "catalogue.toml").write_text(CATALOGUE)
        (made / "report.txt").write_text("")
        self.turn(self.number)

    def turn(self, number):
        """Has `current` lead to a version."""
        (self.folder / "next").symlink_to(f"versions/{number}")
        (self.folder / "next").rename(self.folder / "current")

    def night(self, *names):
        """The next version, in which these views changed, or all."""
        self.rows |= {name: self.changed(name) for name in names or COLUMNS}
        self.version()

    def session(self):
        """A session of the current version, as a field of a query."""
        return f"session={self.answers.sessions.begin().name}"

    def asked(self, target):
        """What is answered, and whether that came from memory."""
        before = self.memory.pages
        self.answers.memory = self.memory
        answer = self.answers.answer(Request("GET", target))
        return answer, self.memory.pages > before

    def is_same(self, target):
        """Whether a page comes from memory; it is the one that files give."""
        found, is_remembered = self.asked(target)
        self.answers.memory = None
        assert found == self.answers.answer(Request("GET", target)), target
        return is_remembered

    def target(self, session=""):
        """A page that is drawn, of rows as they stand."""
        name = self.source.choice(list(COLUMNS))
        count = len(self.rows[name])
        after = self.source.choice([0, self.source.randrange(count + 2), count, self.source.randrange(count + 1)])
        limit, form = self.source.choice([1, 2, 20, 255, 256, 1000]), self.source.choice(["json", "csv", "jsonl"])
        columns = self.source.choice(["", "", f"&columns={COLUMNS[name][-1]}"])
        return f"/{name}?after={after}&limit={limit}&format={form}{columns}{f'&{session}' if session else ''}"
