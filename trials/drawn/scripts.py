"""Drawn nights, what the program makes of each, and how an engine carries it out by a script."""

from collections import Counter

from trials.drawn.nights import catalogue_of, draw_views
from trials.drawn.views import WORDS, Drawer, chance
from trials.spoilt.exchanged import script_of
from trials.sql import lexed
from trials.tables.given_nights import Night as Given
from whview.catalogue.evaluator import added
from whview.catalogue.parts import Warehouse
from whview.sql.comments import Comments
from whview.sql.dialect import COUNT
from whview.sql.tokens import END_OF_STATEMENT, joined, number, sql

LARGE = [2**62, -(2**62), 2**63 - 1, -(2**63), 2**32, 3037000500]
HARD_VIEWS = ["x" * 63 + "a", "x" * 63 + "b", "x" * 63, "select", "User", "user", "USER", "uSER"]
HARD_COLUMNS = ["true", "rowid", "xmin", "key", "n", "KEY", "c1", "_rowid_", "y" * 63 + "a", "y" * 63 + "b"]

# Texts that would end a text, a comment or a script if they were written as they are.
HOSTILE = ["'; DROP TABLE b0; --", "\\'", "$night$", "\\! touch canary", ":b0 :'b0'", "/* \" */", "\u2028;\n\\q\n", "E'\\n', \t1 = 1"]


class LargeDrawer(Drawer):
    """Draws, now and then, cells whose sums and products leave 64 bits."""

    def __init__(self, source, words=WORDS, part=0.25):
        super().__init__(source, words)
        self.is_large = chance(source, part)

    def row(self, view):
        row = super().row(view)
        if not self.is_large or not chance(self.source, 0.2):
            return row
        return tuple(self.source.choice(LARGE) if kind == "int" else cell for cell, (_, kind) in zip(row, view.columns))


def rename(views):
    """Names that an engine has to cut, to quote or to tell apart."""
    for name, view in zip(HARD_VIEWS, views):
        view.name, view.columns = name, [(column, kind) for column, (_, kind) in zip(HARD_COLUMNS, view.columns)]


def drawn_strategy(words, source):
    """A correct strategy, drawn again where a draw came to no end."""
    while True:
        if found := words.walked(source):
            return found


class Night(Given):
    """A drawn night, and what the program makes of it: the tables before and after, and the words of a refusal."""

    def __init__(self, source, started):
        self.draw(source)
        self.before, self.told_before = self.answered(started, False)
        self.after, self.told = self.answered(started, True)

    def draw(self, source):
        drawer = LargeDrawer(source, HOSTILE if chance(source, 0.2) else WORDS)
        draw_views(drawer)
        if chance(source, 0.15):
            rename(drawer.views)
        views, self.is_large = drawer.views, drawer.is_large
        records = [[] if view.over else drawer.records(view) for view in views]
        changes = [[] if view.over else drawer.changes(view, rows) for view, rows in zip(views, records)]
        if chance(source, 0.1):
            changes[0] = [*changes[0], (drawer.row(views[0]), -1)]
        strategy = drawn_strategy(Warehouse(views), source)
        super().__init__(views, records, changes, strategy, [v for v, view in enumerate(views) if not view.over and chance(source, 0.3)])

    @property
    def end(self):
        """How the night ends by the program, in two words."""
        return "refused before the night" if self.told_before else " ".join((self.told or "carried out").split()[:2])

    def expected(self, done):
        """The tables of all views, and those of changes, where the night was done or refused."""
        changes = [Counter() if done or view.over else added(self.changes[v]) for v, view in enumerate(self.views)]
        return self.after if done else self.before, changes


# ---- engines


class Carried:
    """A night carried out by an engine, through the scripts of a kind."""

    def __init__(self, night, engine, kind):
        self.night, self.engine = night, engine
        self.script = kind(catalogue_of(night.views, night.words), engine.dialect, night.plain)
        self.comment = Comments(catalogue_of(night.views, night.words)).short

    def mistake(self):
        """What the engine does otherwise than the program, or None."""
        self.engine.fresh()
        if told := self.engine.run(self.script.creation() + self.filled()):
            return f"the tables: {told}"
        opened = self.engine.run(self.script.open(self.comment))
        if not self.is_told(self.night.told_before, opened):
            return f"opening: {opened!r}, and the program {self.night.told_before!r}"
        if opened:
            return None
        lines = self.script.night(self.night.strategy, self.comment)
        if wrong := lexed.mistakes(self.engine.dialect, lines):
            return wrong[0]
        told = self.engine.run(lines)
        if not self.is_told(self.night.told, told):
            return f"the night: {told!r}, and the program {self.night.told!r}"
        found, expected = self.contents(), self.night.expected(told is None)
        return None if found == expected else f"{found}\nwhere the program has\n{expected}"

    def is_told(self, expected, told):
        """Whether an engine's words are the program's."""
        return told is None if expected is None else told is not None and expected in told

    def filled(self):
        """The rows of the base tables and of their changes."""
        found = []
        for v, view in enumerate(self.night.views):
            for row, count in added(self.night.records[v]).items():
                once = v in self.script.tables.shape.plain
                found += [self.insert(v, "", row)] * count if once else [self.insert(v, "", row, count)]
            found += [self.insert(v, "~changes", row, count) for row, count in self.night.changes[v]]
        return found

    def insert(self, v, suffix, row, *count):
        """The statement that puts a row into a table, with its count where it has one."""
        dialect, kinds = self.engine.dialect, self.script.tables.kinds(v)
        values = [dialect.whole(cell) if kind == "int" else dialect.text(cell) for cell, kind in zip(row, kinds)]
        columns = [*self.script.tables.users(v), *(COUNT for _ in count)]
        return sql(
            "INSERT INTO {table} ({columns}) VALUES ({values}){end}", table=self.script.tables.table(v, suffix), columns=joined(columns),
            values=joined([*values, *map(number, count)]), end=END_OF_STATEMENT,
        )

    def asked(self, v, suffix="", counted=True):
        """A table and its columns, in the engine's words."""
        written = self.engine.dialect.written
        columns = self.script.tables.users(v) + ([COUNT] if counted else [])
        return written([self.script.tables.table(v, suffix)])[0], written(columns) + ([] if counted else ["1"])

    def contents(self, *by):
        """The tables of all views, and those of changes; by a session, where one is given."""
        script, numbers = self.script, range(len(self.night.views))
        asked = [self.asked(v, "", script.tables.shape.is_counted(v)) for v in numbers]
        asked += [self.asked(v, "~changes") for v in script.steps.base()]
        found = [added((tuple(row[:-1]), row[-1]) for row in rows) for rows in self.engine.contents(asked, *by)]
        changes = iter(found[len(numbers) :])
        return found[: len(numbers)], [Counter() if view.over else next(changes) for view in self.night.views]


def carried_by(night, engine):
    """The same through the engine's own scripts."""
    return Carried(night, engine, script_of)
