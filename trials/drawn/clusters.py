"""Warehouses that are drawn, nights in a row over each, and what the program makes of every one."""

from collections import Counter

from trials.drawn.nights import carried, draw_views
from trials.drawn.scripts import HOSTILE, LARGE, LargeDrawer, drawn_strategy, rename
from trials.drawn.views import WORDS, chance
from whview.catalogue.evaluator import added
from whview.catalogue.parts import Warehouse as Bundled

# Texts that a line of an engine's format or a literal would end at, and one with a byte that is no letter.
SHARP = ["tab\there", "two\nlines", "back\\slash\\", "zero\0byte", "\\N", "\\t", "'quoted'", "\r", "", "ÿ", "\x01\x08\x0c"]
# How many warehouses have cells near 64 bits, and counts whose products go far.
LARGE_PART = 0.4
LARGE_COUNTS = [2**19, 2**28, 2**40, 2**55]
# This part of the nights is drawn until one is refused as was wished, in so many tries.
REFUSED_PART, TRIES = 0.6, 12
REFUSALS = ("absent", "range", "range", "range", "large")


class DrawnWarehouse:
    """Views with a strategy, and base tables that nights change; of each night it knows what the program says."""

    def __init__(self, source, started):
        self.source, self.started = source, started
        hostile = chance(source, 0.15)
        self.drawer = LargeDrawer(source, HOSTILE if hostile else WORDS, LARGE_PART)
        draw_views(self.drawer)
        if chance(source, 0.2):
            rename(self.drawer.views)
        self.drawer.words = HOSTILE if hostile else SHARP if chance(source, 0.2) else WORDS
        self.views, self.bundled = self.drawer.views, Bundled(self.drawer.views)
        self.has_large_counts = chance(source, 0.2)
        self.tables = [Counter() if view.over else self.first(view) for view in self.views]
        self.names = {view.name: v for v, view in enumerate(self.views)}
        self.derived, self.told = self.answered([Counter() for _ in self.views])

    def first(self, view):
        return added((row, count) for row, count in self.drawer.records(view))

    def base(self):
        return [v for v, view in enumerate(self.views) if not view.over]

    def strategy(self):
        return drawn_strategy(self.bundled, self.source)

    def bundle(self, changes, strategy):
        data = [list(table.items()) for table in self.tables]
        parts = self.bundled.tables("data", data) + self.bundled.tables("changes", [list(each.items()) for each in changes])
        return self.bundled.catalogue() + parts + self.bundled.listed(strategy)

    def answered(self, changes, strategy=None):
        """The derived views after a night of these changes, or the words of its refusal."""
        return carried(self.started, self.views, self.bundle(changes, strategy or self.strategy()))

    def drawn_changes(self):
        """Netted changes of all views, of which some are of rows that are not there and some too large."""
        found = [Counter() if view.over else self.changes_of(view, self.tables[v]) for v, view in enumerate(self.views)]
        if chance(self.source, 0.06):
            v = self.source.choice(self.base())
            found[v][self.drawer.row(self.views[v])] -= 9
        return [added(change.items()) for change in found]

    def drawn_night(self):
        """Changes and a strategy. For some a refusal is wished; where none comes of it, the last draw is taken as it is."""
        changes, strategy = self.drawn_changes(), self.strategy()
        if not chance(self.source, REFUSED_PART):
            return changes, strategy
        wished = self.source.choice(REFUSALS)
        for _ in range(TRIES):
            changes, strategy = self.hard_changes(wished), self.strategy()
            _, told = self.answered(changes, strategy)
            if told and told.startswith(f"refused {wished}"):
                break
        return changes, strategy

    def hard_changes(self, wished):
        """Changes that may be refused as is wished: more leaves than is there, cells near 64 bits come, or rows that count far."""
        found = self.drawn_changes()
        for v in self.source.sample(self.base(), self.source.randint(1, len(self.base()))):
            row = self.drawer.row(self.views[v])
            if wished == "absent":
                row = self.source.choice([row, *sorted(self.tables[v])[:3]])
                found[v][row] = -self.tables[v].get(row, 0) - self.source.choice([1, 1, 9, 2**62])
            elif wished == "range":
                cells = zip(row, self.views[v].columns)
                found[v][tuple(self.source.choice([cell, *LARGE]) if kind == "int" else cell for cell, (_, kind) in cells)] = 1
            else:
                found[v][row] = self.source.choice([*LARGE_COUNTS, 2**63 - 1])
        return found

    def changes_of(self, view, table):
        records = [(row, min(count, 3)) for row, count in table.items()]
        change = added((row, count) for row, count in self.drawer.changes(view, records))
        for row in list(change):
            if change[row] > 0 and self.has_large_counts and chance(self.source, 0.2):
                change[row] = self.source.choice(LARGE_COUNTS)
            elif change[row] < 0 and chance(self.source, 0.3):
                change[row] = -table[row]
        return change

    def contents(self):
        return [self.derived[view.name] if view.over else table for view, table in zip(self.views, self.tables)]

    def night(self, changes, strategy):
        """What the program makes of a night, after which the tables are the new ones where it is done. Answers its refusal."""
        after, told = self.answered(changes, strategy)
        if told is None:
            self.tables = [added([*table.items(), *change.items()]) for table, change in zip(self.tables, changes)]
            self.derived = after
        return told
