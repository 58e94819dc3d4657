"""Nights whose answers are worked out from the definitions alone, and some that are drawn."""

import subprocess
from types import SimpleNamespace

from trials.drawn.views import Drawer, chance
from trials.oracle.tables import bag_of
from whview.bundle import unpack
from whview.catalogue.evaluator import Evaluator, added, difference, terms, total
from whview.catalogue.parts import Warehouse, line
from whview.catalogue.views import View, numbered


class Night(Warehouse):
    """Views, the tables of the base views and their changes, record by record."""

    def __init__(self, views, records, changes):
        super().__init__(views)
        self.records, self.changes = records, changes
        self.old = self.contents(views, list(map(added, records)))
        self.new = self.contents(views, [added(before + changed) for before, changed in zip(records, changes)])
        self.change = [difference(new, old) for new, old in zip(self.new, self.old)]

    def contents(self, views, tables):
        """The tables of all views over these base tables, each derived view from scratch."""
        return Evaluator().contents(views, tables)

    def texts(self):
        """All texts in the order of their numbers."""
        return numbered(self.views, self.records, self.changes)

    def step(self, view, sources, installed):
        """The rows that an expression reads or installs: those of all terms of a Comp, those of the change for an Inst."""
        if sources is None:
            return total(self.change[view])
        states = {u: total((self.new if u in installed else self.old)[u]) for u in self.over[view]}
        changes = {u: total(self.change[u]) for u in self.over[view]}
        return sum(map(sum, terms(self.over[view], sources, states, changes)))

    def report(self, strategy):
        """The lines of a strategy's steps, of its work and of the version."""
        lines, work, installed = [], 0, set()
        for view, sources in strategy:
            rows = self.step(view, sources, installed)
            work += rows
            lines.append(f"{self.expression(view, sources)}: {rows}\n")
            if sources is None:
                installed.add(view)
        return "".join(lines) + f"work {work}\nversion 1\n"

    def shown(self):
        """The tables of the derived views after the night, as they are printed."""
        return self.printed("view", self.new)

    def shown_changes(self):
        """The changes of the derived views, as they are printed."""
        return self.printed("changes", self.change)

    def printed(self, word, tables):
        """Each derived view's rows of these, in rising order, below a line with this word."""
        number = {text: place for place, text in enumerate(self.texts())}
        text = ""
        for v in self.derived:
            view, rows = self.views[v], {row: count for row, count in tables[v].items() if count}
            text += f"{word} {view.name}\n" + line(["#", *(name for name, _ in view.columns)])
            for row in sorted(rows, key=lambda row: [number.get(cell, cell) for cell in row]):
                text += line([rows[row], *row])
        return text

    def readers(self, count):
        """The lines of so many readers: each was given the distinct rows of all views of before."""
        rows = sum(len([row for row in table if table[row]]) for table in self.old)
        return "".join(f"reader {reader} version 0 rows {rows}\n" for reader in range(count))

    def bundle(self, strategy):
        return self.catalogue() + self.tables("data", self.records) + self.tables("changes", self.changes) + self.listed(strategy)

    def again(self):
        """A night over the new base with no changes. A first view has all texts, so that they have the numbers that they had."""
        first = View("texts", [("text", "text")])
        moved = [moved_by_one(view) for view in self.views]
        width = len(self.views) + 1
        records = [[((text,), 1) for text in self.texts()]]
        records += [[] if view.over else sorted(table.items(), key=repr) for view, table in zip(self.views, self.new)]
        return Night([first, *moved], records, [[] for _ in range(width)])


def moved_by_one(view):
    """The view where all numbers of views are one higher."""
    over = [u + 1 for u in view.over]
    return View(view.name, view.columns, over, view.join, view.where, view.keep, view.group, view.sums)


def catalogue_of(views, words):
    """A catalogue as scripts have it, of views and their words in bundles."""
    return SimpleNamespace(views=views, names={view.name: v for v, view in enumerate(views)}, words=words, content="", sizes=None)


def carried(program, views, bundle):
    """The tables of the derived views after a night by the program, by their names, or the words of a refusal."""
    ran = subprocess.run([program, "night"], input=bundle, capture_output=True, timeout=60)
    if ran.returncode:
        return None, ran.stdout.decode().partition("\n")[0]
    columns = {view.name: view.columns for view in views}
    return {name: bag_of(text.decode(), columns[name]) for name, text in unpack(ran.stdout).items()}, None


# ---- drawing


def drawn(source):
    """A night in which each derived view has rows in the end and has changed."""
    while True:
        night = drawn_once(source)
        if all(night.new[v] and night.change[v] for v in night.derived):
            return night


def night_of(drawer):
    """A night over the views that were drawn."""
    views = drawer.views
    records = [[] if view.over else drawer.records(view) for view in views]
    changes = [[] if view.over else drawer.changes(view, records[v]) for v, view in enumerate(views)]
    return Night(views, records, changes)


def drawn_once(source):
    """A night over views that are drawn."""
    drawer = Drawer(source)
    draw_views(drawer)
    return night_of(drawer)


def draw_views(drawer):
    """Three base views, and over them a summary, a join of two with it, a join of three, a summary of a join, and one view more."""
    source = drawer.source
    bases = [drawer.base(source.randint(2, 3)) for _ in range(3)]
    first = drawer.summary([source.choice(bases)])
    two = drawer.joined(source.sample([first, source.choice(bases)], 2))
    three = drawer.joined(source.sample(bases, 3))
    upper = drawer.summary([source.choice([two, three])])
    if chance(source, 0.5):
        drawer.joined([upper, source.choice([first, two, three])])
    else:
        drawer.summary(source.sample([first, two, upper], 2))
