"""Runs all commands on catalogues of 64 views, 48 of them over 6 children each, with 64 columns each.

In the first catalogue each view is over views of the level below it alone, so its ordered graph has no cycle; in the second
the children are drawn among all earlier views, and the graph has one. The sizes are those of a night over the catalogue, which
an evaluator works out: so `check`, `plan` and `night` have to name one work for one strategy. The night is
carried out by all changes at once, view by view, and by the plan; its tables are the evaluator's each time, and so they are
where `replay` goes through the night with 16 workers and then reads all views. What is planned costs the pair bound, as
a search of its own works it out, and `certify` accepts it.
"""

import random
import subprocess
from time import monotonic

from trials.drawn import nights
from trials.drawn.views import WORDS
from trials.ended import ended, told
from trials.oracle.machine import Machine
from upkeep.words import program, words_with_program
from whview.catalogue.evaluator import total
from whview.catalogue.views import Place, View
from whview.strategy import plans

BASES, LEVELS, LEVEL, WIDTH, CHILDREN = 16, 6, 8, 64, 6
SEED = 20261122
BUDGET = 300
WORKERS, KEYS = 16, 256


def level_below(source, view):
    """Children of the level below: the base views, or eight derived ones."""
    level = (view - BASES) // LEVEL
    below = range(BASES) if level == 0 else range(BASES + (level - 1) * LEVEL, BASES + level * LEVEL)
    return source.sample(below, CHILDREN)


def any_earlier(source, view):
    return source.sample(range(view), CHILDREN)


# ---- views: the first column is a key, the second a text, all others are numbers


def base(view):
    columns = [("key", "int"), ("word", "text")] + [(f"c{place}", "int") for place in range(2, WIDTH)]
    return View(f"b{view}", columns)


def number(source):
    """A column of the combined row that is a number, or a sum or difference of two."""
    places = [Place(child * WIDTH + source.randrange(2, WIDTH)) for child in source.sample(range(CHILDREN), 2)]
    return [source.choice("+-"), *places] if source.random() < 0.1 else places[0]


def derived(source, view, over):
    """A join by keys, or every fourth time a summary of one by all its groups."""
    join = [(child * WIDTH, (child + 1) * WIDTH) for child in range(CHILDREN - 1)]
    where = ["any", *([">", number(source), source.randint(-9, 0)] for _ in range(3)), ["=", Place(0), 1]]
    if view % 4:
        keep = [Place(0), Place(WIDTH + 1)] + [number(source) for _ in range(2, WIDTH)]
        columns = [("key", "int"), ("word", "text")] + [(f"k{place}", "int") for place in range(2, WIDTH)]
        return View(f"v{view}", columns, over, join, where, keep=keep)
    group = [0, WIDTH + 1] + [child * WIDTH + place for child in range(CHILDREN) for place in range(2, 12)]
    columns = [("key", "int"), ("word", "text")] + [(f"g{place}", "int") for place in range(2, len(group))]
    columns += [("n", "int"), ("total", "int")]
    return View(f"v{view}", columns, over, join, where, group=group, sums=[number(source)])


def row(source, key):
    return (key, source.choice(WORDS), *(source.randint(-9, 9) for _ in range(2, WIDTH)))


def night(source, children_of):
    """A night in which each base view has three rows, and one row moves, changes or stays."""
    views = [base(view) for view in range(BASES)]
    for view in range(BASES, BASES + LEVELS * LEVEL):
        views.append(derived(source, view, children_of(source, view)))
    records, changes = [[] for _ in views], [[] for _ in views]
    for view in range(BASES):
        records[view] = [(row(source, key), 1) for key in (1, 2, 3)]
        leaving, coming = source.choice([(3, 4), (2, 2), (1, 1)])
        if view % 5:
            changes[view] = [(records[view][leaving - 1][0], -1), (row(source, coming), 1)]
    return nights.Night(views, records, changes)


# ---- runs


def cut(items, length):
    """The items in pieces of this length, the last one perhaps shorter."""
    return [items[begun : begun + length] for begun in range(0, len(items), length)]


class Judge:
    """The program, a night with its bundle and sizes, and what was wrong."""

    def __init__(self, started, name, drawn):
        self.started, self.name, self.night, self.wrong, self.tried = started, name, drawn, [], 0
        sizes = [tuple(map(total, tables)) for tables in zip(drawn.old, drawn.new, drawn.change)]
        self.catalogue = plans.Catalogue([view.over for view in drawn.views], sizes, 1, 1)
        rows = "".join(f"{view.name},{pre},{post},{change}\n" for view, (pre, post, change) in zip(drawn.views, sizes))
        self.sizes = f"@sizes\nview,pre,post,change\n{rows}".encode()
        self.slowest = 0.0

    def answer(self, words, given):
        """What the program prints, and its status."""
        before = monotonic()
        ran = subprocess.run([self.started, *words.split()], input=given, capture_output=True, timeout=120)
        self.slowest = max(self.slowest, monotonic() - before)
        return ran.stdout.decode(errors="replace"), ran.returncode

    def expect(self, what, got, wanted):
        self.tried += 1
        if got != wanted:
            self.wrong.append(f"{self.name}, {what}: {str(got)[:2000]}\nwhere the definitions say {str(wanted)[:2000]}")

    def carry(self, what, strategy):
        """The work of a strategy by `check`, and the whole answer of `night`."""
        bundle = self.night.bundle(strategy) + self.sizes
        report = self.night.report(strategy)
        work = f"\n{report}".partition("\nwork ")[2].partition("\n")[0]
        self.expect(f"check {what}", self.answer("check", bundle), (f"correct\nwork {work}\n", 0))
        self.expect(f"night {what}", self.answer("night", bundle), (report + self.night.shown(), 0))
        return int(work)

    def replay(self, strategy):
        """The night by 16 workers who draw in turn and are done in the other order, and what a desk reads of all views then."""
        events, replies = ["begin"], ["begun"]
        for stage in Machine.stages(strategy):
            if isinstance(stage, int):
                pages = cut(list(self.night.change[stage]), KEYS)
                events += ["page"] * len(pages)
                replies += [f"paged {len(page)}" for page in pages]
                continue
            for jobs in cut(range(len(stage)), WORKERS):
                events += [f"take {job % WORKERS}" for job in jobs] + [f"done {job % WORKERS}" for job in reversed(jobs)]
                replies += [f"job {job}" for job in jobs] + ["done"] * len(jobs)
        number = {text: place for place, text in enumerate(self.night.texts())}
        events, replies = events + ["commit", "open 0"], replies + ["version 1", "session 1"]
        for view, table in zip(self.night.views, self.night.new):
            rows = sorted([*(number.get(cell, cell) for cell in row), count] for row, count in table.items())
            pages = cut(rows, KEYS) or [[]]
            for page in pages:
                events.append(f"read 0 {view.name} {KEYS}")
                read = "".join(f" [{row[-1]} {' '.join(map(str, row[:-1]))}]" for row in page)
                replies.append(f"page{read} {'end' if page is pages[-1] else 'more'}")
        head = f"@schedule\ndesks 1\nworkers {WORKERS}\nkeys {KEYS}\n"
        bundle = self.night.bundle(strategy) + (head + "".join(f"{event}\n" for event in events)).encode()
        self.expect("replay", self.answer("replay", bundle), ("".join(f"{reply}\n" for reply in replies), 0))

    def named(self, text):
        """The strategy of a plan, by numbers of views."""
        number = {view.name: place for place, view in enumerate(self.night.views)}
        words = [line.split() for line in text.splitlines() if line.startswith(("comp ", "inst "))]
        return [(number[line[1]], tuple(number[u] for u in line[3:]) or None) for line in words]

    def plan(self, least):
        """The plan, its certificate, and its night where there is one of least work; else that the budget is spent."""
        bundle = self.night.bundle([]) + self.sizes
        text, status = self.answer(f"plan --budget {BUDGET}", bundle)
        bound = self.catalogue.bound(frozenset())
        if least:
            self.expect("plan", (text.splitlines()[:2], status), (["scope all", f"work {bound}"], 0))
            if status != 0:
                return
            planned = self.answer("certify", bundle + b"@plan\n" + text.encode())
            self.expect("certify", planned, (f"certified all work {bound}\n", 0))
            self.expect("the plan's work", self.carry("by the plan", self.named(text)), bound)
            return
        words = text.split()
        self.expect("plan", (words[:-1], status), (["budget", "opened", str(BUDGET), "best"], 4))
        best = int(words[-1]) if words else 0
        lower_first = self.catalogue.bound(frozenset(self.catalogue.couples))
        self.expect("a best work between the bounds", bound <= best <= lower_first, True)


def main():
    started, source = program(words_with_program(__doc__).parse_args().program), random.Random(SEED)
    status = 0
    for name, children_of, least in (("levels", level_below, True), ("drawn children", any_earlier, False)):
        judge = Judge(started, name, night(source, children_of))
        at_once, one_way = judge.night.at_once(), judge.night.one_way()
        judge.carry("all at once", at_once)
        judge.carry("view by view", one_way)
        judge.replay(one_way)
        judge.replay(at_once)
        judge.plan(least)
        told(judge.wrong)
        rows, couples = sum(len(judge.night.new[v]) for v in judge.night.derived), len(judge.catalogue.couples)
        more = f"; {rows} rows derived, {couples} couples, the slowest answer took {judge.slowest:.1f} s"
        status |= ended(f"wide, {name}", judge.tried, len(judge.wrong), more)
    return status
