"""The program on bounds under many decisions, over catalogues of 64 views, 48 of them over 6 views each.

`certify` judges a tree: branches one below another whose first side is a bound, and below the last of them a full tree of bounds.
Each view is over views of the level below it, so the plan costs the pair bound, and each leaf holds. `plan` searches with a
budget, where children are drawn among all earlier views and the ordered graph has a cycle. What is printed is the best of some
runs of the whole program, since other work on a machine only adds time, and what a bound and a node take of it: what `certify`
takes over a tree that is one bound, and what `plan` takes over a budget of one.
"""

import random
from pathlib import Path
from tempfile import TemporaryDirectory

from upkeep.bench import best, in_turn
from upkeep.words import program
from whview.strategy import plans

LEVEL, LEVELS, CHILDREN = 16, 4, 6
FULL = 18
BUDGET = 20000
ROUNDS = 3
SEED = 20261123


def level_below(source, view):
    first = view // LEVEL * LEVEL - LEVEL
    return source.sample(range(first, first + LEVEL), CHILDREN)


def any_earlier(source, view):
    return source.sample(range(view), CHILDREN)


def drawn(source, children_of):
    views = range(LEVEL * LEVELS)
    children = [[] if view < LEVEL else children_of(source, view) for view in views]
    sizes = [(pre, post, abs(post - pre) + 1) for pre, post in ((source.randint(1, 999), source.randint(1, 999)) for _ in views)]
    return plans.Catalogue(children, sizes, 1, 1)


def full_tree(couples):
    if not couples:
        return "bound\n"
    below = full_tree(couples[1:])
    return f"branch v{couples[0][0]} v{couples[0][1]}\n{below}{below}"


class Timed:
    """The program, whose runs on a bundle have to answer in one way each time."""

    def __init__(self, started, room, rounds):
        self.started, self.file, self.rounds = started, Path(room) / "bundle", rounds

    def run(self, words, bundle, wanted):
        """The best time in milliseconds, and the answer, which has to begin so."""
        self.file.write_text(bundle)
        runs = in_turn({"": ([self.started, *words], self.file)}, self.rounds)[""]
        assert all(ran.text.startswith(wanted) for ran in runs), runs[0].text[:200]
        return best(runs) * 1000, runs[0].text

    def certify(self, source):
        catalogue = drawn(source, level_below)
        bundle = catalogue.bundle()
        _, plan = self.run(["plan"], bundle, "scope all\n")
        steps = [line for line in plan.splitlines(keepends=True) if line.startswith(("comp ", "inst "))]
        work = catalogue.bound(frozenset())
        couples = source.sample(catalogue.couples, len(catalogue.couples))
        chain = couples[FULL:]
        tree = "".join(f"branch v{lower} v{higher}\nbound\n" for lower, higher in chain) + full_tree(couples[:FULL])
        head, wanted = f"{bundle}@plan\nscope one-way\nwork {work}\n{''.join(steps)}", f"certified one-way work {work}\n"
        least, _ = self.run(["certify"], f"{head}bound\n", wanted)
        whole, _ = self.run(["certify"], head + tree, wanted)
        bounds = len(chain) + 2**FULL
        each = (whole - least) * 1000 / (bounds - 1)
        print(f"certify, {bounds} bounds, most below {len(chain) + FULL} decisions: {whole:.1f} ms, {each:.1f} us for each bound")

    def plan(self, source):
        catalogue = drawn(source, any_earlier)
        bundle = catalogue.bundle()
        least, _ = self.run(["plan", "--budget", "1"], bundle, "budget opened 1 best ")
        whole, _ = self.run(["plan", "--budget", str(BUDGET)], bundle, f"budget opened {BUDGET} best ")
        each = (whole - least) * 1000 / (BUDGET - 1)
        print(f"plan, {BUDGET} nodes, {len(catalogue.couples)} couples: {whole:.0f} ms, {each:.1f} us for each node")


def measure(asked):
    source = random.Random(SEED)
    with TemporaryDirectory() as room:
        timed = Timed(program(asked.program), room, asked.rounds)
        timed.certify(source)
        timed.plan(source)
