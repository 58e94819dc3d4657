"""Runs `whview plan` on small catalogues and compares its work with the least of all correct strategies.

The least work is found by a search over states, which views are installed and which sources of which views are done, with
Comps from any number of views or from one: written from the rules S1 to S6 and from the definition of work, and apart from
the program. The list of a plan has to be correct and one-way, its work has to be that of the list and the least of all
one-way strategies, and its scope has to be all exactly where that is the pair bound, and then no strategy of any width may
cost less; `certify` has to accept the plan. Where the ordered graph has no cycle a budget of one is enough, and elsewhere a
budget that is spent has to be told as such, with a work that a one-way strategy has.

Sizes are small or as large as they may be, without weights or with them. Each plan is judged once more under other weights, as it
is and with the work that its list has then, and `certify` has to refuse it where its work or the minimum of a pair is another one.

Trees and uniform shapes are drawn besides, up to 64 views: each plan has scope all and the work of the pair bound, by a budget of
one. So are shapes that an edge makes neither.

Trees are changed, a node at a time, and `certify` has to answer what a judge of trees says that is written here from the
definition of an accepted certificate.

The work is also that of the full tree: the least bound over all ways to decide the couples that leave the graph without a
cycle. A search that looks only where it must has to find the same.

There are as many catalogues as are asked for, two in five of them with a cycle in the ordered graph. Before all that, and alone with
`--selftest`, a planner of its own has to pass over the first of them, and each planner of trials/oracle/planner.py that goes against a rule
has to be noticed.
"""

import random
from collections import Counter
from concurrent.futures import ThreadPoolExecutor

from trials.ended import ended, told
from trials.oracle.judged_plans import Judge
from trials.oracle.planner import FALSIFIED, Planner
from upkeep.words import program, words_with_program
from whview.strategy import kinds
from whview.strategy.plans import drawn, drawn_cyclic, with_drawn_sizes

SEED, NOTICED = 20261122, 200


class Modelled(Judge):
    """The same of a planner of trials/oracle/planner.py."""

    def answer(self, command, catalogue, bundle, *options):
        planner = self.started(catalogue.over, catalogue.sizes, catalogue.comp, catalogue.inst)
        return planner.answer(command, bundle, int(options[1]) if options else 10**6)


# ---- the judge itself


def mistake_of(planner, numbered):
    """What is wrong with the answers of a planner over a catalogue, or None."""
    number, catalogue = numbered
    judge = Modelled(planner)
    text, status = judge.answer("plan", catalogue, catalogue.bundle())
    wrong = judge.mistake_in_plan(catalogue, text, status) or judge.mistake_in_budgets(catalogue, text)
    return wrong or judge.mistake_under_other_weights(random.Random(number), catalogue, text)[0]


def selftest(seed):
    """What the judge does not notice, and what it has against a right planner."""
    source = random.Random(seed)
    numbered = list(enumerate(drawn_cyclic(source, 8) if number % 3 == 0 else drawn(source, 8) for number in range(NOTICED)))
    wrongs = [f"the right planner: {wrong}\n{each[1].bundle()}" for each in numbered if (wrong := mistake_of(Planner, each))]
    for kind in FALSIFIED:
        if not any(mistake_of(kind, each) for each in numbered):
            wrongs.append(f"{NOTICED} catalogues do not notice that {kind.__name__}")
    told(wrongs)
    more = f"; {len(FALSIFIED)} of them are falsified, and noticed within {NOTICED} catalogues"
    return ended("planners", 1 + len(FALSIFIED), len(wrongs), more)


# ---- trees and uniform shapes


def without_a_search(judge, source, count):
    """Judges the plans of trees and of uniform shapes, as many together."""
    shapes = [kinds.drawn_tree(source) if number % 2 else kinds.drawn_uniform(source) for number in range(count)]
    catalogues = [with_drawn_sizes(source, shape) for shape in shapes]
    with ThreadPoolExecutor(max_workers=2) as runners:
        found = list(runners.map(judge.mistake_without_a_search, catalogues))
    wrongs = [f"{wrong}:\n{each.bundle()}" for each, wrong in zip(catalogues, found) if wrong]
    told(wrongs[:5])
    trees, uniform = ([is_one(shape) for shape in shapes] for is_one in (kinds.is_tree, kinds.is_uniform))
    both = sum(map(min, trees, uniform))
    more = f"; {sum(trees)} trees and {sum(uniform)} uniform ones, {both} of them both, {max(map(len, shapes))} views at most"
    return ended("shapes without a search", count, len(wrongs), more)


def main():
    given = words_with_program(__doc__)
    given.add_argument("--catalogues", type=int, default=1200, metavar="N", help="how many are drawn (%(default)s)")
    given.add_argument("--couples", type=int, default=14, metavar="N", help="how many couples each has at most (%(default)s)")
    given.add_argument("--shapes", type=int, default=2000, metavar="N", help="how many trees and uniform shapes are drawn (%(default)s)")
    given.add_argument("--selftest", action="store_true", help="tries the judge alone")
    asked = given.parse_args()
    status = selftest(SEED)
    if asked.selftest:
        return status
    source, cyclic, neither = random.Random(SEED), asked.catalogues * 2 // 5, asked.catalogues // 6
    catalogues = [drawn(source, asked.couples) for _ in range(asked.catalogues - cyclic - neither)]
    catalogues += [drawn_cyclic(source, asked.couples) for _ in range(cyclic)]
    catalogues += [with_drawn_sizes(source, kinds.drawn_neither(source, asked.couples)) for _ in range(neither)]
    judge = Judge(program(asked.program))
    with ThreadPoolExecutor(max_workers=2) as runners:
        answers = list(runners.map(judge.judged, enumerate(catalogues)))
    tried = sum((changes for _, _, changes in answers), Counter())
    wrongs = [f"{wrong}:\n{each.bundle()}answered\n{text}" for each, (text, wrong, _) in zip(catalogues, answers) if wrong]
    told(wrongs)
    one_way = sum(text.startswith("scope one-way\n") for text, _, _ in answers)
    cyclic = sum(catalogue.has_cyclic_order() for catalogue in catalogues)
    weighted = sum(len(catalogue.sizes[0]) > 3 for catalogue in catalogues)
    most = max(len(catalogue.couples) for catalogue in catalogues)
    more = f"; {cyclic} ordered graphs have a cycle, {one_way} plans are one-way, {weighted} have weights, {most} couples at most"
    status |= ended("plans", len(catalogues), len(wrongs), more)
    verdicts = ", ".join(f"{tried.pop(verdict)} {verdict}" for verdict in ("certified", "rejected work", "rejected at") if verdict in tried)
    print(f"plans under other weights: {verdicts}")
    for change in sorted({change for change, _ in tried}):
        print(f"trees with a node {change}: {tried[change, False]} rejected, {tried[change, True]} right all the same")
    return status | without_a_search(judge, source, asked.shapes)
