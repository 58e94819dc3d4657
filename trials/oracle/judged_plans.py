"""Plans of a program, judged by what python/whview/strategy/plans.py finds: the least work, the certificate, other budgets and weights, changed trees."""

import random
import subprocess
from collections import Counter

from whview.strategy.plans import Plan, changed_trees, tree_end, with_other_weights


class Judge:
    """Asks a program for plans and judges them."""

    def __init__(self, started):
        self.started = started

    def answer(self, command, catalogue, bundle, *options):
        """What the program prints, and its status."""
        words = [self.started, command, "--comp-cost", str(catalogue.comp), "--inst-cost", str(catalogue.inst), *options]
        ran = subprocess.run(words, input=bundle, capture_output=True, text=True, timeout=60)
        return ran.stdout, ran.returncode

    def certified(self, catalogue, plan):
        return self.answer("certify", catalogue, catalogue.bundle() + "@plan\n" + plan)

    def mistake_in_plan(self, catalogue, text, status):
        """What is wrong with the answer of `plan`, or None."""
        if status != 0:
            return "no plan"
        plan = Plan(text)
        if catalogue.work_of(plan.steps) != plan.work:
            return f"the work of the list is {catalogue.work_of(plan.steps)}"
        if any(sources and len(sources) > 1 for _, sources in plan.steps):
            return "the list is not one-way"
        if (least := catalogue.least_work(1)) != plan.work:
            return f"the least work of a one-way strategy is {least}"
        if (least := catalogue.full_tree_least()[0]) != plan.work:
            return f"the least work of the full tree is {least}"
        if plan.scope != ("all" if plan.work == catalogue.bound(frozenset()) else "one-way"):
            return f"the pair bound is {catalogue.bound(frozenset())}"
        if plan.scope == "all" and (least := catalogue.least_work(len(catalogue.over))) != plan.work:
            return f"the least work is {least}"
        if plan.scope == "one-way" and not catalogue.has_cyclic_order():
            return "the ordered graph has no cycle"
        right = (f"certified {plan.scope} work {plan.work}\n", 0)
        if (judged := catalogue.verdict(plan)) != right:
            return f"the certificate is {judged[0].strip()}"
        if (got := self.certified(catalogue, text)) != right:
            return f"certify answered {got}"
        return None

    def mistake_under_other_weights(self, source, catalogue, text):
        """What is wrong with the verdicts on a plan that was made under other weights, or None, and the verdicts: on the plan as it
        is, and where it says the work that its list has now."""
        other, verdicts = with_other_weights(source, catalogue), Counter()
        scope, _, rest = text.split("\n", 2)
        for plan in (text, f"{scope}\nwork {other.work_of(Plan(text).steps)}\n{rest}"):
            expected = other.verdict(Plan(plan))
            verdicts[expected[0].rstrip("0123456789 \n") if expected[1] else "certified"] += 1
            if (got := self.certified(other, plan)) != expected:
                return f"of the plan\n{plan}certify answered {got}, and not {expected}, over\n{other.bundle()}", verdicts
        return None, verdicts

    def mistake_without_a_search(self, catalogue):
        """What is wrong with the plan of a tree or a uniform shape, or None: no node may be opened."""
        text, status = self.answer("plan", catalogue, catalogue.bundle(), "--budget", "1")
        if status != 0 or not text.startswith("scope all\n"):
            return f"a budget of 1 answered {text}, status {status}"
        plan = Plan(text)
        if not plan.work == catalogue.work_of(plan.steps) == catalogue.bound(frozenset()):
            return f"the work is {plan.work}, that of the list {catalogue.work_of(plan.steps)}, of {text}"
        verdict = catalogue.verdict(plan)
        return None if verdict[1] == 0 else f"{verdict[0]} of {text}"

    def mistake_in_budgets(self, catalogue, text):
        """What is wrong with the answers to other budgets, or None: one of a single node, and one of all nodes of the full tree."""
        full = 2 ** (len(catalogue.couples) + 1)
        if (got := self.answer("plan", catalogue, catalogue.bundle(), "--budget", str(full))) != (text, 0):
            return f"a budget of {full} answered {got}"
        got, status = self.answer("plan", catalogue, catalogue.bundle(), "--budget", "1")
        if (got, status) == (text, 0):
            return None
        if not catalogue.has_cyclic_order():
            return f"a budget of 1 answered {got}"
        match got.split():
            case ["budget", "opened", "1", "best", best] if status == 4:
                lower_first = catalogue.bound(frozenset(catalogue.couples))
                return None if catalogue.least_work(1) <= int(best) <= lower_first else f"a budget of 1 answered {got}"
        return f"a budget of 1 answered {got}, status {status}"

    def mistakes_in_trees(self, seed, catalogue, text):
        """What is wrong with the verdicts on changed trees, and how many changes of each kind were right and wrong ones."""
        plan = Plan(text)
        if plan.scope == "all":
            return None, Counter()
        nodes, tried = plan.tree(), Counter()
        if place := catalogue.judge_tree(nodes, plan.work):
            return f"node {place} of the tree is bad", tried
        for change, tree in changed_trees(random.Random(seed), catalogue, nodes):
            expected = expected_of_tree(catalogue, plan, tree)
            tried[change, expected[1] == 0] += 1
            changed = plan.with_tree(tree)
            if (got := self.certified(catalogue, changed)) != expected:
                return f"of the plan\n{changed}certify answered {got}, and not {expected}", tried
        return None, tried

    def judged(self, numbered):
        """The answer of `plan`, what is wrong, and the changes that were tried."""
        seed, catalogue = numbered
        text, status = self.answer("plan", catalogue, catalogue.bundle())
        wrong = self.mistake_in_plan(catalogue, text, status) or self.mistake_in_budgets(catalogue, text)
        if wrong:
            return text, wrong, Counter()
        wrong, verdicts = self.mistake_under_other_weights(random.Random(f"weights {seed}"), catalogue, text)
        if wrong:
            return text, wrong, Counter()
        wrong, tried = self.mistakes_in_trees(seed, catalogue, text)
        return text, wrong, tried + verdicts


def expected_of_tree(catalogue, plan, nodes):
    """What `certify` has to answer for the plan with this tree."""
    end = tree_end(nodes)
    if end is not None:
        return f"fault plan {plan.head + end + 1}\n", 3
    place = catalogue.judge_tree(nodes, plan.work)
    return (f"rejected at {place}\n", 1) if place else (f"certified one-way work {plan.work}\n", 0)
