"""A planner of its own, by the full tree, with what it and `certify` answer; and planners that go against one rule of weights each:
what judges plans has to notice all of these."""

from trials.spoilt.exchanged import other
from whview.strategy.plans import Bound, Branch, Catalogue, Cycle, Plan, expression_text, node_text
from whview.strategy.sizes import MOST_WEIGHT, is_fit


class Planner(Catalogue):
    """What is to be answered over a catalogue. A budget of 1 is the only one that it takes as spent, by a search."""

    def is_fit(self, size):
        return is_fit(*size)

    def answer(self, command, bundle, budget):
        for v in self.views:
            if not self.is_fit(self.sizes[v]):
                return f"fault sizes v{v}\n", 3
        return self.verdict(Plan(bundle.partition("@plan\n")[2])) if command == "certify" else self.planned(budget)

    def planned(self, budget):
        """The plan: by the desired order where its graph has no cycle, else by the full tree."""
        desired = self.as_desired()
        if not self.has_cycle(desired):
            return self.text("all", self.bound(desired), desired, self.pair_lines()), 0
        if budget == 1:
            return f"budget opened 1 best {self.bound(frozenset(self.couples))}\n", 4
        least, decided = self.full_tree_least()
        if least == self.bound(frozenset()):
            return self.text("all", least, decided, self.pair_lines()), 0
        return self.text("one-way", least, decided, map(node_text, self.tree(least, frozenset(), self.couples))), 0

    def text(self, scope, work, decided, certificate):
        steps = "".join(f"{expression_text(node)}\n" for node in self.without_a_cycle(decided))
        return f"scope {scope}\nwork {work}\n{steps}{''.join(certificate)}"

    def tree(self, work, decided, rest):
        """The nodes that show this work least, in preorder."""
        if self.bound(decided) >= work:
            return [Bound()]
        if cycle := self.cycle(decided):
            return [Cycle(tuple(cycle))]
        (u, w), *later = rest
        return [Branch(u, w), *self.tree(work, decided | {(u, w)}, later), *self.tree(work, decided | {(w, u)}, later)]

    def cycle(self, decided):
        """A cycle of the graph of these decisions, or none: each node that never goes has one before it that never goes."""
        gone = self.without_a_cycle(decided)
        left = [node for node in self.nodes if node not in gone]
        way = left[:1]
        while left:
            before = next(node for node in left if self.has_edge(node, way[-1], decided))
            if before in way:
                return way[way.index(before) :][::-1]
            way.append(before)
        return []


# ---- planners that go against one rule each


def of_rows(it):
    """The same without weights."""
    return Catalogue(it.over, [size[:3] for size in it.sizes], it.comp, it.inst)


FALSIFIED = [other(Planner, name, instead) for name, instead in {
    "a weight is taken twice": {"counts": lambda own, _, pre, post, change, weight=1: own(pre, post, change, weight * weight)},
    "a weight is not looked at": {"counts": lambda own, _, *size: own(*size[:3])},
    "a weight that is not told is two": {"counts": lambda own, _, pre, post, change, weight=2: own(pre, post, change, weight)},
    "rows before have no weight": {"counts": lambda own, _, *size: (size[0], *own(*size)[1:])},
    "rows after have no weight": {"counts": lambda own, _, *size: (own(*size)[0], size[1], own(*size)[2])},
    "changed rows have no weight": {"counts": lambda own, _, *size: (*own(*size)[:2], size[2])},
    "a growth is of rows": {"growth": lambda _, it, view: it.sizes[view][1] - it.sizes[view][0]},
    "an inst costs rows": {"inst_cost": lambda _, it, view: it.inst * it.sizes[view][2]},
    "a bound is of rows": {"bound": lambda _, it, decided: of_rows(it).bound(decided)},
    "a pair is of rows": {"pair_lines": lambda _, it: of_rows(it).pair_lines()},
    "a plan is judged by its own weights": {"verdict": lambda _, __, plan: (f"certified {plan.scope} work {plan.work}\n", 0)},
    "a limit is tested behind the weight": {"is_fit": lambda own, it, size: own(it.counts(*size))},
    "the greatest weight is refused": {"is_fit": lambda own, _, size: own(size) and size[3:] != (MOST_WEIGHT,)},
}.items()]
