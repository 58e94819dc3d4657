"""Plans: catalogues with sizes and costs, the least work over them found by searches, and trees of decisions with a judge of these."""

from __future__ import annotations

from collections.abc import Collection, Iterable, Iterator, Sequence
from dataclasses import dataclass
from functools import lru_cache
from itertools import combinations, zip_longest
from math import inf
from random import Random
from typing import TypeAlias

from ..catalogue.evaluator import terms
from .rules import Comp, Edge, Inst, Rules, Step, Strategy
from .sizes import MOST_ROWS, MOST_WEIGHT, Size, part_of

CHANGED_NODES = 5
COSTS = [1, 1, 2, 3, 1000000]
WEIGHTS = [1, 1, 2, 3, 10, MOST_WEIGHT]
# Two views under a common one, the lower number first; and decisions, each a couple with the view first that is installed first.
Couple: TypeAlias = tuple[int, int]
Decided: TypeAlias = frozenset[Couple]


@dataclass(frozen=True, slots=True)
class Bound:
    """The end of a tree where the bound is no less than the work."""


@dataclass(frozen=True, slots=True)
class Cycle:
    """The end of a tree where the graph of the decisions has this cycle, of Comps from one view each and of Insts."""

    steps: tuple[Step, ...]


@dataclass(frozen=True, slots=True)
class Branch:
    """A couple that is decided one way and then the other way."""

    lower: int
    higher: int


Node: TypeAlias = Bound | Cycle | Branch


class Catalogue(Rules):
    """Views, each over the numbers of earlier ones, with their sizes and the costs of a row. A view's sizes are its rows before and
    after and how many change and, where weights are told, its weight."""

    def __init__(self, over: Sequence[Sequence[int]], sizes: Sequence[Size], comp: int, inst: int) -> None:
        super().__init__(over)
        self.sizes = sizes
        counts = [self.counts(*size) for size in sizes]
        self.pre, self.post, self.change = ([count[at] for count in counts] for at in range(3))
        self.comp = comp
        self.inst = inst
        self.views = range(len(over))
        self.pairs = [(v, u, w) for v in self.derived for u, w in combinations(sorted(over[v]), 2)]
        self.couples = sorted({(u, w) for _, u, w in self.pairs})
        self.nodes: list[Step] = [*(Comp(v, (u,)) for v in self.derived for u in sorted(over[v])), *map(Inst, self.views)]

    def bundle(self) -> str:
        """The parts of a bundle that say it."""
        lines = ["@catalogue"]
        for v in self.views:
            lines += ["[[view]]", f'name = "v{v}"']
            if self.over[v]:
                lines.append("over = [" + ", ".join(f'"v{u}"' for u in self.over[v]) + "]")
        return "\n".join(lines) + "\n" + part_of([f"v{v}" for v in self.views], self.sizes)

    # ---- what a view counts as

    def counts(self, pre: int, post: int, change: int, weight: int = 1) -> tuple[int, int, int]:
        """What a view counts as wherever work is reckoned: its rows before and after and those that change, each times the weight."""
        return pre * weight, post * weight, change * weight

    def growth(self, view: int) -> int:
        """By how much a view grows, which the desired order goes by."""
        return self.post[view] - self.pre[view]

    def inst_cost(self, view: int) -> int:
        return self.inst * self.change[view]

    # ---- strategies

    def comp_cost(self, view: int, sources: Sequence[int], installed: Collection[int]) -> int:
        """What a Comp costs: a term for each non-empty part of its sources."""
        states = {u: self.post[u] if u in installed else self.pre[u] for u in self.over[view]}
        return self.comp * sum(sum(rows) for rows in terms(self.over[view], sources, states, self.change))

    def work_of(self, steps: Strategy) -> int | None:
        """The work of a list, or None where it is not correct."""
        installed: set[int] = set()
        done: set[Edge] = set()
        work = 0
        for view, sources in steps:
            if sources is None:
                if not self.may_inst(view, installed, done):
                    return None
                installed.add(view)
                work += self.inst_cost(view)
            else:
                if not self.may_comp(view, sources, installed, done):
                    return None
                work += self.comp_cost(view, sources, installed)
                done.update((view, u) for u in sources)
        return work if installed == set(self.views) else None

    def least_work(self, widest: int) -> float:
        """The least work of all correct strategies whose Comps have at most so many sources."""
        cost = lru_cache(maxsize=None)(self.comp_cost)

        @lru_cache(maxsize=None)
        def rest(installed: frozenset[int], done: frozenset[Edge]) -> float:
            if len(installed) == len(self.views):
                return 0
            found: list[float] = []
            for v in self.views:
                if self.may_inst(v, installed, done):
                    found.append(self.inst_cost(v) + rest(installed | {v}, done))
            for v in self.derived:
                ready = [u for u in self.over[v] if self.may_comp(v, (u,), installed, done)]
                seen = installed & frozenset(self.over[v])
                for count in range(1, min(widest, len(ready)) + 1):
                    for sources in combinations(ready, count):
                        taken = done | {(v, u) for u in sources}
                        found.append(cost(v, sources, seen) + rest(installed, taken))
            return min(found, default=inf)

        return rest(frozenset(), frozenset())

    # ---- decisions, each a couple with the view first that is installed first

    def bound(self, decided: Collection[Couple]) -> int:
        """The pair bound, with each decided couple at the value of its decision."""
        rows = sum(self.change[u] for v in self.derived for u in self.over[v])
        for _, u, w in self.pairs:
            lower_first, higher_first = self.pre[w] + self.post[u], self.pre[u] + self.post[w]
            if (u, w) in decided:
                rows += lower_first
            elif (w, u) in decided:
                rows += higher_first
            else:
                rows += min(lower_first, higher_first)
        return self.comp * rows + sum(map(self.inst_cost, self.views))

    def as_desired(self) -> Decided:
        """The couples, decided by the desired order."""
        rank = {v: (self.growth(v), v) for v in self.views}
        return frozenset((u, w) if rank[u] < rank[w] else (w, u) for u, w in self.couples)

    def has_edge(self, first: Step, second: Step, decided: Collection[Couple]) -> bool:
        """Whether the first expression has to stand before the second."""
        match first, second:
            case Comp(view, (source,)), Inst(installed):
                return installed in (source, view)  # S3, S5
            case Inst(installed), Comp(view, (source,)):
                return installed in self.over[view] and (installed, source) in decided  # S4
            case Comp(view), Comp(_, (source,)):
                return source == view  # S6
        return False

    def without_a_cycle(self, decided: Collection[Couple]) -> list[Step]:
        """The nodes as they go where one goes as soon as no edge to it is from one that is left. Those of a cycle never go."""
        left = self.nodes
        gone: list[Step] = []
        while True:
            ready = [node for node in left if not any(self.has_edge(other, node, decided) for other in left)]
            if not ready:
                return gone
            gone += ready
            left = [node for node in left if node not in ready]

    def has_cycle(self, decided: Collection[Couple]) -> bool:
        """Whether the graph of these decisions has a cycle."""
        return len(self.without_a_cycle(decided)) < len(self.nodes)

    def has_cyclic_order(self) -> bool:
        """Whether the ordered graph has a cycle."""
        return self.has_cycle(self.as_desired())

    # ---- the full tree

    def full_tree_least(self) -> tuple[int, Decided]:
        """The least bound over all ways to decide the couples that leave no cycle, and one that has it. What is below a cycle has it
        too, and what decides more costs no less, so neither is gone through."""
        best = frozenset(self.couples)
        least = self.bound(best)

        def below(decided: Decided, rest: Sequence[Couple]) -> None:
            nonlocal best, least
            if self.bound(decided) >= least or self.has_cycle(decided):
                return
            if not rest:
                best, least = decided, self.bound(decided)
                return
            (u, w), *later = rest
            below(decided | {(u, w)}, later)
            below(decided | {(w, u)}, later)

        below(frozenset(), self.couples)
        return least, best

    # ---- certificates

    def pair_lines(self) -> list[str]:
        """The right lines of a plan of scope all: of each sibling pair its parent, its views in the desired order, and its minimum."""
        desired, found = self.as_desired(), []
        for v, u, w in self.pairs:
            first, second = (u, w) if (u, w) in desired else (w, u)
            least = min(self.pre[w] + self.post[u], self.pre[u] + self.post[w])
            found.append(f"pair v{v} v{first} v{second} {least}\n")
        return found

    def verdict(self, plan: Plan) -> tuple[str, int]:
        """What `certify` has to answer of a plan whose list is correct and whose certificate is whole."""
        if self.work_of(plan.steps) != plan.work:
            return "rejected work\n", 1
        if plan.scope == "all":
            right, given = self.pair_lines(), plan.lines[plan.head :]
            numbered = enumerate(zip_longest(right, given), 1)
            bad = [number for number, (line, other) in numbered if line != other] or [0] * (plan.work != self.bound(frozenset()))
        else:
            place = self.judge_tree(plan.tree(), plan.work)
            bad = [place] if place else []
        return (f"rejected at {bad[0]}\n", 1) if bad else (f"certified {plan.scope} work {plan.work}\n", 0)

    # ---- trees, as lists of nodes in preorder

    def is_good(self, node: Node, decided: Decided, work: int) -> bool:
        """Whether a node is good under the decisions above it, for a strategy of this work."""
        match node:
            case Bound():
                return self.bound(decided) >= work
            case Cycle(cycle):
                following = cycle[1:] + cycle[:1]
                return all(e in self.nodes for e in cycle) and all(
                    self.has_edge(e, after, decided) for e, after in zip(cycle, following)
                )
            case Branch(lower, higher):
                return (lower, higher) in self.couples and not decided & {(lower, higher), (higher, lower)}

    def judge_tree(self, nodes: Sequence[Node], work: int) -> int:
        """The place of the first bad node, from 1; 0 where each is good."""
        for place, (node, decided) in enumerate(zip(nodes, decisions_above(nodes)), 1):
            if not self.is_good(node, decided, work):
                return place
        return 0


# ---- trees, as lists of nodes in preorder


def decisions_above(nodes: Iterable[Node]) -> list[Decided]:
    """For each node of a whole tree the decisions above it."""
    above: list[Decided] = []
    waiting: list[Decided] = [frozenset()]
    for node in nodes:
        decided = waiting.pop()
        above.append(decided)
        if isinstance(node, Branch):
            waiting += [decided | {(node.higher, node.lower)}, decided | {(node.lower, node.higher)}]
    return above


def tree_end(nodes: Sequence[Node]) -> int | None:
    """How many nodes come before the first that is one too many, or before one that is missing; None where they are a tree."""
    open_ends = 1
    for count, node in enumerate(nodes):
        if open_ends == 0:
            return count
        open_ends += 1 if isinstance(node, Branch) else -1
    return len(nodes) if open_ends else None


def changed_trees(source: Random, catalogue: Catalogue, nodes: list[Node]) -> Iterator[tuple[str, list[Node]]]:
    """Trees with one node changed: another kind, another couple, a cycle of less, or left out."""
    above = decisions_above(nodes)
    cycles = [node for node in nodes if isinstance(node, Cycle)]
    for place in source.sample(range(len(nodes)), min(CHANGED_NODES, len(nodes))):
        before, node, after = nodes[:place], nodes[place], nodes[place + 1 :]
        others: list[Node] = []
        match node:
            case Bound():
                view = source.choice(catalogue.derived)
                child = source.choice(catalogue.over[view])
                others.append(source.choice(cycles) if cycles else Cycle((Comp(view, (child,)), Inst(view))))
                others.append(Cycle((Comp(view, (child,)), Inst(child))))
            case Cycle(cycle):
                left_out = source.randrange(len(cycle))
                others += [Bound(), Cycle(cycle[:left_out] + cycle[left_out + 1 :]), Cycle(cycle[::-1])]
            case Branch(lower, higher):
                others.append(Branch(higher, lower))
                others += [Branch(min(d), max(d)) for d in source.sample(sorted(above[place]), min(1, len(above[place])))]
        yield "left out", before + after
        for other in others:
            if other != Cycle(()):
                yield f"{kind_of(node)} made {kind_of(other)}", before + [other] + after


def kind_of(node: Node) -> str:
    """What a node is, in the word that stands first in its line."""
    return node_text(node).split()[0]


# ---- what is drawn


def drawn_sizes(source: Random, count: int) -> list[Size]:
    """Sizes of so many views: small ones, so that many tie, or large ones; without weights or with them, which may all be 1."""
    top, weights = source.choice([2, 6, 30, MOST_ROWS]), source.choice([None, None, [1], WEIGHTS, WEIGHTS])
    sizes: list[Size] = []
    for _ in range(count):
        pre, post = (source.choice([top, source.randint(0, top), source.randint(0, top)]) for _ in range(2))
        change = min(abs(post - pre) + source.choice([0, 0, 1, 5]), MOST_ROWS)
        sizes.append((pre, post, change, *([source.choice(weights)] if weights else [])))
    return sizes


def with_drawn_sizes(source: Random, over: Sequence[Sequence[int]]) -> Catalogue:
    return Catalogue(over, drawn_sizes(source, len(over)), source.choice(COSTS), source.choice(COSTS))


def with_other_weights(source: Random, catalogue: Catalogue) -> Catalogue:
    """A catalogue with other weights, or with none."""
    weights = source.choice([None, WEIGHTS, WEIGHTS])
    sizes = [(*size[:3], *([source.choice(weights)] if weights else [])) for size in catalogue.sizes]
    return Catalogue(catalogue.over, sizes, catalogue.comp, catalogue.inst)


def drawn(source: Random, couples: int) -> Catalogue:
    """A catalogue of 1 to 3 base views and 1 to 4 derived views over 1 to 3 views each, now and then up to 4, with at most so
    many couples."""
    bases = source.randint(1, 3)
    children: list[list[int]] = [[] for _ in range(bases)]
    for v in range(bases, bases + source.randint(1, 4)):
        children.append(source.sample(range(v), min(v, source.choice([1, 2, 2, 2, 3, 3, 4]))))
    catalogue = with_drawn_sizes(source, children)
    return catalogue if len(catalogue.couples) <= couples else drawn(source, couples)


def drawn_cyclic(source: Random, couples: int) -> Catalogue:
    """One whose ordered graph has a cycle."""
    while True:
        catalogue = drawn(source, couples)
        if catalogue.has_cyclic_order():
            return catalogue


# ---- plans as they are printed, over views named v0, v1 and so on


def number(name: str) -> int:
    return int(name.removeprefix("v"))


def read_expression(text: str) -> Step:
    """`comp V from U` and `inst V`, one-way."""
    match text.split():
        case ["comp", view, "from", source]:
            return Comp(number(view), (number(source),))
        case ["inst", view]:
            return Inst(number(view))
    raise ValueError(f"{text} is no expression of a one-way strategy")


def read_node(line: str) -> Node:
    match line.split():
        case ["bound"]:
            return Bound()
        case ["branch", lower, higher]:
            return Branch(number(lower), number(higher))
        case ["cycle", *_]:
            return Cycle(tuple(read_expression(text) for text in line.removeprefix("cycle").split(";")))
    raise ValueError(f"{line} is no node of a tree")


def expression_text(expression: Step) -> str:
    match expression:
        case Comp(view, (source,)):
            return f"comp v{view} from v{source}"
        case Comp(view, sources):
            return f"comp v{view} from {' '.join(f'v{source}' for source in sources)}"
        case Inst(view):
            return f"inst v{view}"


def node_text(node: Node) -> str:
    match node:
        case Bound():
            return "bound\n"
        case Branch(lower, higher):
            return f"branch v{lower} v{higher}\n"
        case Cycle(cycle):
            return "cycle " + "; ".join(expression_text(e) for e in cycle) + "\n"


class Plan:
    """A plan that was printed: its scope, its work, its list as steps, a view with its sources or with None for its Inst, and
    how many lines come before the certificate."""

    def __init__(self, text: str) -> None:
        self.lines = text.splitlines(keepends=True)
        self.scope = self.lines[0].removeprefix("scope ").strip()
        self.work = int(self.lines[1].removeprefix("work "))
        self.steps: list[Step] = []
        for line in self.lines[2:]:
            words = line.split()
            if words[0] == "comp":
                self.steps.append(Comp(number(words[1]), tuple(number(u) for u in words[3:])))
            elif words[0] == "inst":
                self.steps.append(Inst(number(words[1])))
            else:
                break
        self.head = 2 + len(self.steps)

    def tree(self) -> list[Node]:
        return [read_node(line) for line in self.lines[self.head :]]

    def with_tree(self, nodes: Iterable[Node]) -> str:
        return "".join(self.lines[: self.head] + [node_text(node) for node in nodes])
