"""A night's strategy beside others and beside the bound, by the sizes that the night had; and its certificate, line by line."""

from __future__ import annotations

from collections.abc import Mapping, Sequence
from typing import TYPE_CHECKING, Literal, NamedTuple, TypeAlias

from ... import program
from ...finding import Failure
from ...strategy.kinds import Named, shape_of
from ...strategy.plans import Bound, Branch
from ...strategy.plans import Catalogue as Planned
from ...strategy.plans import Cycle, Decided, Node, decisions_above
from ...strategy.rules import Rules
from ..explain import Step
from ..planning import certified, parts, strategy_of
from ..sizes import sized
from ..strategy import Expression, Strategy, at_once, written

if TYPE_CHECKING:
    from ..command import Words
    from ..sizes import Size
    from .facts import Night

# How many lines of a certificate are explained.
MOST_LINES = 200


# What a work is of: the night, the bound, the plan or another strategy.
Kind: TypeAlias = Literal["own", "bound", "plan", ""]


class Beside(NamedTuple):
    """A strategy, or the bound, with its work: its name, and what it is in words."""

    name: str
    about: str
    work: int
    kind: Kind = ""


class Plan(NamedTuple):
    """A plan of least work as the program made it, what the program says of it, and where there is none, why."""

    text: str = ""
    verdict: str = ""
    missing: str = ""

    @property
    def work(self) -> int:
        """Its work, of a plan that there is."""
        if not self.text:
            raise ValueError(f"there is no plan: {self.missing}")
        return int(self.text.splitlines()[1].removeprefix("work "))

    @property
    def scope(self) -> str:
        """Among which strategies it is least."""
        return self.text.partition("\n")[0].removeprefix("scope ")


def work_of(views: Sequence[Named], strategy: str, sizes: Mapping[str, Size]) -> int:
    """The work of a strategy's text."""
    found = Strategy(strategy, views)
    return sum(Step(found, place, sizes).total(lambda name: 1) for place in range(len(found.expressions)))


def all_at_once(views: Sequence[Named]) -> str:
    """The strategy by which each view takes all changes in one Comp, as text."""
    names = [view.name for view in views]
    found = Rules(shape_of(views)).at_once()
    sources_of = ((names[view], None if sources is None else tuple(names[each] for each in sources)) for view, sources in found)
    return written(Expression(view, sources) for view, sources in sources_of)


def model(night: Night) -> Planned:
    """The views with their sizes, for bounds."""
    sizes = [night.told.sizes[view.name] for view in night.views]
    return Planned(shape_of(night.views), [(size.old, size.after, size.changed) for size in sizes], 1, 1)


def least(night: Night, words: Words) -> Plan:
    """A plan of least work for the night's sizes, made and certified by the program."""
    if not night.knows_sizes:
        return Plan(missing="nobody counted how many rows the derived views had before this night")
    sizes = sized(night.told.sizes)
    try:
        text = program.answer(words.program, "plan", parts(night, sizes)).decode()
        return Plan(text, certified(night, words, text, sizes))
    except Failure as failure:
        return Plan(missing="; ".join(map(str, failure.lines)))


def beside(night: Night, plan: Plan) -> list[Beside]:
    """The bound, the plan, the night's strategy and two others, the least work first; the night's alone where sizes are not known."""
    sizes, views, own = night.told.sizes, night.views, night.told
    if not night.knows_sizes:
        return [Beside("this night", "the strategy that was carried out", own.work, "own")]
    found = [Beside("the bound", "what every correct strategy costs at least", model(night).bound(frozenset()), "bound")]
    if plan.text:
        found.append(Beside("the least plan", f"certified, scope {plan.scope}", plan.work, "plan"))
    is_plan = plan.text and strategy_of(plan.text) == own.strategy
    found.append(Beside("this night", "the strategy that was carried out" + ", which is the plan" * bool(is_plan), own.work, "own"))
    lower = work_of(views, written(at_once(views)), sizes)
    found.append(Beside("lower number first", "the views one by one, as the catalogue has them", lower))
    found.append(Beside("all at once", "each view takes all its changes in one Comp", work_of(views, all_at_once(views), sizes)))
    return sorted(found, key=lambda each: each.work)


# ---- the certificate


class Pair(NamedTuple):
    """A line of a certificate of scope all: a view over two others, what either order reads of these, and the less of both."""

    parent: str
    first: str
    second: str
    first_reads: int
    second_reads: int

    @property
    def least(self) -> int:
        return min(self.first_reads, self.second_reads)


def pairs(night: Night, plan: Plan) -> list[Pair]:
    """The lines of a certificate of scope all."""
    sizes = night.told.sizes
    found: list[Pair] = []
    for words in map(str.split, plan.text.splitlines()):
        if words[0] == "pair":
            parent, first, second = words[1:4]
            reads = sizes[second].old + sizes[first].after, sizes[first].old + sizes[second].after
            found.append(Pair(parent, first, second, *reads))
    return found


class Fixed(NamedTuple):
    """How many rows every strategy reads and puts."""

    read: int
    put: int


def fixed_rows(night: Night) -> Fixed:
    """What every strategy reads and puts, in whatever order: each change once for each view over its own, and once at its Inst."""
    over = [name for view in night.views for name in view.over]
    sizes = night.told.sizes
    return Fixed(sum(sizes[name].changed for name in over), sum(size.changed for size in sizes.values()))


class TreeLine(NamedTuple):
    """A line of a tree: its node, and what stands behind its first word. The steps of a cycle stand in the text alone."""

    node: Node
    text: str


def node_of(line: str, numbers: Mapping[str, int]) -> TreeLine:
    """A line of a tree, with numbers in the place of names where bounds want them."""
    kind, _, rest = line.partition(" ")
    if kind == "branch":
        lower, higher = rest.split()
        return TreeLine(Branch(numbers[lower], numbers[higher]), rest)
    return TreeLine(Bound() if kind == "bound" else Cycle(()), rest)


def tree(night: Night, plan: Plan) -> tuple[int, list[tuple[TreeLine, Decided]]]:
    """The first lines of a certificate of scope one-way: how deep each stands, its node, and what is decided above it."""
    kinds = ("bound", "branch", "cycle")
    numbers = {view.name: number for number, view in enumerate(night.views)}
    nodes = [node_of(line, numbers) for line in plan.text.splitlines() if line.split()[0] in kinds]
    return len(nodes), list(zip(nodes, decisions_above(line.node for line in nodes)))[:MOST_LINES]


class Case(NamedTuple):
    """A line of a tree in words: how deep it stands, the case that it is in, and what it says."""

    depth: int
    case: str
    text: str


def tree_lines(night: Night, plan: Plan) -> tuple[int, list[Case]]:
    """How many lines there are in all, and the first ones in words."""
    views, known = [view.name for view in night.views], model(night)
    count, nodes = tree(night, plan)
    told: list[Case] = []
    above: dict[int, Decided] = {0: frozenset()}
    for line, decided in nodes:
        if isinstance(line.node, Branch):
            lower, higher = views[line.node.lower], views[line.node.higher]
            text = f"Either {lower} is installed before {higher}, or {higher} before {lower}: both cases stand below."
        elif isinstance(line.node, Bound):
            text = f"In this case every strategy has a work of {known.bound(decided):,} at least, which is not less than {plan.work:,}."
        else:
            text = f"This case has no strategy: each of these stands before the next, and the last before the first: {line.text}."
        above[len(decided)] = decided
        case = [f"{views[first]} before {views[second]}" for first, second in decided - above[max(len(decided) - 1, 0)]]
        told.append(Case(len(decided), "".join(case), text))
    return count, told
