"""`explain`: a strategy line by line: its work, which is all rows of what it reads, how many changed rows really go through it, what is
read, old or new, what it counts by weight, and why it stands there; last the work of all, and how many seconds the night before took."""

from __future__ import annotations

from collections.abc import Callable, Mapping, Sequence
from itertools import combinations
from typing import TYPE_CHECKING, NamedTuple

from ..status import DONE, Status
from .check import strategy_of as given_strategy
from .folder import sound
from .headlines import of_last_night
from .planning import planned, strategy_of
from .sizes import of_text, sizes_text
from .strategy import FILE, Strategy

if TYPE_CHECKING:
    from .command import Words
    from .folder import Folder
    from .sizes import Size


class Rows(NamedTuple):
    """How many rows a step reads of a view, and the word for them: the old or the new ones."""

    word: str
    number: int


class Step:
    """An expression at its place, among those before it."""

    def __init__(self, strategy: Strategy, place: int, sizes: Mapping[str, Size]) -> None:
        self.view, self.sources = strategy.expressions[place]
        self.over = next(view.over for view in strategy.views if view.name == self.view)
        self.parents = [view.name for view in strategy.views if self.view in view.over]
        self.installed = {view for view, sources in strategy.expressions[:place] if not sources}
        self.sizes = sizes

    def state(self, name: str) -> Rows:
        """A view's rows here."""
        return Rows("new", self.sizes[name].after) if name in self.installed else Rows("old", self.sizes[name].old)

    def weight(self, name: str) -> int:
        """What a row of a view counts as, 1 where no weights are told."""
        weight = self.sizes[name].weight
        return 1 if weight is None else weight

    def rows(self) -> int:
        """How many rows the step reads or puts."""
        return self.total(lambda name: 1)

    def changed(self) -> int:
        """How many changed rows go through the step; all others are looked at only where these lead to them."""
        return sum(self.sizes[name].changed for name in self.sources or [self.view])

    def work(self) -> int:
        """What these rows count by their weights."""
        return self.total(self.weight)

    def total(self, weight: Callable[[str], int]) -> int:
        """The rows of the operands of each term, each view's by a weight, added up."""
        if not self.sources:
            return self.sizes[self.view].changed * weight(self.view)
        found = 0
        for count in range(1, len(self.sources) + 1):
            for part in combinations(self.sources, count):
                rows = {name: self.sizes[name].changed if name in part else self.state(name).number for name in self.over}
                found += sum(rows[name] * weight(name) for name in self.over)
        return found

    def text(self) -> str:
        """What the step does, and why it stands where it does."""
        return self.comp(self.sources) if self.sources else self.inst()

    def comp(self, sources: Sequence[str]) -> str:
        """What a Comp from these sources reads, and why it may."""
        changes = ", ".join(f"the {self.sizes[name].changed} changed rows of {name}" for name in sources)
        whole = self.over if len(sources) > 1 else [name for name in self.over if name not in sources]
        read = "".join(f", the {self.state(name).number} {self.state(name).word} rows of {name}" for name in whole)
        after = [name for name in self.over if name in self.installed]
        why = [f"after inst {name}, whose rows are the new ones here" for name in after]
        why += [f"before inst {name}, which makes its rows new" for name in sources]
        idle = "" if self.changed() else "; no changed row goes through it, so nothing is looked up"
        return f"reads {changes}{read}; it stands {', '.join(why)}{idle}"

    def inst(self) -> str:
        """What an Inst puts, and what had to come first."""
        first = [f"comp {parent} from {self.view}" for parent in self.parents] + [f"all of comp {self.view}"] * bool(self.over)
        return f"puts the {self.sizes[self.view].changed} changed rows of {self.view}; it stands after {' and '.join(first) or 'nothing'}"


class Chosen(NamedTuple):
    """The strategy that is explained, and the sizes of the views."""

    strategy: Strategy
    sizes: Mapping[str, Size]


class Listed(NamedTuple):
    """A line of a strategy, and its step."""

    line: str
    step: Step


def chosen(folder: Folder, words: Words) -> Chosen:
    """The folder's own strategy, or else the one of a plan."""
    if (folder.path / FILE).is_file():
        text = given_strategy(folder)
        return Chosen(Strategy(text, folder.views), of_text(sizes_text(folder, words).text))
    plan, sizes = planned(folder, words)
    return Chosen(Strategy(strategy_of(plan), folder.views), of_text(sizes.text))


def steps(folder: Folder, words: Words) -> list[Listed]:
    """Each line of the strategy, with its step."""
    strategy, sizes = chosen(folder, words)
    return [Listed(expression.text, Step(strategy, place, sizes)) for place, expression in enumerate(strategy.expressions)]


def run(words: Words) -> Status:
    folder = sound(words.folder)
    listed = steps(folder, words)
    has_weights = any(step.weight(step.view) > 1 for _, step in listed)
    for line, step in listed:
        by_weight = f", by weight {step.work()}" if has_weights else ""
        print(f"{line}: {step.rows()}, {step.changed()} changed{by_weight}\n    {step.text()}")
    rows, changed, work = (sum(map(each, (step for _, step in listed))) for each in (Step.rows, Step.changed, Step.work))
    last = of_last_night(folder.state)
    print(f"work {rows}, {changed} changed{f', by weight {work}' if has_weights else ''}", *filter(None, [last]), sep="\n")
    return DONE
