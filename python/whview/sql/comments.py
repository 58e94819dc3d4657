"""What is said of each step: its expression, its predicted work, what it reads and why it stands where it does."""

from __future__ import annotations

from collections.abc import Sequence
from typing import Protocol

from ..catalogue.parts import Warehouse
from ..catalogue.views import View
from .steps import Comp, Finish, Inst, Net, Step
from .tokens import Sql, comment

WHY = {
    "net": "equal rows add up and opposite ones cancel, before anything reads the change",
    "judge": "all base changes are judged before the first expression, so that a refused night has done nothing",
    "comp": "each child is read as it is now: as after the night where its inst stands above, else as before it",
    "finish": "the change is made where it is first wanted, after the last comp of the view",
    "inst": "every comp that has to read the view as before the night stands above",
}


class Sized(Protocol):
    """A catalogue with the sizes of its views, where these are known."""

    @property
    def views(self) -> Sequence[View]: ...
    @property
    def words(self) -> Warehouse: ...
    @property
    def sizes(self) -> list[tuple[int, ...]] | None: ...


class Comments:
    """The comments on the steps of a catalogue's scripts."""

    def __init__(self, catalogue: Sized) -> None:
        self.views, self.words, self.sizes = catalogue.views, catalogue.words, catalogue.sizes
        self.installed: set[int] = set()

    def expression(self, step: Step) -> str:
        match step:
            case Inst():
                return self.words.expression(step.view, None)
            case Comp() if step.sources:
                return self.words.expression(step.view, step.sources)
        return f"{'open' if isinstance(step, Comp) else step.kind} {self.views[step.view].name}"

    def rows(self, step: Step, sizes: list[tuple[int, ...]]) -> int | None:
        """How much work the step is by the sizes, which are those before, after and of the change, each by its weight."""
        match step:
            case Inst():
                return sizes[step.view][2]
            case Comp() if step.sources:
                state = [each[1 if v in self.installed else 0] for v, each in enumerate(sizes)]
                return sum(sizes[o.view][2] if o.is_change else state[o.view] for term in step.terms for o in term)
        return None

    def predicted(self, step: Step) -> int | None:
        """The work of a step by the sizes, or None where there are none; steps are asked for in their order."""
        found = self.rows(step, self.sizes) if self.sizes else None
        self.installed |= {step.view} if isinstance(step, Inst) else set()
        return found

    def told(self, step: Step) -> str:
        """A step with its predicted work."""
        work = self.predicted(step)
        return self.expression(step) + ("" if work is None else f": work {work}")

    def short(self, step: Step) -> Sql:
        """The comment above a statement."""
        return comment(self.told(step))

    def reads(self, step: Step) -> str:
        """What a step reads, in words."""
        name = self.views[step.view].name
        match step:
            case Net():
                return f"the rows of {name}~changes"
            case Finish():
                return f"what the comps of {name} made"
            case Comp():
                parts = [" x ".join(("change of " if o.is_change else "") + self.views[o.view].name for o in term) for term in step.terms]
                return "; ".join(parts)
        return f"{name} and its change"

    def long(self, step: Step) -> str:
        """A step as `--explain` tells it."""
        return f"{self.told(step)}\n  reads: {self.reads(step)}\n  why here: {WHY[step.kind]}"
