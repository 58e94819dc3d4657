"""How a step of each kind is put in a block of PostgreSQL, over tables of one's own and over mirrors. What makes changes, what puts them, and when a summary
that no view is over is put are parts that are handed in."""

from __future__ import annotations

from collections.abc import Callable, Sequence
from dataclasses import dataclass
from typing import Protocol

from .block import counter
from .block_comps import BlockComps
from .groups import Groups
from .postgresql import PostgreSQL
from .steps import Comp, Finish, Inst, Judge, Net, Step
from .tables import Part, Tables
from .terms import Terms
from .tokens import Sql, joined, sql


@dataclass(frozen=True, slots=True)
class Rows:
    """Rows that are added up to a view's change: where terms have them read, their cells, how often each counts, and how many there are."""

    read: Callable[[Terms], Sql]
    cells: Sequence[Sql]
    counted: Sql
    many: Sql


class MakesChanges(Protocol):
    """What makes the change of a base view, and one of given rows, and judges them: all that is asked of a base view's change, and what was told of any
    where it was counted."""

    def net(self, step: Net) -> list[Sql]: ...
    def added(self, v: int, rows: Rows) -> list[Sql]: ...
    def judge(self, v: int) -> list[Sql]: ...
    def judged(self, v: int) -> list[Sql]: ...


class PutsChanges(Protocol):
    """What puts changes into their tables."""

    def inst(self, v: int) -> list[Sql]: ...


class LastSummaries(Protocol):
    """What is done with a summary that no view is over where its change would be made, judged and put: its groups need not be kept."""

    def made(self, v: int) -> list[Sql]: ...
    def judged(self, v: int) -> list[Sql]: ...
    def put(self, v: int) -> list[Sql]: ...


class Worth(Part[PostgreSQL]):
    """Whether a step has anything to do."""

    def test(self, step: Step) -> Sql:
        match step:
            case Net():
                return counter("there", step.view)
            case Comp():
                return joined([sql("{rows} > 0", rows=counter("rows", u)) for u in step.sources], "OR")
            case Finish():
                return self.computed(step.view) if not self.shape.is_direct(step.view) else self.changed(step.view)
            case Inst() if self.shape.is_last(step.view):
                return self.changed(self.views[step.view].over[0]) if self.shape.is_direct(step.view) else self.computed(step.view)
        return self.changed(step.view)

    def computed(self, v: int) -> Sql:
        """Whether Comps made anything of a view."""
        return sql("{made} > 0", made=counter("made", v))

    def changed(self, v: int) -> Sql:
        return sql("{many} > 0", many=counter("rows", v))


@dataclass(frozen=True, slots=True)
class BlockSteps:
    """The statements of steps, and the parts that make them."""

    tables: Tables[PostgreSQL]
    comps: BlockComps
    groups: Groups
    changes: MakesChanges
    insts: PutsChanges
    last: LastSummaries

    def put(self, step: Step) -> list[Sql]:
        """The statements of a step; a change that was made in one statement is only judged."""
        v, shape = step.view, self.tables.shape
        match step:
            case Net():
                return self.changes.net(step)
            case Judge():
                return self.changes.judge(v)
            case Comp():
                return self.made(v) if shape.is_direct(v) else self.comps.comp(step)
            case Finish():
                judged = self.last.judged(v) if shape.is_last(v) else self.changes.judged(v)
                return [*([] if shape.is_direct(v) else self.made(v)), *judged]
            case Inst():
                return self.last.put(v) if shape.is_last(v) else self.insts.inst(v)

    def made(self, v: int) -> list[Sql]:
        """A derived view's change; groups of a summary are kept, and made rows of."""
        if self.tables.shape.is_last(v):
            return self.last.made(v)
        if self.tables.shape.is_summary(v):
            return [*self.groups.kept(v), *self.groups.rows(v)]
        return self.changes.added(v, self.rows(v))

    def rows(self, v: int) -> Rows:
        """What the change of a joined view is made of: the change of the one view below it, or what its Comps made."""
        cells, over = self.tables.cells(v, "r"), self.tables.views[v].over
        if not self.tables.shape.is_direct(v):
            return Rows(lambda _: sql("{pending} AS r", pending=self.tables.working(v, "pending")), cells, sql("r.s1"), counter("made", v))
        (term,) = self.tables.steps.terms(v, over)
        return Rows(lambda terms: sql("({term}) AS r", term=terms.term(v, term)), cells, sql("r.n"), counter("rows", over[0]))
