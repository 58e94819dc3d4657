"""Nights as a statement for each thing that is done: a change is made, its rows are looked up, each kind of them is put, and the table is looked at."""

from __future__ import annotations

from collections.abc import Callable, Iterable, Mapping, Sequence
from dataclasses import dataclass

from .access import ByColumns, RowAccess
from .changes import Changes
from .comps import Comps, Ranges, RangesAlone, comp_tables
from .creation import Creation
from .engine import StepwiseEngine
from .insts import Insts, cleared
from .night import Night
from .steps import Comp, Expression, Finish, Inst, Judge, Net, Step, Steps
from .tables import Catalogued, Tables
from .terms import Terms
from .tokens import Sql

Comment = Callable[[Step], Sql]


@dataclass(frozen=True, slots=True)
class StepwiseParts:
    """Of what such a script is made."""

    steps: type[Steps] = Steps
    access: Callable[[Tables[StepwiseEngine], Mapping[int, tuple[int, ...]]], RowAccess] = ByColumns
    terms: type[Terms] = Terms
    ranges: Callable[[Tables[StepwiseEngine]], Ranges] = RangesAlone
    comps: type[Comps] = Comps
    changes: type[Changes] = Changes
    insts: type[Insts] = Insts

    def script(self, night: Night, engine: StepwiseEngine) -> StepwiseScript:
        """The script of a night."""
        return StepwiseScript(night.catalogue, engine, night.plain, night.keyed, self)


class Stepwise:
    """How a step of each kind is put over some tables. `keys` are those by which their indexes go; `cure` is told behind a cell of another kind."""

    def __init__(self, tables: Tables[StepwiseEngine], keys: Mapping[int, tuple[int, ...]], parts: StepwiseParts = StepwiseParts(),
                 cure: str = "") -> None:
        self.tables, self.access = tables, parts.access(tables, keys)
        self.checked, ranges = tables.dialect.checks(tables), parts.ranges(tables)
        self.terms = parts.terms(tables, self.access)
        self.comps = parts.comps(tables, self.terms, ranges)
        self.changes = parts.changes(tables, self.access, ranges, self.checked, cure)
        self.insts = parts.insts(tables, self.access, self.changes, self.checked)

    def put(self, step: Step) -> list[Sql]:
        """The statements of a step."""
        match step:
            case Net():
                return self.changes.net(step)
            case Judge():
                return self.changes.judge(step)
            case Comp():
                return self.comps.comp(step)
            case Finish():
                return self.changes.finish(step)
            case Inst():
                return self.insts.inst(step)

    def working_tables(self) -> list[tuple[str, list[Sql]]]:
        """The tables that pass with a night: of a view its change and where its rows stand, and of a derived one what its Comps make."""
        found = []
        for v, view in enumerate(self.tables.views):
            tables = self.changes.change_tables(v) + (comp_tables(self.tables, v) if view.over else [])
            found += [(self.tables.working_name(v, kind), columns) for kind, columns in tables]
        return found


class StepwiseScript:
    """The statements over tables of one's own."""

    def __init__(self, catalogue: Catalogued, dialect: StepwiseEngine, plain: Iterable[int] = (), keyed: Mapping[int, Sequence[int]] | None = None,
                 parts: StepwiseParts = StepwiseParts()) -> None:
        self.tables = Tables(catalogue, dialect, plain, keyed, steps=parts.steps)
        self.how, self.dialect, self.steps = Stepwise(self.tables, self.tables.said_keys, parts), dialect, self.tables.steps

    def creation(self) -> list[Sql]:
        """What --create writes."""
        return Creation(self.tables, self.how.access).program()

    def night(self, strategy: Iterable[Expression], comment: Comment) -> list[Sql]:
        """The changes are carried out by a strategy, and used up."""
        numbers, how = range(len(self.tables.views)), self.how
        looked = [each for v in numbers for each in [*how.insts.verified(v), *how.insts.untouched(v)]]
        return self.whole([], self.steps.night(strategy), [*how.changes.emptied(), *self.dialect.settled(), *looked], comment)

    def open(self, comment: Comment) -> list[Sql]:
        """The derived views from scratch."""
        derived, insts = self.steps.derived(), self.how.insts
        made = [each for v in reversed(derived) for each in cleared(self.tables, self.how.checked.cascades, v)]
        ended = self.dialect.settled() + [each for v in derived for each in insts.verified(v)]
        return self.whole(made, self.steps.opening(), ended, comment)

    def whole(self, before: list[Sql], steps: list[Step], after: list[Sql], comment: Comment) -> list[Sql]:
        """A transaction of all this."""
        tables, checked = self.tables, self.how.checked
        locked = [tables.table(v) for v in range(len(tables.views))] + [tables.changes(v) for v in self.steps.base()]
        working = checked.working_tables() + self.how.working_tables()
        carried = [each for step in steps for each in [comment(step), *self.how.put(step)]]
        return self.dialect.program(checked.statements(locked), working, before + carried + after, checked.watchers())
