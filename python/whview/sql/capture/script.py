"""Scripts over mirrors of tables that applications go on writing to."""

from __future__ import annotations

from collections.abc import Iterable, Sequence

from ..access import RowAccess
from ..comments import Comments
from ..insts import cleared
from ..steps import Expression, Step
from ..stepwise import Comment, Stepwise, StepwiseParts
from ..tables import Tables
from ..tokens import Sql
from .access import CapturedAccess
from .definitions import Planned, filled_anew
from .history import History
from .noted import NotedInSQLite
from .sqlite import LiveSQLite

CURE = ": put it right in the table that is captured, and run whview sql capture"


def captured_access(access: RowAccess) -> CapturedAccess:
    """How rows of captured tables are found, which is no other way."""
    if not isinstance(access, CapturedAccess):
        raise TypeError(f"{type(access).__name__} finds no rows of captured tables")
    return access


class MirrorScript:
    """The statements over a catalogue whose base views are mirrors, in SQLite, where these and all others have a word before their names. A night takes
    the changes that are there when it begins, and what comes later stays."""

    def __init__(self, catalogue: Planned, dialect: LiveSQLite, prefix: str, parts: StepwiseParts = StepwiseParts(access=CapturedAccess)) -> None:
        self.tables = Tables(catalogue, dialect, prefix=prefix, steps=parts.steps)
        self.catalogue, self.dialect, self.views, self.shape, self.steps = catalogue, dialect, self.tables.views, self.tables.shape, self.tables.steps
        self.how = Stepwise(self.tables, {}, parts, CURE)
        self.access, self.terms = captured_access(self.how.access), self.how.terms
        self.history = History(self.tables, self.access)
        self.captures = dialect.captures(self)

    def noted(self) -> NotedInSQLite:
        """What is noted of the derived views."""
        return NotedInSQLite(self)

    def night(self, strategy: Iterable[Expression], comment: Comment) -> list[Sql]:
        """The changes are carried out by a strategy, where tables are captured as they were, and views filled as the catalogue has them."""
        steps, works, insts, captures = self.steps.night(strategy), Comments(self.catalogue), self.how.insts, self.captures
        told, predicted = [works.expression(step) for step in steps], [works.predicted(step) for step in steps]
        looked = [each for v in range(len(self.views)) for each in [*insts.verified(v), *insts.untouched(v)]]
        ended = [*self.how.changes.emptied(), *self.dialect.settled(), *looked, *self.history.ended(told, predicted)]
        before = [*captures.whole(), *captures.opened(), *captures.others_unfilled(), *self.history.began()]
        return self.whole(before, steps, ended, comment, captures.stands(), captures.refused_rows())

    def open(self, comment: Comment, chosen: Iterable[int] | None = None) -> list[Sql]:
        """The derived views are filled from the mirrors, or these of them and those over them; what is in the tables of changes stays there."""
        derived, insts = filled_anew(self.steps, chosen), self.how.insts
        made = [each for v in reversed(derived) for each in cleared(self.tables, self.how.checked.cascades, v)]
        looked = self.dialect.settled() + [each for v in derived for each in insts.verified(v)]
        sizes = [self.history.opened(v, v in derived) for v in range(len(self.views))]
        ended = [*looked, *sizes, *self.noted().as_filled(derived), self.history.closed()]
        return self.whole([*self.history.began(), *made], [step for v in derived for step in self.steps.filling(v)], ended, comment)

    def whole(self, before: list[Sql], steps: list[Step], after: list[Sql], comment: Comment, looked: Sequence[Sql] = (),
              shown: Iterable[Sql] = ()) -> list[Sql]:
        """A transaction of all this, in which each step tells its moment; a night looks at what is captured before all else."""
        checked, working = self.how.checked, [*self.how.working_tables(), *self.history.working_tables()]
        carried = [each for at, step in enumerate(steps, 1) for each in [comment(step), *self.how.put(step), self.history.moment(at)]]
        locked = [self.tables.table(v) for v in range(len(self.views))]
        return self.dialect.program(checked.statements(locked), checked.working_tables() + working, before + carried + after, checked.watchers(),
                                    looked=looked, shown=shown)
