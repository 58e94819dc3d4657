"""Nights over mirrors in PostgreSQL, as fast as a good hand writes them.

One statement adds up the changes of a base view and finds how often each row stands in its view's table and where, and one counts what leaves,
stays and comes; an Inst is one MERGE, which goes to each place once and has to touch as many rows. All of a night is one snapshot. Where a view
has a key, a row that leaves and one that comes with it are one that changes. A step without changes runs no statement."""

from __future__ import annotations

from collections.abc import Callable, Iterable, Mapping, Sequence
from dataclasses import dataclass

from ..block import LOOK_UPS, Block, InSixtyFourBits, changes_there, counter, declared, once
from ..block_comps import BlockComps
from ..block_steps import BlockSteps, Worth
from ..comments import Comments
from ..creation import Creation
from ..culprits import RangesTold
from ..groups import ALONE, Groups
from ..last_summaries import LastWhenMade
from ..postgresql import KEPT, VARIABLES, PostgreSQL
from ..steps import Expression, Finish, Judge, Step, Steps
from ..stepwise import Comment
from ..tables import Tables
from ..terms import Terms
from ..tokens import Sql, joined, sql, statements, word
from . import computed
from .access import KeyedAccess, captured_keys
from .culprits import CapturedCulprits
from .definitions import Planned, filled_anew
from .history import MergeHistory
from .merge_changes import SUMS, MergeChanges, switched
from .merge_insts import MergeInsts
from .noted import NotedInPostgreSQL
from .opening import QUIETLY, Opening
from .postgresql import Captures, LivePostgreSQL

# How many rows of a view's change there are, that leave, that stay otherwise and that come.
COUNTERS = ("rows", "gone", "stay", "come")
# A night in which nothing changed waits for no disk: a crash may take away that it was there, and nothing else.
UNWAITED = sql("SET LOCAL synchronous_commit = off")
# How many rows a change has is all that is asked of its statistics, for which few of them are enough. Whole tables are not sorted for a night.
OF_NIGHTS = [sql("SET LOCAL default_statistics_target = 1"), *switched("off", "mergejoin")]


@dataclass(frozen=True, slots=True)
class MergeParts:
    """Of what such a script is made. `computed_with` tells with which columns of base views the others compute, and `captures` makes what captures
    their tables."""

    steps: type[Steps] = Steps
    access: type[KeyedAccess] = KeyedAccess
    terms: type[Terms] = Terms
    block: type[Block] = Block
    computed_with: Callable[[Tables[PostgreSQL]], Mapping[int, Sequence[int]]] = computed.computed_with
    comps: type[BlockComps] = BlockComps
    groups: type[Groups] = Groups
    changes: type[MergeChanges] = MergeChanges
    insts: type[MergeInsts] = MergeInsts
    captures: Callable[[MergeScript], Captures] = lambda script: script.dialect.captures(script)


class MergeScript:
    """The statements over mirrors, which stand in a schema of their own with all others. A night takes the changes that are there when it begins, and what
    comes later stays; nothing has to be looked at afterwards, since every statement has told how many rows it touched, and the tables are the night's
    own."""

    dialect: LivePostgreSQL
    captures: Captures

    def __init__(self, catalogue: Planned, dialect: LivePostgreSQL, parts: MergeParts = MergeParts()) -> None:
        tables = self.tables = Tables(catalogue, dialect, steps=parts.steps)
        self.catalogue, self.dialect, self.views, self.shape, self.steps = catalogue, dialect, tables.views, tables.shape, tables.steps
        self.checked, self.access = dialect.checks(tables), parts.access(tables, captured_keys(tables))
        self.terms = parts.terms(tables, self.access)
        self.block = parts.block(tables, self.terms, parts.terms(tables, self.access, InSixtyFourBits(dialect.schema)))
        self.culprits = CapturedCulprits(tables, self.terms, self.access.keys.get, parts.computed_with(tables))
        self.worth, self.how = Worth(tables), self.steps_put(parts)
        self.opening = Opening(tables, self.access, self.block, self.culprits)
        self.history = MergeHistory(tables, self.access)
        self.captures = parts.captures(self)

    def steps_put(self, parts: MergeParts) -> BlockSteps:
        """How a step of each kind is put."""
        tables, access, block, culprits = self.tables, self.access, self.block, self.culprits
        groups = parts.groups(tables, access, block, culprits, ALONE)
        changes = parts.changes(tables, access, block, groups, culprits)
        comps = parts.comps(tables, block, RangesTold(tables, culprits, changes.out_of_range))
        insts, last = parts.insts(tables, access, block, groups), LastWhenMade(tables, block, groups, changes)
        return BlockSteps(tables, comps, groups, changes, insts, last)

    def noted(self) -> NotedInPostgreSQL:
        """What is noted of the derived views."""
        return NotedInPostgreSQL(self)

    def creation(self) -> list[Sql]:
        """The tables alone, without what captures others."""
        return Creation(self.tables, self.access).program()

    def variables(self) -> list[Sql]:
        """What a night and an opening count. At first each is NULL: a value to begin with would be an expression that is planned."""
        views = range(len(self.views))
        numbers = [f"{kind}{v}" for v in views for kind in (COUNTERS if self.access.is_told_by_key(v) else COUNTERS + SUMS)]
        numbers += [f"made{v}" for v in self.steps.derived() if not self.shape.is_direct(v)]
        numbers += [*(f"strange{v}" for v in self.culprits.computed_with), "lost"]
        told, there = (f"told{v}" for v in views), (f"there{v}" for v in self.steps.base())
        found = [*VARIABLES, *declared("int8", numbers), *declared("text", told), *declared("bool", there), *declared("timestamptz[]", ["moments"])]
        return [*found, *declared("oid[]", ["own", "captured"]), *declared("tid[]", ["places"]), *declared("text", ["seen"])]

    # ---- a night

    def only_judges(self, step: Step) -> bool:
        """Whether a step has nothing else to do than to judge, so that it is no step of a history."""
        return isinstance(step, Judge) or (isinstance(step, Finish) and self.shape.is_direct(step.view))

    def carried(self, steps: list[Step], comment: Comment) -> list[Sql]:
        """The statements of steps, each with a comment above it; one that has something to do tells when it has done it, and one that only
        judges does not."""
        found = []
        for at, step in enumerate(steps, 1):
            made = self.how.put(step)
            if made and not self.only_judges(step):
                made = self.block.then(self.worth.test(step), [*made, self.history.moment(at)])
            found += [comment(step), *made]
        return found

    def night(self, strategy: Iterable[Expression], comment: Comment) -> list[Sql]:
        """A night in which nothing changed is only noted."""
        steps, works = self.steps.night(strategy), Comments(self.catalogue)
        told = [works.expression(step) for step in steps], [works.predicted(step) for step in steps]
        carried = self.carried(steps, comment)
        carried = [*self.kept_for(carried), *carried, *self.dialect.settled(), *self.history.ended(*told)]
        # How far the log was read is on the disk before the slot is moved, also where nothing in it was captured.
        unwaited = self.dialect.where(sql("NOT {is_there}", is_there=self.captures.log.is_there()), UNWAITED)
        quiet = [unwaited, *self.history.ended_quietly(*told)]
        is_there = joined([counter("there", v) for v in self.steps.base()], "OR")
        choice = sql("IF {there} THEN {carried} ELSE {quiet} END IF", there=is_there, carried=statements(carried, 1), quiet=statements(quiet, 2))
        return self.whole([*OF_NIGHTS, *self.captures.log.taken_by_night(), changes_there(self.tables), *self.history.began(), choice], True)

    def kept_for(self, made: list[Sql]) -> list[Sql]:
        """The settings that are another for some of these statements."""
        return KEPT if any(word("collapsed").tokens[0] in each.tokens for each in made) else []

    def open(self, comment: Comment, chosen: Iterable[int] | None = None) -> list[Sql]:
        """The derived views are filled from the mirrors, or these of them and those over them; what is in the tables of changes stays there."""
        derived, history, captures = filled_anew(self.steps, chosen), self.history, self.captures
        made = [each for v in derived for each in self.opening.filled(v)]
        sizes = [history.opened(v, v in derived, self.opening.counted_rows(v) if v in derived else None) for v in range(len(self.views))]
        ended = [*sizes, *self.noted().as_filled(derived), history.closed(), *captures.looked_at(), *captures.noted_as_judged()]
        return self.whole([QUIETLY, *history.opening_began(), *self.culprits.strange_in_mirrors(), *made, *ended], False)

    def whole(self, made: list[Sql], is_night: bool) -> list[Sql]:
        """The tables are judged where they are not as they were when they last passed: nothing else than the night makes use of them. A night
        wants views that are filled as the catalogue has them, too."""
        tables, captures = [self.tables.table(v) for v in range(len(self.views))], self.captures
        checks = self.dialect.block([*self.checked.statements(tables), *captures.judged()])
        opened = captures.opened() if is_night else []
        judged = [once(checks), *captures.whole(), *opened, *captures.others_unfilled(), *captures.noted_as_judged()]
        mended = [*captures.parting.mended(), *captures.looked_at()] if is_night else []
        judged = [*captures.looked_at(), *self.block.then(captures.is_changed(), [*mended, *judged])]
        return self.dialect.snapshot(self.checked.lock(tables), [LOOK_UPS, *judged, *made], self.variables())
