"""Nights over tables of one's own in PostgreSQL, where an Inst is made in one pass.

One statement adds up a view's change and finds of each row how often it stands in the table, where, and what becomes of it; it counts what
leaves, stays and comes. The DELETE, the UPDATE and the INSERT of the Inst are made of these rows, and have to touch as many as were counted.
A step without changes runs no statement. Tables may be partitioned, and have triggers, keys and columns of others: what was installed is
looked at where somebody else's trigger could have changed it, and whether other rows were touched in any case."""

from __future__ import annotations

from collections.abc import Callable, Iterable, Mapping, Sequence
from dataclasses import dataclass

from .access import RowAccess
from .block import LOOK_UPS, Block, InSixtyFourBits, declared
from .block_comps import BlockComps
from .block_steps import BlockSteps, Worth
from .creation import Creation
from .culprits import Culprits, CulpritsFromScratch, RangesTold
from .digested import ByDigests
from .groups import IN_PARTS
from .last_summaries import LastWhenPut
from .night import Night
from .one_pass_changes import OnePassChanges
from .one_pass_checks import OnePassChecks
from .one_pass_groups import OnePassGroups
from .one_pass_insts import OnePassInsts
from .one_pass_opening import OnePassOpening
from .postgresql import VARIABLES, PostgreSQL
from .steps import Expression, Steps
from .stepwise import Comment
from .tables import Catalogued, Tables
from .terms import Terms
from .tokens import Sql, sql, text

COUNTERS = ("rows", "gone", "stay", "come", "other")
# How many rows a change has is all that is asked of its statistics, for which few of them are enough.
FEW = sql("SET LOCAL default_statistics_target = 1")
HASHED = sql("hashed := current_setting({key})", key=text("enable_hashjoin"))


@dataclass(frozen=True, slots=True)
class OnePassParts:
    """Of what such a script is made."""

    steps: type[Steps] = Steps
    access: Callable[[Tables[PostgreSQL], Mapping[int, tuple[int, ...]]], RowAccess] = ByDigests
    terms: type[Terms] = Terms
    block: type[Block] = Block
    worth: type[Worth] = Worth
    comps: type[BlockComps] = BlockComps
    groups: type[OnePassGroups] = OnePassGroups
    changes: type[OnePassChanges] = OnePassChanges
    insts: type[OnePassInsts] = OnePassInsts

    def script(self, night: Night, engine: PostgreSQL) -> OnePassScript:
        """The script of a night."""
        return OnePassScript(night.catalogue, engine, night.plain, night.keyed, self)


class OnePass:
    """The parts of such a script, and how they put a step of each kind."""

    def __init__(self, tables: Tables[PostgreSQL], checked: OnePassChecks, parts: OnePassParts, told: type[Culprits] = Culprits) -> None:
        self.access = parts.access(tables, tables.said_keys)
        exact, fast = parts.terms(tables, self.access), parts.terms(tables, self.access, InSixtyFourBits(tables.dialect.schema))
        culprits = told(tables, exact, lambda v: tables.keyed.get(v) or tables.said_keys.get(v))
        block = self.block = parts.block(tables, exact, fast)
        groups = parts.groups(tables, self.access, block, culprits, IN_PARTS)
        comps = parts.comps(tables, block, RangesTold(tables, culprits, lambda v: culprits.of_changes(v, groups.groups_lost(v))))
        self.changes = parts.changes(tables, self.access, block, checked, groups, culprits)
        self.insts = parts.insts(tables, self.access, block, checked, groups, self.changes)
        last = LastWhenPut(tables, block, groups, self.changes, self.insts)
        self.put = BlockSteps(tables, comps, groups, self.changes, self.insts, last).put


class OnePassScript:
    """The statements of such a night."""

    def __init__(self, catalogue: Catalogued, dialect: PostgreSQL, plain: Iterable[int] = (), keyed: Mapping[int, Sequence[int]] | None = None,
                 parts: OnePassParts = OnePassParts()) -> None:
        tables = self.tables = Tables(catalogue, dialect, plain, keyed, steps=parts.steps)
        self.dialect, self.steps, self.checked, self.parts = dialect, tables.steps, OnePassChecks(tables), parts
        self.how, self.worth = OnePass(tables, self.checked, parts), parts.worth(tables)

    def creation(self) -> list[Sql]:
        """What --create writes."""
        return Creation(self.tables, self.how.access).program()

    def night(self, strategy: Iterable[Expression], comment: Comment) -> list[Sql]:
        """The changes are carried out by a strategy, and used up."""
        numbers, how = range(len(self.tables.views)), self.how
        carried = [each for step in self.steps.night(strategy) for each in [comment(step), *how.block.then(self.worth.test(step), how.put(step))]]
        looked = [each for v in numbers for each in how.insts.verified(v)]
        touched = self.checked.all_untouched([found for v in numbers if (found := how.insts.untouched(v))])
        return self.whole([*carried, *how.changes.emptied(), *self.dialect.settled(), *looked, *touched])

    def open(self, comment: Comment) -> list[Sql]:
        """The derived views from scratch."""
        apart = OnePass(self.tables.apart(), self.checked, self.parts, CulpritsFromScratch)
        return self.whole(OnePassOpening(self.tables, self.checked, apart).statements(comment))

    def whole(self, made: list[Sql]) -> list[Sql]:
        """A transaction of all this."""
        tables = self.tables
        locked = [tables.table(v) for v in range(len(tables.views))] + [tables.changes(v) for v in self.steps.base()]
        made = [LOOK_UPS, FEW, HASHED, *made]
        return self.dialect.program(self.checked.statements(locked), self.checked.working_tables(), made, self.checked.watchers(), self.variables())

    def variables(self) -> list[Sql]:
        """What a night counts. At first each is NULL."""
        views, derived = range(len(self.tables.views)), self.steps.derived()
        numbers = [f"{kind}{v}" for v in views for kind in COUNTERS] + [f"made{v}" for v in derived] + ["lost"]
        found = [*declared("int8", numbers), *declared("text", (f"told{v}" for v in views)), *declared("bool", (f"there{v}" for v in self.steps.base()))]
        found += [*declared("bool", (f"apart{v}" for v in derived)), *declared("text", ["hashed"]), *declared("bool", ["is_apart", "is_bare"])]
        return [*VARIABLES, *found, *declared("oid[]", ["parts"]), *declared("tid[]", ["places"]), *self.checked.variables()]
