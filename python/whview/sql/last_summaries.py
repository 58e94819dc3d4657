"""A summary that no view is over, in a block of PostgreSQL: one statement makes its change and puts it."""

from __future__ import annotations

from functools import partial
from typing import TYPE_CHECKING

from .block import Block, counter, unless_large
from .groups import Groups
from .postgresql import PostgreSQL
from .tables import Part, Tables
from .tokens import Sql, sql, statements, text

if TYPE_CHECKING:
    from .block_steps import MakesChanges
    from .one_pass_changes import OnePassChanges
    from .one_pass_insts import OnePassInsts


class LastWhenMade(Part[PostgreSQL]):
    """Over mirrors, which are the night's own: groups are put as they are found."""

    def __init__(self, tables: Tables[PostgreSQL], block: Block, groups: Groups, changes: MakesChanges) -> None:
        super().__init__(tables)
        self.block, self.groups, self.judged = block, groups, changes.judged

    def made(self, v: int) -> list[Sql]:
        told = sql("{told} := {range}", told=counter("told", v), range=text(self.tables.told_range(v)))
        put = partial(self.groups.at_once, v)
        return [self.groups.if_direct(v, put, unless_large([put(self.block.exact)], [told])), *self.groups.lost(v), *self.groups.left(v)]

    def put(self, _: int) -> list[Sql]:
        return []


class LastWhenPut(Part[PostgreSQL]):
    """Over tables of one's own: so it is where nobody else's trigger or foreign key acts on the table."""

    def __init__(self, tables: Tables[PostgreSQL], block: Block, groups: Groups, changes: OnePassChanges, insts: OnePassInsts) -> None:
        super().__init__(tables)
        self.block, self.groups, self.changes, self.insts = block, groups, changes, insts

    def made(self, _: int) -> list[Sql]:
        return []

    judged = made

    def put(self, v: int) -> list[Sql]:
        """In one statement, or apart where a number leaves 64 bits or its column, where a group may stand there twice, where an index keeps one
        out until another one has left, or where more has to be looked at."""
        known = {said: self.changes.checked.known(said, v) for said in ("is_referred", "spare_columns", "is_found")}
        chosen = sql("is_apart := watched OR {is_referred} OR {spare_columns} IS NOT NULL OR NOT {is_found}", **known)
        at_once = [self.groups.at_once(v, self.block.fast), *self.changes.judged(v), *self.groups.left(v)]
        tried = sql("BEGIN {made} EXCEPTION WHEN numeric_value_out_of_range OR unique_violation OR exclusion_violation THEN {undone} END",
                    made=statements(at_once, 2), undone=statements([sql("is_apart := TRUE"), *self.changes.checked.counted_anew(v)], 2))
        apart = [*self.groups.kept(v), *self.changes.judge(v), *self.insts.gone_to(v)]
        return [chosen, self.dialect.where(sql("NOT is_apart"), tried), *self.block.then(sql("is_apart"), apart)]
