"""`recast`: a version by another catalogue over the same base tables. Views that stay go into a slot of their own as a fold puts them there;
those that come, or are defined anew, are computed from them. Nothing that is there is changed, and creating the version is the commit.

A view that is defined anew has tables of another name, since its columns may be others, and versions of before are read still. Its `V~now`
raises from the commit until it is made anew, behind it: it asks whether the newest version has the view as it knows it.
"""

from __future__ import annotations

from typing import TYPE_CHECKING

from ..finding import Failure
from ..sql.slots import HASHES, NO_SLOT
from ..sql.steps import Comp, Finish, Inst, Operand, Step
from ..sql.tokens import sql, text
from . import readers, standing
from .carrying import Carrying, Lossy, Refusal
from .making import durable
from .nights import judge_base, judge_idle
from .servers import GONE, TAKEN, Told
from .status import REFUSED
from .versions import Purpose, Stage
from .warehouse import COLUMNS

if TYPE_CHECKING:
    from collections.abc import Callable, Sequence

    from ..sql.slots import Slot
    from .versions import Version
    from .warehouse import Warehouse


def recast(found: Warehouse) -> Version:
    """Makes a version by the catalogue, or answers the newest where that has it."""
    # With replicas the words have been judged, of all servers that answer and not of those alone that are asked.
    shards = found.shards if found.copies else found.judged_words().shards
    base = found.versions.highest()
    whole = found.remade(shards=shards)
    judge(whole, base)
    if base.definitions == whole.definitions:
        made, version = found.remade(base.tables, shards), base
    else:
        made, version = carried(whole, base)
    show(made, base)
    return version


def judge(warehouse: Warehouse, base: Version) -> None:
    """Refuses to begin where base tables are others, or somebody is at work, or rows were lost."""
    if base.stage != Stage.OPENED:
        raise Failure(REFUSED, f"whview cluster: version {base.seq} has no views yet: `load` and `open` make them, by the catalogue that it has")
    had, has = bases(base.definitions), bases(warehouse.definitions)
    if had != has:
        names = ", ".join(sorted({each.partition(" ")[0] for each in had ^ has}))
        raise Failure(REFUSED, f"whview cluster: {names} is another base table than before, which no recast makes: load the warehouse anew")
    judge_idle(warehouse, base)
    standing.judge(warehouse, base, standing.asked(warehouse), lambda: judge_base(warehouse.versions, base))


def bases(definitions: Sequence[str]) -> set[str]:
    """The definitions of base tables."""
    return {each for each in definitions if each.split(" ")[1] == COLUMNS}


def carried(whole: Warehouse, base: Version) -> tuple[Warehouse, Version]:
    """The warehouse with the tables that its views have then, and the version."""
    is_netted = False
    while True:
        slot = whole.versions.attempt(base.night, Purpose.RECAST)
        made = whole.remade(tables(whole, base, slot))
        try:
            return made, Recast(made, base, slot, is_netted).run()
        except Lossy:
            is_netted = True
        except Refusal as refusal:
            raise Failure(REFUSED, str(refusal), "whview cluster: by this catalogue; nothing is changed") from refusal


def tables(warehouse: Warehouse, base: Version, slot: Slot) -> list[str]:
    """The names of the views' tables: those that they have; their own where nothing has that; else a name that nothing had. A server that does
    not answer may have any table still."""
    said = warehouse.written(sql("SELECT name FROM system.tables WHERE database = {schema}", schema=text(warehouse.dialect.schema)))
    taken = {name for names in warehouse.every.each(lambda server: server.asked(said)) for name, in names}
    had = dict(zip(base.definitions, base.tables))
    are_all = warehouse.copies is None or len(warehouse.copies.living) == len(warehouse.copies.all)
    free = [view.name if are_all and view.name not in taken else f"{view.name}~c{slot.number}" for view in warehouse.catalogue.views]
    return [had.get(definition, name) for definition, name in zip(warehouse.definitions, free)]


class Recast:
    """A slot that gets all views of a catalogue."""

    def __init__(self, warehouse: Warehouse, base: Version, slot: Slot, is_netted: bool) -> None:
        self.warehouse, self.base, self.slot = warehouse, base, slot
        self.script, self.views = warehouse.script(base.slots, slot), warehouse.catalogue.views
        # Of each view which one of the version of before it is, or None.
        self.old = [base.definitions.index(each) if each in base.definitions else None for each in warehouse.definitions]
        self.totals = [0 if old is None else base.totals[old] for old in self.old]
        self.gross = [0] * len(self.views)
        before = base._replace(slots=(NO_SLOT,), totals=tuple(self.totals), gross=tuple(self.gross))
        self.carrying = Carrying(warehouse, before, slot, None, is_netted)

    def run(self) -> Version:
        """Makes the version."""
        self.warehouse.made_by_all(self.script.tables_of_generation(durable(self.warehouse.servers.first)))
        for v in range(len(self.views)):
            self.warehouse.made_by_all(self.script.tables_of(v))
            self.put(v)
        prints = standing.sealed(self.warehouse, self.base, self.slot, range(len(self.views)))
        judge_base(self.warehouse.versions, self.base)
        self.judge(prints)
        return self.warehouse.versions.commit_as(self.base, self.base._replace(
            night=self.base.night + 1, how=Purpose.RECAST, slots=(NO_SLOT, self.slot.number), totals=tuple(self.totals), gross=tuple(self.gross),
            prints=tuple(prints), generation=self.slot.generation, definitions=self.warehouse.definitions, tables=self.warehouse.tables,
        ))  # fmt: skip

    def put(self, v: int) -> None:
        """A view's rows, which are counted then."""
        if self.old[v] is not None:
            self.warehouse.carried(self.script.folded(v), self.warehouse.token(self.slot.number, f"fold {v}"))
        else:
            term = tuple(Operand(u, False, True) for u in self.views[v].over)
            steps: list[Step] = [Comp(v, (), (term,)), Finish(v), Inst(v)]
            for step in steps:
                self.carrying.carry(step)
            self.totals[v] = self.carrying.more[v]
        total, self.gross[v] = map(int, self.warehouse.versions.asked(self.script.total(v).said)[0])
        self.carrying.gross[v] = self.gross[v]
        if total != self.totals[v]:
            judge_base(self.warehouse.versions, self.base)
            told = f"{self.views[v].name} has {total} rows, and should have {self.totals[v]}: somebody changed its tables by hand"
            raise Failure(REFUSED, f"whview cluster: {told}; nothing is changed, `check` tells what is lost")

    def judge(self, prints: Sequence[int]) -> None:
        """Refuses rows of views that stay and have other prints than in the version of before."""
        width = len(self.base.definitions) * len(HASHES)
        for own, server in enumerate(self.warehouse.servers.all):
            for v, old in enumerate(self.old):
                at = own * width + (old or 0) * len(HASHES)
                if old is not None and standing.of_view(self.warehouse, prints, own, v) != self.base.prints[at : at + len(HASHES)]:
                    told = f"version {self.base.seq} is not whole: {self.views[v].name} on {server} has other rows than the version says"
                    raise Failure(REFUSED, f"whview cluster: {told}; nothing is changed, `check` tells what is lost")


# ---- readers


def show(warehouse: Warehouse, base: Version) -> None:
    """Makes `V~now` of all views as they are by now, and takes that of those away that left."""
    script, versions = warehouse.plain, warehouse.versions
    if warehouse.copies:
        return readers.show(warehouse, readers.ON_THEIR_WAY)
    there = {name for name, in versions.asked(sql("SELECT name FROM system.tables WHERE database = {schema}", schema=text(warehouse.dialect.schema)))}
    for v, view in enumerate(warehouse.catalogue.views):
        if warehouse.definitions[v] in base.definitions and f"{view.name}~now" in there and base.definitions != warehouse.definitions:
            continue
        now, old = script.table_now(v), script.table_now(v, "~old")
        versions.carried(sql("DROP TABLE IF EXISTS {old}", old=old))
        tried(lambda: versions.carried(sql("RENAME TABLE {now} TO {old}", now=now, old=old)))
        tried(lambda: versions.carried(script.now(v)))
        versions.carried(sql("DROP TABLE IF EXISTS {old}", old=old))
    names = {view.name for view in warehouse.catalogue.views}
    for gone in {each.partition(" ")[0] for each in base.definitions} - names:
        versions.carried(sql("DROP TABLE IF EXISTS {now}", now=warehouse.dialect.table(f"{gone}~now")))


def tried(do: Callable[[], None]) -> None:
    """What somebody may have done already."""
    try:
        do()
    except Told as told:
        if told.code not in (*GONE, TAKEN):
            raise
