"""`repair`: servers that lost rows get them again, in a version with the contents of the newest.

What a server has a copy of comes from one that has it whole. Of a view that is shared out no other server has a lost part: it is computed
from scratch, by all servers, since each row counts wherever it lies. A lost part of a base table can be had from a backup alone. Nothing
that is there is changed: the rows go into tables of their own, as a fold's do, and the version is made where they have the right prints.
"""

from __future__ import annotations

from typing import TYPE_CHECKING

from ..finding import Failure
from ..sql.slots import Slot
from ..sql.steps import Comp
from ..sql.tokens import name, sql
from . import standing
from .carrying import Carrying, Lossy
from .leftovers import taken_up
from .making import durable
from .pouring import Pouring
from .refilling import Refill
from .status import BAD_WORDS, REFUSED
from .versions import WHOLE, Purpose

if TYPE_CHECKING:
    from collections.abc import Collection, Iterable, Sequence

    from ..sql.tokens import Sql
    from .servers import Server
    from .versions import Version
    from .warehouse import Made, Warehouse


# ---- servers that have no tables


def with_tables(found: Warehouse, named: Collection[str]) -> Warehouse:
    """The warehouse as its servers say it, where those that are named have the tables that they should."""
    servers = found.servers
    servers.each(lambda server: server.learn())
    made = servers.each(found.made)
    if made[0] is None:
        told = f"{servers.first} is the first server, which has the versions: it can come from a backup alone"
        raise Failure(REFUSED, f"whview cluster: there is no warehouse in {found.dialect.schema} on {servers.first}: {told}")
    for own, server in enumerate(servers.all):
        if str(server) in named:
            make_tables(found, made[0], own)
    return found.judged()


def make_tables(found: Warehouse, known: Made, own: int) -> None:
    """Makes what a server lacks of the tables; what it has stays. The words by which it is known come last."""
    server, newest = found.servers.all[own], found.versions.newest()
    warehouse = type(found)(found.catalogue, found.servers.all, found.dialect.schema, known.shards, found.cluster, newest.tables)
    made_once(server, warehouse, sql("CREATE DATABASE IF NOT EXISTS {schema}", schema=name(found.dialect.schema)))
    script = warehouse.script(slot=Slot(0, newest.generation))
    for made in (*script.create(durable(server)), *script.tables_of_servers()):
        made_once(server, warehouse, made.said)
    words = warehouse.words(own, known.mark)._replace(shards=known.shards)
    made_once(server, warehouse, sql("CREATE VIEW {own} AS {words}", own=found.dialect.table("~w"), words=words.literals()))


def made_once(server: Server, warehouse: Warehouse, said: Sql) -> None:
    """Something that a server may have already, or of which it has the rows still."""
    taken_up(server, warehouse.written(said))


# ---- rows


class Repair:
    """What is lost of the newest version on the servers that are named, and where each view comes from."""

    def __init__(self, warehouse: Warehouse, named: Collection[str]) -> None:
        self.warehouse, self.named, self.base = warehouse, named, warehouse.versions.newest()
        self.views = warehouse.catalogue.views
        found = standing.printed(warehouse, range(len(self.views)), self.base.slots)
        # Of each view the servers that have not what they should.
        self.lost = [self.losers(v, found) for v in range(len(self.views))]

    def losers(self, v: int, found: Sequence[int]) -> list[int]:
        """The servers whose rows of a view are not those of the version."""
        prints, of_view = self.base.prints, standing.of_view
        return [own for own in range(len(self.warehouse.servers)) if of_view(self.warehouse, prints, own, v) != of_view(self.warehouse, found, own, v)]

    def run(self) -> Version:
        """Makes the version."""
        self.judge()
        try:
            return self.refilled(False)
        except Lossy:
            return self.refilled(True)

    def judge(self) -> None:
        """Refuses what cannot be mended, and to mend servers that nobody named."""
        there = standing.asked(self.warehouse)
        if older := standing.older(self.warehouse, self.base, there):
            raise Failure(REFUSED, f"whview cluster: {older[0]}: it has the versions, and can come from a backup alone")
        wrong = {own for losers in self.lost for own in losers} | {own for own, each in enumerate(there) if each.faults(self.base.slots)}
        servers = self.warehouse.servers.all
        if others := [str(servers[own]) for own in sorted(wrong) if str(servers[own]) not in self.named]:
            raise Failure(REFUSED, f"whview cluster: {' '.join(others)} lost rows too: name all servers that have to be repaired")
        if not wrong:
            raise Failure(REFUSED, f"whview cluster: version {self.base.seq} is whole on {' '.join(self.named)}: there is nothing to repair")
        if told := [fault for v in range(len(self.views)) for fault in self.gone(v)]:
            raise Failure(REFUSED, *(f"whview cluster: {fault}; nothing is changed" for fault in told))

    def gone(self, v: int) -> list[str]:
        """What no server has of a base table, and nobody can compute."""
        is_shared, servers = self.warehouse.plain.is_shared(v), self.warehouse.servers.all
        if self.views[v].over or not (is_shared or len(self.lost[v]) == len(servers)):
            return []
        return [
            f"{'the part of ' if is_shared else ''}{self.views[v].name} on {servers[own]} is lost, and no other server has it: a backup of"
            f" version {self.since(v, own)} or a later one has these rows, and so has a disk of {servers[own]} since then"
            for own in self.lost[v]
        ]

    def since(self, v: int, own: int) -> int:
        """The first version that is kept of those since which a server's rows of a view are what they should be by now."""
        found, meant = self.base.seq, standing.of_view(self.warehouse, self.base.prints, own, v)
        for version in reversed([each for each in self.warehouse.versions.all() if each.definitions == self.base.definitions]):
            if version.seq <= found and standing.of_view(self.warehouse, version.prints, own, v) != meant:
                break
            found = min(found, version.seq)
        return found

    def refilled(self, is_netted: bool) -> Version:
        """The version, view by view, those below a view before it."""
        warehouse, base = self.warehouse, self.base
        refill = Refill(warehouse, base, warehouse.versions.attempt(base.night, Purpose.REPAIR))
        refill.begin()
        # What is computed reads what stands in the new slot.
        carrying = Carrying(warehouse, base._replace(slots=(refill.slot.number,)), refill.slot, None, is_netted)
        pouring = Pouring(warehouse, refill.slot)
        for v in range(len(self.views)):
            self.put(v, refill, carrying, pouring)
            refill.count(v)
        return refill.commit(Purpose.REPAIR, differing)

    def put(self, v: int, refill: Refill, carrying: Carrying, pouring: Pouring) -> None:
        """A view's rows: each server's own where it has them; else from one that has a copy, or computed by all."""
        warehouse, servers = self.warehouse, self.warehouse.servers.all
        whole = [server for own, server in enumerate(servers) if own not in self.lost[v]]
        if self.lost[v] and (warehouse.plain.is_shared(v) or not whole):
            carrying.carry(Comp(v, (), (warehouse.steps.whole(v),)))
            return
        said = warehouse.written(refill.script.folded(v).said)
        for server in whole:
            server.carried(said, token=warehouse.token(refill.slot.number, f"fold {v}"))
        for own in self.lost[v]:
            pouring.pour(v, whole[0].lines(warehouse.written(refill.script.summed_up(v))), servers[own])


def differing(warehouse: Warehouse, had: Sequence[int], found: Sequence[int]) -> list[str]:
    """What servers hold otherwise than a version says: of a view that is shared out, and computed, all of them together."""
    own = range(len(warehouse.servers))
    return [
        f"{view.name} has other rows than the version says"
        for v, view in enumerate(warehouse.catalogue.views)
        if added(warehouse, had, own, v) != added(warehouse, found, own, v)
    ]


def added(warehouse: Warehouse, prints: Sequence[int], servers: Iterable[int], v: int) -> list[int]:
    """The prints of a view of servers together; of a base table or a copied one each by itself."""
    each = [standing.of_view(warehouse, prints, own, v) for own in servers]
    if warehouse.catalogue.views[v].over and warehouse.plain.is_shared(v):
        return [sum(column) % WHOLE for column in zip(*each)]
    return [one for prints in each for one in prints]


def server_named(warehouse: Warehouse, said: Sequence[str]) -> list[str]:
    """The servers of a command that are named, which have to be its own."""
    servers = [str(server) for server in warehouse.servers.all]
    if strange := [each for each in said if each not in servers]:
        raise Failure(BAD_WORDS, f"whview cluster: {strange[0]} is none of the servers {' '.join(servers)}")
    return list(said)
