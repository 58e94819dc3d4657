"""Servers and clients killed at drawn moments of repairs, restores and recasts: what is there then is whole, or `check` says what is not, and a
second run comes to its end."""

import itertools
from contextlib import ExitStack
from pathlib import Path
from tempfile import TemporaryDirectory
from unittest.mock import patch

from whview.cluster import backup, checking, nights
from whview.cluster.reading import Session
from whview.cluster.recasting import recast
from whview.cluster.repairing import Repair
from whview.cluster.servers import Server
from whview.cluster.versions import Purpose, Stage
from whview.cluster.warehouse import Warehouse

from trials.cluster import backups, recasts, repaired
from trials.cluster.killed import AMID, Blow, as_a_client, itself, with_a_server
from trials.cluster.recasts import OTHER, recasted, with_catalogue
from trials.cluster.scenarios import SHARES, ends
from trials.servers.clickhouse import NAME

# Which tables are emptied on a server, where `a` alone is shared out.
EMPTIED = (("b",), ("j",), ("s",), ("u",), ("b", "s"))
ROWS = itertools.count(5000)


def faults(warehouse):
    """What `check` tells of the newest version."""
    return checking.faults(Session(warehouse))


class OfRepair:
    """A server that lost rows, and its repair."""

    def __init__(self, source, processes, _):
        self.small = repaired.with_nights(processes, ["a:k"])
        self.server = self.small.servers[-1]
        repaired.emptied(self.small, self.server, *source.choice(EMPTIED))

    def do(self):
        return Repair(self.small.client(), [str(self.server)]).run()

    def settled(self):
        """Where `check` tells anything, a second repair mends it."""
        wrong = []
        if faults(self.small.client()):
            self.do()
        else:
            wrong = ends(self.do, "there is nothing to repair")
        self.small.warehouse = self.small.client()
        wrong += faults(self.small.client()) + self.small.differs(None, "behind a repair")
        self.small.night({(2, 7): -1, (3, next(ROWS)): 1}, {(3, "elm"): 2})
        return wrong + self.small.differs(None, "behind a repair and a night")


class OfRecast:
    """Another catalogue, and the version by it."""

    def __init__(self, _, processes, __):
        self.small = repaired.with_nights(processes, SHARES)

    def do(self):
        return recast(with_catalogue(self.small, OTHER).client())

    def settled(self):
        """The old catalogue's version is as it was, or the new one's is there; a second recast makes it, with all that readers are given."""
        is_old = self.small.versions.highest().definitions == self.small.warehouse.definitions
        wrong = self.small.differs(None, "what a recast left") + faults(self.small.client()) if is_old else []
        other = recasted(self.small, OTHER)
        wrong += other.differs(None, "recast") + recasts.now_differs(other, "u") + faults(other.warehouse)
        return wrong + recasts.night(other, {(2, 7): -1, (3, next(ROWS)): 1}, {(3, "elm"): 1}) + other.differs(None, "recast, and a night")


class OfRestore:
    """A backup, and a warehouse that gets it."""

    def __init__(self, _, processes, stack):
        servers = processes.servers()
        self.small = backups.with_nights(servers)
        self.folder = Path(stack.enter_context(TemporaryDirectory())) / "kept"
        backup.backup(self.small.warehouse, self.folder)
        self.database, self.servers = backups.made(self.small, servers).dialect.schema, servers

    def client(self):
        return Warehouse(self.small.catalogue, self.servers, self.database, SHARES, NAME)

    def do(self):
        return backup.restore(self.client(), self.folder)

    def settled(self):
        """There is nothing yet, and a second restore puts it in, or all is there."""
        versions, wrong = self.client().versions, []
        newest = versions.newest()
        if newest.stage == Stage.CREATED:
            wrong = faults(self.client())
            if versions.alive(newest.night, Purpose.NIGHT):
                nights.give_up(self.client())
            self.do()
        return wrong + backups.goes_on(self.small, self.client(), "restored")


KINDS = (OfRepair, OfRecast, OfRestore)


def statements_of(kind, source, processes):
    """How many statements it sends where nobody is killed."""
    with ExitStack() as stack:
        found, blow = kind(source, processes, stack), Blow(0, "", 0, None)
        with patch.object(Server, "sent", blow.around(Server.sent)):
            found.do()
        return blow.sent


def killed_amid(source, processes, count):
    """So many blows, to servers and to clients in turn. Answers what went wrong, and how many fell."""
    sent, wrong, struck = {kind: statements_of(kind, source, processes) for kind in KINDS}, [], 0
    for number in range(count):
        kind = KINDS[number % len(KINDS)]
        with ExitStack() as stack:
            found = kind(source, processes, stack)
            at, how, delay = source.randint(1, sent[kind]), source.choice(["before", "amid", "behind"]), source.random() * AMID
            is_client = source.random() < 0.5
            victim = source.choice(processes.all)
            end, blow = (as_a_client, Blow(at, how, delay, itself)) if is_client else (with_a_server, Blow(at, how, delay, victim.kill))
            ended, is_struck = end(found.do, blow)
            struck += is_struck
            processes.restart()
            where = f"a {'client' if is_client else 'server'} killed in {kind.__name__} at statement {at} of {sent[kind]} ({ended})"
            try:
                wrong += [f"{where}: {told}" for told in found.settled()]
            except Exception as error:
                wrong.append(f"{where}: {error!r}")
    return wrong, struck
