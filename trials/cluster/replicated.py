"""Shards of two servers each: nights go on while one of each shard is killed, and one that comes back is read when it has all. Each scenario
is given four servers as processes, two of each shard, and answers what came otherwise, in a list."""

import copy
import time
from contextlib import ExitStack, contextmanager
from pathlib import Path
from tempfile import TemporaryDirectory
from unittest.mock import patch

from whview.cluster import backup, keeping, making, many, nights, replicas
from whview.cluster.keeping import Sweep
from whview.cluster.recasting import recast
from whview.cluster.servers import Lost, Server, Told
from whview.finding import Failure

from trials.cluster import backups, recasts
from trials.cluster.inputs import Folder, done, one_line
from trials.cluster.killed import AMID, Blow
from trials.cluster.recasts import OTHER
from trials.cluster.scenarios import SHARES, ends
from trials.cluster.small_warehouse import A, AT_ONCE, STRATEGY, TEXT, Small
from trials.servers.clickhouse import COPIES

# By about so many statements a night is carried out, and a fold.
STATEMENTS = {"night": 60, "fold": 66}
# How long what a reader asks may take that no server can answer.
SOON = 3


class Many:
    """A small warehouse with replicas, by its processes."""

    def __init__(self, processes, shards=SHARES):
        self.processes = processes
        self.small = Small(processes.servers(), shards, replicas=COPIES)
        self.number = 0

    def replicas(self, preferred=()):
        """A client's own view of the servers, which asks some first."""
        found = self.small.replicated(self.processes.known())
        found.preferred = [server for server in found.servers if str(server) in {each.address for each in preferred}]
        return found

    def changes(self, source):
        """Changes of a night, which no other has."""
        self.number += 1
        gone = source.choice(sorted(self.small.tables[A]))
        return self.small.changes({(source.randint(1, 4), 100 + self.number): 1, gone: -1}, {(2, f"t{self.number}"): 1})

    def night(self, changes, preferred=(), strategy=STRATEGY):
        """A night that goes on where a server fails; the tables are those behind it."""
        version, told = self.replicas(preferred).tried(lambda warehouse: nights.night(warehouse, changes, strategy))
        if told is None:
            self.small.changed(changes)
        return version

    def recasted(self, text, preferred=()):
        """The same when its servers have it by another catalogue."""
        found = copy.copy(self)
        found.small = recasts.with_catalogue(self.small, text)
        many.carried_out(found.replicas(preferred), "recast", lambda warehouse: recast(warehouse).seq, None)
        return found

    def differs(self, what, preferred=(), seq=None):
        """What a version holds otherwise than the definitions say, as servers tell it of which some are asked first."""

        def read(warehouse):
            self.small.warehouse = warehouse
            return self.small.differs(seq, what)

        return self.replicas(preferred).tried(read)

    def faults(self, what):
        """What `check` tells of all servers that answer."""
        found = self.replicas()
        return [f"{what}: {told}" for told in found.tried(lambda warehouse: many.faults(found, warehouse, None))]

    def of_shard(self, place):
        """One server of each shard."""
        return self.processes.all[place::COPIES]


def drawn_kills(processes, source, rounds):
    """Nights and folds, in each of which one server of each shard is killed at drawn statements: all of them come to an end, with the right rows
    by those that are left, and by those that come back. Answers what is wrong, and how many were killed."""
    tried, wrong, struck = Many(processes), [], 0
    for number in range(rounds):
        what, changes = source.choice(["night", "night", "fold"]), tried.changes(source)
        victims = [processes.all[COPIES * shard + source.randrange(COPIES)] for shard in range(processes.count // COPIES)]
        where = f"round {number}, a {what} with {' '.join(each.address for each in victims)} killed"
        with struck_at(source, victims, STATEMENTS[what]) as blows:
            if what == "night":
                tried.night(changes)
            else:
                tried.replicas().tried(keeping.fold)
        struck += sum(blow.sent >= blow.at for blow in blows)
        wrong += tried.differs(f"{where}, by those that are left")
        if source.random() < 0.5:
            tried.night(tried.changes(source))
            wrong += tried.differs(f"{where}, a night later")
        processes.restart()
        wrong += tried.differs(f"{where}, by those that came back", victims)
        wrong += tried.faults(where)
        if wrong:
            break
    return wrong, struck


@contextmanager
def struck_at(source, victims, statements):
    """While it lasts each of these is killed at a drawn statement, and at the end where none came to that."""
    blows = [Blow(source.randint(1, statements), source.choice(["before", "amid", "behind"]), source.random() * AMID, each.kill) for each in victims]
    with ExitStack() as stack:
        for blow in blows:
            stack.enter_context(patch.object(Server, "sent", blow.around(Server.sent)))
        yield blows
    time.sleep(2 * AMID)
    for victim in victims:
        victim.kill()


# ---- step by step


def comes_back(processes):
    """A server that comes back has the tables that were made meanwhile, and all rows, before it is read; the one that had them may be gone."""
    tried = Many(processes)
    gone, left = tried.of_shard(1), tried.of_shard(0)
    for each in gone:
        each.kill()
    tried.night(tried.small.changes({(1, 6): 1}, {(2, "elm"): 1}))
    tried.replicas().tried(keeping.fold)
    tried.night(tried.small.changes({(3, 8): 2}, {(1, "yew"): 1}))
    processes.restart()
    wrong = tried.differs("by those that came back", gone) + tried.faults("behind a fold while servers were away")
    for each in left:
        each.kill()
    wrong += tried.differs("by those that came back alone", gone)
    tried.night(tried.small.changes({(1, 6): -1, (4, 4): 1}, {(3, "ash"): 1}))
    processes.restart()
    return wrong + tried.differs("by those that came back later", left) + tried.faults("behind both")


def goes_on(processes):
    """A night goes on when a server fails in its midst: at the first INSERT of a Comp those that are asked are killed."""
    tried = Many(processes)
    changes, sent, struck = tried.small.changes({(1, 6): 1, (2, 6): 1}, {(2, "elm"): 1}), Server.sent, []

    def killing(server, said, *given, **more):
        if said.startswith("INSERT INTO") and '"j~0"' in said and not struck:
            struck.append(server)
            for each in tried.of_shard(0):
                each.kill()
        return sent(server, said, *given, **more)

    with patch.object(Server, "sent", killing):
        tried.night(changes, tried.of_shard(0))
    wrong = tried.differs("behind a night in which servers failed") + ([] if struck else ["no server was struck"])
    processes.restart()
    return wrong + tried.differs("by those that failed in a night", tried.of_shard(0))


def too_old(processes):
    """A server that has not all rows is not read, though it is the last one of its shard; it is told what is missing."""
    tried = Many(processes)
    gone, left = tried.of_shard(1), tried.of_shard(0)
    for each in gone:
        each.kill()
    tried.night(tried.small.changes({(1, 6): 1, (2, 6): 1, (3, 6): 1, (4, 6): 1}, {(2, "elm"): 1, (3, "box"): 1, (1, "bay"): 1}))
    for each in left:
        each.kill()
    processes.restart_all(gone)
    with patch.object(replicas, "PATIENCE", SOON):
        wrong = told_or_right(tried, gone)
    processes.restart()
    return wrong + tried.differs("when all are back", gone)


def told_or_right(tried, preferred):
    """What is read is right, or an error is told."""
    try:
        return tried.differs("by servers that have not all", preferred)
    except (Failure, Lost, Told):
        return []


def waits_for_all(processes):
    """A night is not done before all servers that answer have its rows: where one cannot get them, it ends with an error."""
    tried = Many(processes)
    others = [Server(each.address) for each in tried.of_shard(1)]
    for server in others:
        server.carried(f'SYSTEM STOP FETCHES "{tried.small.database}"."j~0"')
    with patch.object(replicas, "PATIENCE", SOON), patch.object(replicas, "QUORUM", 1):
        try:
            tried.night(tried.small.changes({(1, 6): 1, (2, 6): 1}, {(2, "elm"): 1}), tried.of_shard(0))
            wrong = ["a night was done whose rows were on one server of each shard alone, though two answer"]
        except (Failure, Lost, Told):
            wrong = []
    for server in others:
        server.carried(f'SYSTEM START FETCHES "{tried.small.database}"."j~0"')
    return wrong + tried.differs("behind a night that did not come to all")


def first_is_first(processes):
    """Of two clients that commit over one version, by different servers, one is first; the other is told so."""
    tried = Many(processes)
    one, other = (tried.replicas(tried.of_shard(place)).chosen() for place in (0, 1))
    changes = [tried.small.changes({(1, 60 + at): 1}, {}) for at in range(2)]
    first, second = tried.small.begun(changes[0], one), committing(tried, changes[1], other)
    first()
    tried.small.changed(changes[0])
    return ends(second, "another client was first") + tried.differs("behind two commits")


def committing(tried, changes, warehouse):
    """A night up to its commit by a client that was asked before, when there was no other attempt."""
    with patch.object(nights, "idle", lambda found: found.versions.newest()):
        return tried.small.begun(changes, warehouse)


def the_first_server_gone(processes):
    """No server is one without which nothing goes: with the first one of all killed, versions are read, and nights, a fold and sweeps go on."""
    tried = Many(processes)
    processes.all[0].kill()
    tried.night(tried.small.changes({(1, 6): 1}, {}))
    tried.replicas().tried(keeping.fold)
    tried.night(tried.small.changes({(1, 7): 1}, {}))
    for _ in range(2):
        tried.replicas().tried(lambda warehouse: Sweep(warehouse, AT_ONCE).run())
    wrong = tried.differs("without the first server")
    processes.restart()
    tried.replicas().tried(lambda warehouse: Sweep(warehouse, AT_ONCE).run())
    return wrong + tried.differs("with the first server again", processes.all[:1]) + tried.faults("with the first server again")


def lost_rows(processes):
    """A server whose table was emptied behind its back gets it from the other one of its shard; one whose database is gone too."""
    tried = Many(processes)
    tried.night(tried.small.changes({(number, 100 + number): 1 for number in range(1, 9)}, {(number, "yew"): 1 for number in range(1, 5)}))
    server = Server(processes.all[1].address)
    with TemporaryDirectory() as path:
        folder = Folder(path, processes.servers(), tried.small.database)
        wrong = done(folder.told("check"), "check")
        server.carried(f'DROP DATABASE "{tried.small.database}"')
        status, err, _ = folder.told("check")
        wrong += [] if status == 1 and str(server) in err else [f"a database that was dropped: `check` ends with {status}, {err}"]
        wrong += done(folder.told("repair", str(server)), "repair") + done(folder.told("check"), "check behind a repair")
    return wrong + tried.differs("behind a repair", processes.all[1:2])


def recast_and_back(processes):
    """A catalogue changes with replicas: with all servers up, and back while one of each shard is killed in the midst of it. Those that come back
    have what came meanwhile, by tables of their own where they may have old ones."""
    tried, sent, struck = Many(processes), Server.sent, []
    tried.night(tried.small.changes({(1, 6): 1}, {(2, "yew"): 1}))
    other = tried.recasted(OTHER)
    wrong = other.differs("behind a recast")
    other.night(other.small.changes({(2, 7): -1, (3, 33): 1}, {(3, "elm"): 1}), strategy=recasts.STRATEGY)
    wrong += other.differs("behind a recast and a night") + other.faults("behind a recast and a night")

    def killing(server, said, *given, **more):
        if said.startswith("INSERT INTO") and '"j~' in said and not struck:
            struck.append(server)
            for each in other.of_shard(0):
                each.kill()
        return sent(server, said, *given, **more)

    with patch.object(Server, "sent", killing):
        back = other.recasted(TEXT, other.of_shard(0))
    wrong += back.differs("behind a recast in which servers failed") + ([] if struck else ["no server was struck in a recast"])
    back.night(back.small.changes({(4, 44): 1}, {(4, "fir"): 1}))
    processes.restart()
    return wrong + back.differs("by those that failed in a recast", back.of_shard(0)) + back.faults("behind two recasts")


def backed_up(processes):
    """A backup is made while one server of each shard is down. What it has is restored on one server without replicas, and from there with them,
    where nights go on."""
    tried = Many(processes)
    tried.night(tried.small.changes({(1, 6): 1, (2, 8): 1}, {(2, "elm"): 1}))
    for each in (processes.all[0], processes.all[3]):
        each.kill()
    with TemporaryDirectory() as path:
        kept, again = Path(path) / "kept", Path(path) / "again"
        many.carried_out(tried.replicas(), "backup", lambda warehouse: backup.backup(warehouse, kept).version, None)
        processes.restart()
        alone, other = copy.copy(tried.small), copy.copy(tried)
        alone.warehouse = backups.made(alone, processes.servers()[:1])
        backup.restore(alone.warehouse, kept)
        wrong = alone.differs(None, "restored without replicas")
        backup.backup(alone.warehouse, again)
        other.small = copy.copy(tried.small)
        other.small.database = f"{tried.small.database}_again"
        making.create(other.replicas().new())
        many.carried_out(other.replicas(), "restore", lambda warehouse: backup.restore(warehouse, again).seq, None)
    wrong += other.differs("restored with replicas") + other.faults("restored with replicas")
    other.night(other.small.changes({(1, 6): -1, (4, 44): 1}, {(4, "fir"): 1}))
    return wrong + other.differs("restored with replicas, and a night")


def other_addresses(processes):
    """A server that comes back on other ports, of which all were told, is the one of before once `readdress` was told so: also where another one is
    down just then, and is told later."""
    tried = Many(processes)
    tried.night(tried.small.changes({(1, 6): 1}, {(2, "elm"): 1}))
    moved, down = processes.all[1], processes.all[3]
    for each in (moved, down):
        each.kill()
    processes.move(moved)
    moved.start().wait()
    with TemporaryDirectory() as path:
        folder = Folder(path, processes.addresses(), tried.small.database)
        wrong = one_line(folder.told("read", "a"), 2, "was made by servers", "readdress")
        wrong += one_line(folder.told("readdress", servers=[*folder.servers[2:], *folder.servers[:2]]), 2, "an order of servers")
        wrong += until(lambda: one_line(folder.told("readdress"), 4, f"{down.address} did not answer"))
        wrong += [f"behind readdress: {told}" for command in (["read", "j"], ["fold"], ["check"]) for told in left_out(folder.told(*command), command, down)]
        processes.restart()
        wrong += one_line(folder.told("check"), 2, "was made by servers", "readdress")
        wrong += done(folder.told("readdress"), "readdress") + done(folder.told("check"), "check")
    return wrong + tried.differs("by one that moved", [moved]) + tried.differs("by one that was told later", [down])


def left_out(ended, command, down):
    """What is wrong with a command while a server is down, which `check` alone tells."""
    return one_line(ended, 1, f"{down.address} does not answer") if command == ["check"] else done(ended, " ".join(command))


def until(do, seconds=300):
    """What is wrong when nothing is, or in the end: servers read their configuration again after a while."""
    end = time.monotonic() + seconds
    while (wrong := do()) and time.monotonic() < end:
        time.sleep(0.5)
    return wrong


def by_the_command(processes):
    """The command makes a warehouse with replicas and goes on when one of each shard is killed; `status` tells it."""
    with TemporaryDirectory() as path:
        folder = Folder(path, processes.servers(), "by_command")
        folder.write("data/a.csv", "k,x\n1,5\n2,7\n3,9\n")
        folder.write("data/b.csv", "k,t\n1,oak\n2,elm\n")
        folder.write("changes/a.csv", "#,k,x\n1,1,6\n-1,2,7\n")
        wrong = done(folder.told("create", more=["--replicas", "2", "--shard", "a:k"]), "create")
        wrong += done(folder.told("load"), "load") + done(folder.told("open"), "open")
        for each in processes.all[::COPIES]:
            each.kill()
        wrong += done(folder.told("night"), "a night with one of each shard killed")
        status, err, out = folder.told("status")
        wrong += [] if status == 1 and f"{processes.all[0].address} does not answer" in out else [f"status: {status}, {err}{out}"]
        status, err, out = folder.told("read", "s")
        processes.restart()
        # By hand: of a the rows (1, 5), (1, 6) and (3, 9) are left, of which oak has two.
        wrong += [] if (status, err, out) == (0, "", "#,t,n,x\n1,oak,2,11\n") else [f"read: {status}, {err}{out}"]
        return wrong + done(folder.told("check"), "check when all are back")


REPLICATED = [goes_on, comes_back, too_old, waits_for_all, first_is_first, the_first_server_gone, lost_rows, recast_and_back, backed_up,
              other_addresses, by_the_command]  # fmt: skip

