"""Servers and clients killed at drawn moments of nights, folds and sweeps: what is there then, and after going on."""

import os
import signal
import threading
import time
from unittest.mock import patch

from whview.cluster import keeping, nights
from whview.cluster.keeping import Sweep
from whview.cluster.reading import Session
from whview.cluster.servers import Lost, Server, Told
from whview.finding import Failure

from trials.cluster.scenarios import SHARES
from trials.cluster.small_warehouse import A, STRATEGY, Small

ACTIONS = ("night", "night", "commit", "fold", "sweep")
# So long after a statement was sent the blow falls at most.
AMID = 0.03


class Blow:
    """Something that falls at the statement with this number, before it is sent, amid it or behind it."""

    def __init__(self, at, how, delay, strike):
        self.at, self.how, self.delay, self.strike, self.sent, self.lock = at, how, delay, strike, 0, threading.Lock()

    def around(self, sent):
        def struck(server, said, *given, **more):
            with self.lock:
                self.sent += 1
                is_due = self.sent == self.at
            if is_due and self.how == "before":
                self.strike()
            if is_due and self.how == "amid":
                threading.Timer(self.delay, self.strike).start()
            found = sent(server, said, *given, **more)
            if is_due and self.how == "behind":
                self.strike()
            return found

        return struck


class Killed:
    """A small warehouse on servers some of which, or whose client, are killed in the middle of something."""

    def __init__(self, source, processes):
        self.source, self.processes = source, processes
        self.small, self.number, self.wrong, self.struck = Small(processes.servers(), SHARES), 0, [], 0

    def changes(self):
        """Changes of a night, which no other has."""
        self.number += 1
        gone = self.source.choice(sorted(self.small.tables[0]))
        return self.small.changes({(self.source.randint(1, 4), 100 + self.number): 1, gone: -1}, {(2, f"t{self.number}"): 1})

    def action(self, what, changes):
        """What is to be done, as a call."""
        warehouse = self.small.client()
        if what in ("night", "commit"):
            return lambda: nights.night(warehouse, changes, STRATEGY)
        if what == "fold":
            return lambda: keeping.fold(warehouse)
        return lambda: Sweep(warehouse, self.source.choice([-1, 10**6])).run()

    def statements(self, what, changes):
        """How many statements it takes, by one that changes nothing."""
        return {"night": 32, "commit": 32, "fold": 22, "sweep": 16}[what]

    def moment(self, what, strike):
        last = self.statements(what, None)
        at = self.source.randint(last - 6, last) if what == "commit" else self.source.randint(1, last)
        return Blow(at, self.source.choice(["before", "amid", "behind"]), self.source.random() * AMID, strike)

    def once(self, is_client):
        """One blow. Notes what is otherwise then, and after going on."""
        what, changes = self.source.choice(ACTIONS), self.changes()
        ended = (self.kill_client if is_client else self.kill_server)(what, changes)
        where = f"{'client' if is_client else 'server'} killed in a {what} ({ended})"
        self.wrong += [f"{where}: {told}" for told in self.read_meanwhile()]
        self.processes.restart()
        done = self.settle(what, changes, ended, where)
        if not done:
            self.go_on(where)

    def settle(self, what, changes, ended, where):
        """The newest version is whole: the tables of before, or of after where it was a night. Answers whether something is wrong."""
        before = self.small.differs(None, where)
        if what in ("fold", "sweep"):
            self.wrong += before
            return bool(before)
        kept = {v: rows.copy() for v, rows in self.small.tables.items()}
        self.small.changed(changes)
        after = self.small.differs(None, where)
        if after:
            self.small.tables = kept
        if (before and after) or (ended == "answered" and after):
            self.wrong += after
            return True
        return False

    def read_meanwhile(self):
        """What a reader is told while a server may be down: a whole table, or an error of a server's. No rows are left out."""
        try:
            Session(self.small.client()).read(A)
        except (Told, Lost):
            return []
        except Failure as failure:
            return failure.lines
        return []

    def go_on(self, where):
        """`give-up` where there is something to give up, and a night."""
        if self.small.versions.alive(self.small.versions.newest().night, "night"):
            nights.give_up(self.small.warehouse)
        version, told = self.small.night({(1, 1000 + self.number): 1}, {(1, f"u{self.number}"): 1})
        self.wrong += [f"{where}: {told}"] if told else self.small.differs(version.seq, f"{where}, after going on")

    def kill_server(self, what, changes):
        """Kills a server while this client is at work."""
        victim = self.source.choice(self.processes.all)
        ended, is_struck = with_a_server(self.action(what, changes), self.moment(what, victim.kill))
        self.struck += is_struck
        return ended

    def kill_client(self, what, changes):
        """Kills a client, which is a process of its own."""
        ended, is_struck = as_a_client(self.action(what, changes), self.moment(what, itself))
        self.struck += is_struck
        return ended


def itself():
    """A process kills itself."""
    os.kill(os.getpid(), signal.SIGKILL)


def with_a_server(do, blow):
    """How something ends amid which a server is killed, and whether it came to that."""
    try:
        with patch.object(Server, "sent", blow.around(Server.sent)):
            do()
        ended = "answered"
    except (Failure, Told, Lost):
        ended = "an error"
    time.sleep(AMID)
    return ended, blow.sent >= blow.at


def as_a_client(do, blow):
    """How something ends that a process of its own does which is killed, and whether it came to that."""
    child = os.fork()
    if child == 0:
        status = 3
        try:
            with patch.object(Server, "sent", blow.around(Server.sent)):
                do()
            status = 0
        finally:
            os._exit(status)
    _, status = os.waitpid(child, 0)
    if os.WIFSIGNALED(status):
        return "killed", True
    return "answered" if os.WEXITSTATUS(status) == 0 else "an error", False


def killed(source, processes, servers, clients):
    """So many blows of each kind. Answers what went wrong, and how many fell."""
    trial = Killed(source, processes)
    for number in range(servers + clients):
        try:
            trial.once(number >= servers)
        except Exception as error:
            processes.restart()
            trial.wrong.append(f"blow {number}: {error!r}")
    return trial.wrong, trial.struck
