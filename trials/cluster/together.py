"""Nights, folds, sweeps, checks, backups, restores and readers, drawn together for some minutes, while servers are killed and stalled and links
between them are cut. Whoever writes keeps the tables of each version, from which an evaluator of its own computes the views; whatever anybody
reads has to be that, and no night that was answered may be missing."""

import itertools
import os
import random
import signal
import threading
import time
from collections import Counter
from pathlib import Path
from tempfile import TemporaryDirectory

from whview.catalogue.evaluator import Evaluator, added
from whview.cluster import backup, checking, keeping, making, nights
from whview.cluster.keeping import Sweep
from whview.cluster.reading import Session
from whview.cluster.replicas import Replicas
from whview.cluster.servers import Lost, Server, Told
from whview.cluster.versions import Purpose, Stage
from whview.cluster.warehouse import Warehouse
from whview.finding import Failure

from trials.cluster.scenarios import SHARES
from trials.cluster.small_warehouse import A, B, BEFORE, STRATEGY, Small
from trials.servers.clickhouse import NAME

# What is drawn, and how often.
ACTIONS = {"night": 10, "refused": 2, "fold": 2, "sweep": 2, "check": 1, "backup": 1, "restore": 1}
# How long a sweep keeps versions, and how long an answer may take at most.
PROMISE, SECONDS = 20, 30
# So long somebody waits who was told an error, and so often what has to come to its end is tried in the end.
PAUSE, TRIES = 0.3, 20
# What a client may be told while servers fail, and no other error; `is not whole` is none of them, since nothing is lost.
NAMED = ("somebody is at work", "another client was first", "was swept", "is gone", "not known", "keeps statements back", "is not what was sent",
         "has nothing of what the night makes", "has not the mark", "has all that was put in", "nothing to give up", "came from", "does not answer",
         "rows of", "meanwhile")  # fmt: skip
NUMBERS = itertools.count()


class Together:
    """A small warehouse with all of them at work; `copies` is how many servers each shard has."""

    def __init__(self, source, processes, copies, seconds):
        self.source, self.processes, self.copies, self.end = source, processes, copies, time.monotonic() + seconds
        self.small = Small(processes.servers(), SHARES, replicas=copies)
        self.tables = {v: added(rows.items()) for v, rows in BEFORE.items()}
        self.done, self.wrong, self.lock = Counter(), [], threading.Lock()
        # Of each version its base tables, and what was read of a version.
        self.history, self.seen, self.backups, self.row = dict[int, tuple](), [], [], itertools.count(100)
        # The changes of the last night, where it is not known whether it was done; the newest version that is known, and those that were answered.
        self.pending, self.known, self.answered = None, -1, []

    # ---- clients

    def asked(self, do, database=None):
        """What a client's command answers, on the servers that it has chosen where there are several of a shard."""
        servers, database = [Server(each.address, seconds=SECONDS) for each in self.processes.all], database or self.small.database
        if self.copies > 1:
            return Replicas(self.small.catalogue, servers, database, self.copies, SHARES, NAME).tried(do)
        found = Warehouse(self.small.catalogue, servers, database, SHARES, NAME)
        return do(found.judged())

    def tried(self, what, do, database=None):
        """The same; None where an error is told that may be."""
        try:
            found = self.asked(do, database)
            self.note(what)
            return found
        except Failure as failure:
            named = any(each in " ".join(failure.lines) for each in NAMED)
            self.note(f"{what}: told") if named else self.fault(f"{what}: {failure.lines}")
        except (Lost, Told):
            self.note(f"{what}: a server failed")
        except Exception as error:
            self.fault(f"{what}: {error!r}")
        time.sleep(PAUSE)
        return None

    def note(self, what):
        with self.lock:
            self.done[what] += 1

    def fault(self, told):
        with self.lock:
            self.wrong.append(told[:1500])

    # ---- the one who writes

    def writer(self):
        actions = [each for each, often in ACTIONS.items() for _ in range(often)]
        while time.monotonic() < self.end and not self.wrong:
            getattr(self, self.source.choice(actions))()
            while not self.settle() and time.monotonic() < self.end:
                time.sleep(PAUSE)

    def night(self):
        gone = self.source.choice(sorted(self.tables[A]))
        self.carry({A: Counter({(self.source.randint(1, 4), next(self.row)): 1, gone: -1}), B: Counter({(2, f"t{next(self.row)}"): 1})})

    def carry(self, changes):
        self.pending = changes
        found = self.tried("night", lambda warehouse: nights.night(warehouse, changes, STRATEGY))
        if found and found.refusal:
            self.fault(f"a night is {found.refusal}")
        if found:
            self.answered.append(found.version.seq)

    def refused(self):
        """A night that takes away what is not there."""
        found = self.tried("refused night", lambda warehouse: nights.night(warehouse, {A: Counter({(99, 1): -1}), B: Counter()}, STRATEGY))
        if found and found.refusal != "refused absent a":
            self.fault(f"a night that takes away what is not there is {found.refusal or 'done'}")

    def fold(self):
        self.tried("fold", keeping.fold)

    def sweep(self):
        self.tried("sweep", lambda warehouse: Sweep(warehouse, PROMISE).run())

    def check(self):
        """Nothing is lost, whatever happens to servers."""
        found = self.tried("check", lambda warehouse: checking.faults(Session(warehouse)))
        self.wrong += [f"check: {told}" for told in found or ()]

    def settle(self):
        """Looks which versions there are by now, and gives up what came to no end. Answers whether that can be known."""
        rows = self.tried("versions", lambda warehouse: warehouse.versions.all())
        for row in rows or ():
            if row.seq > self.known:
                if row.how == "night" and self.pending:
                    self.tables = {v: added([*self.tables[v].items(), *change.items()]) for v, change in self.pending.items()}
                    self.pending = None
                self.history[row.seq], self.known = (row.stage, self.tables), row.seq
        if rows and (lost := [seq for seq in self.answered if seq not in self.history]):
            self.fault(f"versions {lost} were answered, and are not there")
        if rows and self.tried("look", lambda warehouse: warehouse.versions.alive(rows[-1].night, Purpose.NIGHT)):
            self.tried("give-up", nights.give_up)
        return bool(rows)

    # ---- backups

    def backup(self):
        folder = Path(self.folder.name) / f"kept{next(NUMBERS)}"
        found = self.tried("backup", lambda warehouse: backup.backup(warehouse, folder))
        if found:
            self.backups.append((folder, found.version))
        else:
            self.tried("unpin", lambda warehouse: [warehouse.versions.dropped("p", each) for each in warehouse.versions.pins()])

    def restore(self):
        """A backup in a database of its own is the version that it was made of."""
        if not self.backups:
            return
        folder, seq = self.source.choice(self.backups)
        database = f"restored{next(NUMBERS)}"
        if self.created(database) and self.tried("restore", lambda warehouse: backup.restore(warehouse, folder), database):
            found = self.tried("read of what was restored", lambda warehouse: read(warehouse, None), database)
            if found:
                self.seen.append((seq, found[1]))
        for each in self.processes.all:
            try:
                Server(each.address, seconds=SECONDS).carried(f'DROP DATABASE IF EXISTS "{database}"')
            except (Lost, Told):
                continue

    def created(self, database):
        """Whether a database could be made for a restore, for which all servers have to answer."""
        servers = [Server(each.address, seconds=SECONDS) for each in self.processes.all]
        try:
            if self.copies > 1:
                making.create(Replicas(self.small.catalogue, servers, database, self.copies, SHARES, NAME).new())
            else:
                making.create(Warehouse(self.small.catalogue, servers, database, SHARES, NAME))
            return True
        except (Failure, Lost, Told):
            return False

    # ---- those who read

    def reader(self, seed):
        """Reads all views of a version that is kept, drawn by a number of its own."""
        while time.monotonic() < self.end and not self.wrong:
            seed = (seed * 1103515245 + 12345) % 2**31
            found = self.tried("read", lambda warehouse, seed=seed: read(warehouse, drawn_of(warehouse.versions.numbers("v"), seed)))
            if found:
                self.seen.append(found)

    # ---- what befalls servers

    def striker(self, source):
        """Kills or stalls a server, or cuts a link between servers; of shards with several servers one of each."""
        while time.monotonic() < self.end and not self.wrong:
            # A night whose servers are a shard each has to come to its end between two blows.
            time.sleep(source.uniform(1, 8 if self.copies > 1 else 30))
            what = source.choice(["kill", "kill", "stall", "cut"])
            struck = [source.choice(self.processes.all[at : at + self.copies]) for at in range(0, self.processes.count, self.copies)]
            struck = struck if self.copies > 1 else [source.choice(struck)]
            self.note(what)
            getattr(self, what)(source, struck)

    def kill(self, source, struck):
        for each in struck:
            each.kill()
        time.sleep(source.uniform(0, 12))
        self.processes.restart_all(struck)

    def stall(self, source, struck):
        for each in struck:
            os.kill(each.process.pid, signal.SIGSTOP)
        time.sleep(source.uniform(0, 3))
        for each in struck:
            os.kill(each.process.pid, signal.SIGCONT)

    def cut(self, source, struck):
        for each in struck:
            self.processes.links[self.processes.all.index(each)].cut(source.uniform(0, 3))

    # ---- the end

    def run(self):
        """All of them at work, and then what anybody read is judged."""
        self.folder = TemporaryDirectory()
        with self.folder:
            source = random.Random(self.source.random())
            threads = [threading.Thread(target=self.watched, args=each) for each in [(self.writer,), (self.reader, 1), (self.reader, 2)]]
            for thread in threads:
                thread.start()
            # A server ends with the thread that started it, so this is the one that stays.
            self.watched(self.striker, source)
            for thread in threads:
                thread.join()
            self.processes.restart()
            self.last()
        return self.wrong, self.done

    def watched(self, work, *given):
        try:
            work(*given)
        except Exception as error:
            self.fault(f"{work.__name__} ended with {error!r}")

    def last(self):
        """When all servers are there, the newest version is what it should be, and a check finds nothing; all that was read is judged."""
        self.last_night()
        found = self.found_of("read", lambda warehouse: read(warehouse, None))
        self.wrong += [] if found and found[0] == self.known and self.pending is None else [f"in the end {found and found[0]} is read, and {self.known} known"]
        self.seen += [found] if found else []
        self.check()
        meant = {}
        for seq, contents in self.seen:
            if seq not in self.history:
                self.fault(f"version {seq} was read, and nobody made it")
                continue
            if seq not in meant:
                meant[seq] = self.meant(*self.history[seq])
            wrong = [v for v in range(5) if contents[v] != meant[seq][v]]
            if wrong:
                self.fault(f"of version {seq} views {wrong} were read as {contents}, and are {meant[seq]}")
        self.done["judged reads"] = len(self.seen)

    def last_night(self):
        """A night that is answered: servers that were just started may fail a few, of which it has to be known first whether they were done."""
        before = len(self.answered)
        for _ in range(TRIES):
            if self.settle():
                if len(self.answered) > before:
                    return
                self.night()
        self.fault(f"no night of {TRIES} was answered when all servers were there again")

    def found_of(self, what, do):
        """What a command answers, within some tries."""
        for _ in range(TRIES):
            if found := self.tried(what, do):
                return found
        return None

    def meant(self, stage, tables):
        """What all views hold in a version, of which the first two have no views yet, or no tables either."""
        bases = [Counter() if stage == Stage.CREATED else tables.get(v, Counter()) for v in range(5)]
        if stage != Stage.OPENED:
            return bases
        return [Counter(each) for each in Evaluator().contents(self.small.catalogue.views, bases)]


def drawn_of(numbers, seed):
    """One of the newest versions."""
    return numbers[-1 - seed % min(len(numbers), 4)]


def read(warehouse, seq):
    """A version's number and all its views."""
    session = Session(warehouse, seq)
    return session.version.seq, [Counter(dict(session.read(v))) for v in range(5)]
