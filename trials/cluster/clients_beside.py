"""Clients side by side: three that carry out nights, one that folds, one that sweeps with a promise of a second, and three readers."""

import threading
import time
from collections import Counter

from whview.catalogue.evaluator import Evaluator
from whview.cluster import keeping, nights
from whview.cluster.keeping import Sweep
from whview.cluster.reading import Session
from whview.finding import Failure

from trials.cluster.scenarios import SHARES
from trials.cluster.small_warehouse import A, B, STRATEGY, Small

# What a client may be told, and no other error.
NAMED = {
    "night": ("another client was first", "somebody is at work", "was swept"),
    "give-up": ("another client was first", "nothing to give up"),
    "fold": ("another client was first", "was swept"),
    "read": ("is gone",),
    "sweep": (),
}
PROMISE = 1
# After so many seconds an attempt is taken for one that came to no end; it is given up, also where it is only slow.
STUCK = 3
# Between two folds: a night whose version is swept meanwhile is lost, as is any that takes longer than is promised.
PAUSE = 2


class Beside:
    """A small warehouse with all of them at work for some seconds."""

    def __init__(self, servers, seconds):
        self.small, self.servers, self.end = Small(servers, SHARES), servers, time.monotonic() + seconds
        self.done, self.wrong, self.answered, self.lock = Counter(), [], [], threading.Lock()

    def note(self, what):
        with self.lock:
            self.done[what] += 1

    def tried(self, what, do):
        """What a command answers; an error that is named is counted, any other one is wrong."""
        try:
            found = do()
            self.note(what)
            return found
        except Failure as failure:
            named = next((name for name in NAMED[what] if name in failure.lines[0]), None)
            self.note(f"{what}: {named}") if named else self.wrong.append(f"{what}: {failure.lines}")
        except Exception as error:
            self.wrong.append(f"{what}: {error!r}")
        return None

    # ---- those at work

    def writer(self, number):
        """Nights each of which puts in a row that no other has."""
        warehouse, night = self.small.client(), 0
        while time.monotonic() < self.end:
            night += 1
            row = (1 + night % 4, 1000 * night + number)
            found = self.tried("night", lambda row=row: nights.night(warehouse, self.small.changes({row: 1}), STRATEGY))
            if found:
                with self.lock:
                    self.answered.append(row)
            elif self.is_stuck(warehouse):
                self.tried("give-up", lambda: nights.give_up(warehouse))
            time.sleep(0.02 * number)

    def is_stuck(self, warehouse):
        """Whether an attempt stands in the way that is older than any night takes."""
        versions = warehouse.versions
        alive = versions.alive(versions.newest().night, "night")
        return alive is not None and versions.now() - alive.at > STUCK

    def folder(self):
        warehouse = self.small.client()
        while time.monotonic() < self.end:
            self.tried("fold", lambda: keeping.fold(warehouse))
            time.sleep(PAUSE)

    def sweeper(self):
        warehouse = self.small.client()
        while time.monotonic() < self.end:
            self.tried("sweep", lambda: Sweep(warehouse, PROMISE).run())
            time.sleep(0.2)

    def reader(self, step):
        """Reads all views of a version, now and then an older one: the derived ones are what the base tables make."""
        warehouse = self.small.client()
        while time.monotonic() < self.end:
            numbers = warehouse.versions.numbers("v")
            seq = numbers[-1] if step == 0 else numbers[-min(len(numbers), 1 + step)]
            self.tried("read", lambda seq=seq: self.read(warehouse, seq))

    def read(self, warehouse, seq):
        session = Session(warehouse, seq)
        found = [Counter(dict(session.rows(v))) for v in range(5)]
        session.end()
        meant = Evaluator().contents(self.small.catalogue.views, [found[A], found[B], None, None, None])
        wrong = [v for v in range(2, 5) if found[v] != Counter(meant[v])]
        if session.version.stage == "opened" and wrong:
            self.wrong.append(f"a reader of version {seq} was given views {wrong} of another one")

    # ---- the end

    def watched(self, work, *given):
        """Somebody's work, whose end by an error is wrong."""
        try:
            work(*given)
        except Exception as error:
            self.wrong.append(f"{work.__name__} ended with {error!r}")

    def run(self):
        work = [*((self.writer, number) for number in (1, 2, 3)), *((self.reader, step) for step in (0, 1, 2)), (self.folder,), (self.sweeper,)]
        threads = [threading.Thread(target=self.watched, args=each) for each in work]
        for thread in threads:
            thread.start()
        for thread in threads:
            thread.join()
        for row in self.answered:
            self.small.changed(self.small.changes({row: 1}))
        self.wrong += self.small.differs(None, f"after {len(self.answered)} nights side by side")
        return self.wrong, self.done
