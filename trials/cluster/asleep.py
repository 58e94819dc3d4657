"""Clients that sleep: before each statement in turn of what one does others do something else. What has to come of it is in a list
of what came otherwise, as in `scenarios`."""

import threading
from collections import Counter
from unittest.mock import patch

from whview.cluster import keeping, nights
from whview.cluster.keeping import Sweep
from whview.cluster.reading import Session
from whview.cluster.servers import Server
from whview.cluster.versions import Versions
from whview.finding import Failure

from trials.cluster.small_warehouse import A, AT_ONCE, J, STRATEGY, Small

# What a client may be told by whom others overtook.
OVERTAKEN = ("another client was first", "was swept", "is gone", "somebody is at work", "nothing to give up")


class Nap:
    """Before a client's statement with this number others do something. Statements are counted over all its servers."""

    def __init__(self, at, others):
        self.at, self.others, self.sent, self.lock = at, others, 0, threading.Lock()

    def before(self):
        with self.lock:
            self.sent += 1
            is_due = self.sent == self.at
        if is_due:
            self.others()


class Sleeping(Server):
    """A server whose client sleeps."""

    def sent(self, said, *given, **more):
        self.nap.before()
        return super().sent(said, *given, **more)


def asleep(small, nap):
    """A client that sleeps before a statement."""
    found = [Sleeping(server.address, server.key) for server in small.servers]
    for server, other in zip(found, small.servers):
        server.settings, server.nap = other.settings, nap
    return small.client(found)


class AtEach:
    """Something is done again and again, with others at work before one statement more each time, until there is none left."""

    def __init__(self, small):
        self.small, self.wrong, self.slots = small, [], []

    def run(self, do, others, prepare=lambda: None):
        attempt = Versions.attempt

        def noted(versions, *given):
            slot = attempt(versions, *given)
            self.slots.append(slot.number)
            return slot

        with patch.object(Versions, "attempt", noted):
            at = 1
            while self.once(at, do, others, prepare) and not self.wrong:
                at += 1
        twice = [slot for slot, times in Counter(self.slots).items() if times > 1]
        return self.wrong + ([f"slots {twice} were had twice"] if twice else [])

    def once(self, at, do, others, prepare):
        """One time. Answers whether others were at work."""
        prepare()
        nap = Nap(at, others)
        where = f"others before statement {at}"
        try:
            self.wrong += [f"{where}: {told}" for told in do(asleep(self.small, nap)) or []]
        except Failure as failure:
            self.wrong += [] if any(each in failure.lines[0] for each in OVERTAKEN) else [f"{where}: {failure.lines}"]
        self.wrong += self.small.differs(None, where)
        return nap.sent >= at


def folded_and_swept(small):
    keeping.fold(small.warehouse)
    Sweep(small.warehouse, AT_ONCE).run()


def given_up(small):
    """Attempts that nobody ends, of which the sweep forgets all but the last, and a night behind them."""
    for _ in range(2):
        if not small.versions.alive(small.versions.newest().night, "night"):
            nights.attempted(small.warehouse, small.versions.newest(), "night")
        nights.give_up(small.warehouse)
    small.night({(1, 600 + small.versions.newest().seq): 1})
    Sweep(small.warehouse, AT_ONCE).run()


def a_night_with(servers, others):
    """A night that others overtake is done, or is told so; it is never refused for what others did, and no slot is had twice."""
    small = Small(servers[:1])

    def night(client):
        changes = small.changes({max(small.tables[A]): -1, (2, 700 + small.versions.newest().seq): 1})
        _, told = nights.night(client, changes, STRATEGY)
        small.changed({} if told else changes)
        return [told] if told else []

    def prepare():
        if small.versions.alive(small.versions.newest().night, "night"):
            nights.give_up(small.warehouse)

    return AtEach(small).run(night, lambda: others(small), prepare)


def a_night_beside_folds(servers):
    """A night asleep while its version is folded and swept."""
    return a_night_with(servers, folded_and_swept)


def a_night_beside_others(servers):
    """A night asleep while attempts are given up and forgotten, and another night is done."""
    return a_night_with(servers, given_up)


def a_sweep_asleep(servers):
    """A sweep that sleeps takes nothing that a version lists which was made meanwhile, and nothing of a night that began meanwhile."""
    small, begun = Small(servers[:1]), []

    def others():
        small.night({(1, 600 + small.versions.newest().seq): 1})
        Sweep(small.warehouse, AT_ONCE).run()

    def begin():
        changes = small.changes({(1, 600 + small.versions.newest().seq): 1})
        begun.append((small.begun(changes), changes))

    def sweep(client):
        sweeping = Sweep(client, AT_ONCE)
        sweeping.run()
        strangers = sweeping.strangers()
        while begun:
            commit, changes = begun.pop()
            commit()
            small.changed(changes)
        return [f"rows in {strangers} are taken for a stranger's"] if strangers else []

    def begin_and_fold():
        begin()
        keeping.fold(small.warehouse)

    return AtEach(small).run(sweep, others) or AtEach(small).run(sweep, begin) or AtEach(small).run(sweep, begin_and_fold)


def a_fold_asleep(servers):
    """A fold that others overtake is told so and changes nothing."""
    wrong = []
    for others in (lambda small: small.night({(1, 600 + small.versions.newest().seq): 1}), folded_and_swept):
        small = Small(servers[:1])
        wrong = wrong or AtEach(small).run(lambda client: keeping.fold(client) and None, lambda small=small, others=others: others(small))
    return wrong


def a_give_up_asleep(servers):
    """A night is given up, or is there where it commits before that; it is never both."""
    small, begun = Small(servers[:1]), []

    def prepare():
        changes = small.changes({(1, 600 + small.versions.newest().seq): 1})
        begun[:] = [small.begun(changes), changes]

    def others():
        begun[0]()
        small.changed(begun[1])

    return AtEach(small).run(lambda client: nights.give_up(client) and None, others, prepare)


def a_reader_asleep(servers):
    """A reader that sleeps reads a version, or is told that it is gone; also where one who slept makes a number again that was swept."""
    small = Small(servers[:1])
    late, meant = [], []

    def prepare():
        late[:] = [small.begun(small.changes({(4, 500 + small.versions.newest().seq): 1}))]
        nights.give_up(small.warehouse)
        meant[:] = [small.contents()[J]]

    def others():
        small.night({(1, 600 + small.versions.newest().seq): 1})
        meant.append(small.contents()[J])
        Sweep(small.warehouse, AT_ONCE).run()
        with patch.object(nights, "judge_base", lambda *_: None), patch.object(Versions, "looked_at", lambda _, made: made):
            late[0]()

    def read(client, seq=None):
        rows = Counter(dict(Session(client, seq).read(J)))
        return [] if any(rows == Counter(each) for each in meant) else [f"a reader of {seq} was given {rows}"]

    wrong = AtEach(small).run(read, others, prepare)
    return wrong or AtEach(small).run(lambda client: read(client, small.versions.newest().seq), others, prepare)


def slept_before_the_commit(servers):
    """What a client sleeps between the clock and its commit is not counted as time for which a version was followed."""
    small = Small(servers[:1])
    Sweep(small.warehouse, AT_ONCE).run()
    now = Versions.now
    with patch.object(Versions, "now", lambda versions: now(versions) - 1000):
        small.night({(1, 6): 1})
    Sweep(small.warehouse, 500).run()
    numbers = small.versions.numbers("v")
    return small.differs() + ([] if len(numbers) == 2 else [f"versions {numbers} are there"])


ASLEEP = [a_night_beside_folds, a_night_beside_others, a_sweep_asleep, a_fold_asleep, a_give_up_asleep, a_reader_asleep, slept_before_the_commit]
