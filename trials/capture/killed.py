"""Nights over captured tables that are killed, the client or the whole server, while an application writes: nothing is lost or twice."""

import os
import random
import signal
from collections import Counter
from contextlib import suppress
from time import monotonic, sleep

from trials.capture.application import BASE, EXPECTED, stored, unlike
from trials.ended import faults
from trials.servers.postgresql import Broken

WAIT = 60
WRITES = (
    "UPDATE lines SET pieces = pieces % 7 + 1 WHERE id % 9 = {n} % 9;",
    "INSERT INTO lines SELECT id, 'product ' || ((id + {n}) % 20 + 1), 3 FROM orders WHERE id % 11 = {n} % 11;",
    "DELETE FROM lines WHERE id % 13 = {n} % 13 AND pieces > 4;",
    "UPDATE products SET price = {n} + 0.25 WHERE product = 'product ' || ({n} % 20 + 1);",
    "UPDATE orders SET region = 'region ' || ({n} % 4) WHERE id % 5 = {n} % 5;",
)


def uncarried(live):
    """What the mirrors with the changes that are not carried out yet have otherwise than the tables."""
    both = {name: " UNION ALL ".join(stored(live.database, name + suffix, live.columns[name], True) for suffix in ("", "~changes")) for name in BASE}
    summed = {name: f'SELECT {", ".join(columns)}, sum("#") FROM ({both[name]}) AS b GROUP BY {", ".join(columns)} HAVING sum("#") <> 0'
              for name, columns in live.columns.items() if name in BASE}
    return unlike(live.database, {name: (EXPECTED[live.engine][name], query) for name, query in summed.items()})


def write(live, source, number):
    live.asked("".join(said.format(n=number) for said in source.sample(WRITES, 3)))


class Killed:
    """A PostgreSQL server whose nights are killed."""

    def __init__(self, live, seed):
        self.live, self.source, self.server = live, random.Random(seed), live.database.server
        self.ends = Counter()

    def uncarried(self):
        """What waits for the next night otherwise than it should."""
        return uncarried(self.live)

    def backend(self):
        """The process that carries out the night, or None where it is over."""
        query = "SELECT pid FROM pg_stat_activity WHERE datname = current_database() AND pid <> pg_backend_pid() AND query LIKE 'DO %';"
        return next(iter(self.live.asked(query)), None)

    def killed(self, night):
        """Who is killed: the client, the backend with all others of the server, or the server with all its processes."""
        who = self.source.choice(["client", "backend", "server"])
        if who == "client":
            night.kill()
        elif who == "backend":
            number = self.backend()
            if number is None:
                return "nobody"
            os.kill(number, signal.SIGKILL)
        else:
            self.server.kill()
            self.server.start()
        return who

    def again(self):
        """Waits until the server answers, and until nobody carries out a night any more."""
        began = monotonic()
        while monotonic() - began < WAIT:
            with suppress(Broken):
                if self.backend() is None:
                    return
            sleep(0.05)
        raise Broken("the server does not come back")

    def mistakes(self, number, seconds):
        """What a kill at a drawn moment left that is neither before the night nor after it, and what the next night makes of it."""
        write(self.live, self.source, number)
        with self.live.database.another() as writer:
            writer.goes_on("BEGIN;" + WRITES[number % len(WRITES)].format(n=number + 3))
            night = self.live.database.begun(self.live.script)
            sleep(self.source.random() * seconds)
            who = self.killed(night)
            night.communicate(timeout=WAIT)
            writer.goes_on("COMMIT;")
        self.again()
        self.ends[who] += 1
        return [f"after a kill of {who}: {text}" for text in self.uncarried() + self.live.right("the night again: ")]


def timed(live, source):
    """How long a night takes, and what it is told, in a list."""
    write(live, source, 0)
    began = monotonic()
    told = live.night()
    return monotonic() - began, [f"the first night: {each}" for each in faults(told)]


def kill_mistakes(live, times, seed, kind=Killed):
    """What so many kills leave, and who was killed."""
    wrong, killed = live.fresh(), kind(live, seed)
    seconds, told = timed(live, killed.source)
    wrong += told
    for number in range(0 if wrong else times):
        wrong += killed.mistakes(number, seconds)
    return [f"postgresql: {text}" for text in wrong], killed.ends


# ---- SQLite


def sqlite_kill_mistakes(live, times, seed):
    """The same of the client, in whose process SQLite is."""
    source, wrong, ends = random.Random(seed), live.fresh(), Counter()
    seconds, told = timed(live, source)
    wrong += told
    for number in range(0 if wrong else times):
        write(live, source, number)
        client = live.database.begun(live.script)
        sleep(source.random() * seconds)
        client.kill()
        client.communicate(timeout=WAIT)
        ends["carried out" if not live.pending() else "undone"] += 1
        wrong += uncarried(live) + live.right("the night again: ")
    return [f"sqlite: after a kill: {text}" for text in wrong], ends
