"""Carries drawn nights out by whview cluster on ClickHouse servers of its own, and compares each version with `whview night`.

The servers are started in temporary folders on free ports, with little memory. Drawn nights, with folds, sweeps, merged parts and
attempts given up between, are carried out on one server and on three; all versions that are kept are read at the end. From a hundred
nights on, ten have to be refused in each way. What clients and servers meet is tried step by step, also where a client sleeps before each
of its statements in turn, on two servers, and each spoilt script and client has to be noticed by that. Servers lose rows, are given disks
from before and lists of other servers, and each time that has to be told; a repair gives them what others have or can compute, and a
backup is restored on as many servers and on others. Views come, go and are defined anew. Folds and sweeps leave no empty parts, and
nobody waits for them. Servers and clients are killed at drawn moments, also amid repairs, restores and recasts, and clients work side by
side. On shards of two servers, with a ZooKeeper, nights go on while one of each is killed, every server gives readers by SQL the newest version
whole or an error, and a catalogue and addresses change. Tables whose DROP was cut off are made again. For some minutes all of it is drawn
together, while links between servers are cut. SELECTs are kept in their midst, and nothing may wait for them. Bad words and files get one
line each, and the commands of docs/CLUSTER.md are run as they are written. Where there is no ClickHouse, and it cannot be installed, all
parts are skipped, which is said.
"""

import itertools
import random
import re
import signal
import subprocess
import sys
from collections import Counter
from contextlib import ExitStack
from traceback import format_exc
from unittest.mock import patch

from trials import pages
from trials.cluster import inputs, scenarios
from trials.cluster.backups import BACKUPS
from trials.cluster.clients_beside import Beside
from trials.cluster.cut_off import CUT_OFF, CUT_OFF_ALONE
from trials.cluster.killed import killed
from trials.cluster.killed_amid import killed_amid
from trials.cluster.lost import LOST
from trials.cluster.put_aside import PUT_ASIDE
from trials.cluster.measured import measured
from trials.cluster.memory import in_little_memory
from trials.cluster.newest import NEWEST
from trials.cluster.nights_in_a_row import Tried, row_of, shared
from trials.cluster.recasts import RECASTS
from trials.cluster.repaired import REPAIRED
from trials.cluster.replicated import REPLICATED, drawn_kills
from trials.cluster.together import Together
from trials.cluster.waiting import read_beside_sweeps, waited
from trials.drawn.clusters import REFUSALS, DrawnWarehouse
from trials.drawn.shrunk import smallest
from trials.ended import faults
from trials.ended import told as tell
from trials.servers.clickhouse import NAME, Processes, clickhouse
from trials.servers.zookeeper import ZooKeeper, zookeeper
from trials.spoilt.clusters import SPOILT, is_noticed
from trials.spoilt.losses import SPOILT_LOSSES
from trials.spoilt.replicas import SPOILT_REPLICAS
from upkeep.words import ROOT, program, words_with_program
from whview.cluster import replicas

PACKAGES = ("hypothesis",)
COUNT, SEED, SHOWN = 30, 20261127, 8
# So long commands wait for servers with replicas.
PATIENCE = 300
# How many nights one warehouse has at most, and which part of them is carried out on three servers too.
IN_A_ROW, PART = 6, 3
# From so many nights on, so many have to be refused in each way.
MANY, EACH_WAY = 100, 10
REFUSED = tuple(f"refused {each}" for each in sorted({*REFUSALS}))
PARTS = ("nights", "steps", "lost", "aside", "repaired", "backups", "recasts", "replicas", "newest", "cut_off", "spoilt", "kills", "beside", "together", "waiting",
         "inputs", "page")


class Trial:
    """What is tried, and what went wrong so far."""

    def __init__(self, stack, asked, clickhouse_program):
        self.stack, self.asked, self.clickhouse, self.started = stack, asked, clickhouse_program, program(asked.program)
        self.processes, self.wrong = {}, []

    def on(self, count, do, keeper=None):
        """Something on so many servers, with a ZooKeeper or without, which are started where it is the first that is done on them."""
        if (count, keeper) not in self.processes:
            self.processes[count, keeper] = self.stack.enter_context(Processes(self.clickhouse, count, keeper=keeper))
        return do(self.processes[count, keeper])

    def seconds(self):
        """The servers' time of the processor, but for those that were killed."""
        return sum(each.seconds() for each in self.processes.values())

    def nights(self):
        """Drawn nights."""
        return "; ".join(self.on(servers, lambda processes: self.drawn(processes)) for servers in (1, 3))

    def drawn(self, processes):
        """So many nights at least, of warehouses with some in a row each."""
        count, ends, wrong, warehouses = self.asked.count if processes.count == 1 else max(1, self.asked.count // PART), Counter(), [], itertools.count()

        def nights():
            return ends["carried out"] + sum(ends[end] for end in REFUSED)

        def mistakes(source):
            """What is wrong with a drawn warehouse."""
            drawn = DrawnWarehouse(source, self.started)
            tried = Tried(drawn, processes.servers(), f"drawn{next(warehouses)}", shared(drawn, source, processes.count), NAME)
            try:
                return faults(*self.caught(lambda: [row_of(tried, IN_A_ROW)]))
            finally:
                tried.end()
                ends.update(tried.ends)

        while nights() < count and not wrong:
            wrong = smallest(mistakes, -(-(count - nights()) // IN_A_ROW), f"{self.asked.seed} {processes.count} {nights()}")
        self.wrong += [f"a warehouse on {processes.count}: {text}" for text in wrong]
        self.wrong += [f"{ends[end]} nights on {processes.count} are {end}" for end in REFUSED if ends[end] < EACH_WAY <= MANY <= count] if not wrong else []
        told = ", ".join(f"{ends[end]} {end}" for end in sorted(ends))
        return f"{nights()} nights of {next(warehouses)} warehouses on {processes.count} (with {told})"

    def caught(self, do, count=1):
        """What is answered, or an error as what went wrong, in the first of so many answers."""
        try:
            return do()
        except Exception:
            wrong = [format_exc()[-1500:]]
            return wrong if count == 1 else (wrong, *[0] * (count - 1))

    def steps(self):
        """What clients and servers meet, step by step."""
        self.on(2, lambda processes: self.scenarios(processes.servers()))
        return f"{len(scenarios.SCENARIOS)} scenarios"

    def scenarios(self, servers, listed=scenarios.SCENARIOS):
        for each in listed:
            self.wrong += [f"{each.__name__}: {text}" for text in self.caught(lambda each=each: each(servers))]

    def lost(self):
        """Servers that lost something, or know others than they should."""
        self.on(2, lambda processes: self.lose(processes, LOST))
        return f"{len(LOST)} losses"

    def lose(self, processes, listed):
        for each in listed:
            self.wrong += [f"{each.__name__}: {text}" for text in self.caught(lambda each=each: each(processes))]
            processes.restart()

    def aside(self):
        """What folds and sweeps leave."""
        self.on(2, lambda processes: self.scenarios(processes.servers(), PUT_ASIDE))
        return f"{len(PUT_ASIDE)} rows of folds and sweeps"

    def repaired(self):
        """Servers that lost something and are repaired."""
        self.on(2, lambda processes: self.lose(processes, REPAIRED))
        return f"{len(REPAIRED)} rows of repairs"

    def backups(self):
        """Backups, and what is restored from them."""
        self.on(2, lambda processes: self.scenarios(processes.servers(), BACKUPS))
        return f"{len(BACKUPS)} rows of backups"

    def recasts(self):
        """Catalogues that change."""
        self.on(2, lambda processes: self.scenarios(processes.servers(), RECASTS))
        return f"{len(RECASTS)} rows of recasts"

    def turn(self, listed):
        """The spoilt ones that have their turn: all of these, or so many, which the newest commit draws."""
        count = self.asked.spoilt
        return listed if count is None else random.Random(newest_commit()).sample(listed, min(count, len(listed)))

    def replicas(self):
        """Shards of two servers each, of which one is killed."""
        if not zookeeper():
            return "replicas skipped: there is no ZooKeeper here and it could not be installed"
        self.on(4, lambda processes: self.lose(processes, REPLICATED), ZooKeeper)
        source = random.Random(self.asked.seed)
        wrong, struck = self.on(4, lambda processes: self.caught(lambda: drawn_kills(processes, source, self.asked.kills), 2), ZooKeeper)
        self.wrong += wrong
        spoilt = self.turn(SPOILT_REPLICAS)
        left = self.on(4, lambda processes: [each.name for each in spoilt if not is_noticed(each, processes, processes.restart)], ZooKeeper)
        self.wrong += [f"not noticed: {name}" for name in left]
        told = f"{len(REPLICATED)} rows of replicas, {self.asked.kills} with one of each shard killed ({struck} servers amid something)"
        return f"{told}, {len(spoilt) - len(left)} of {len(spoilt)} spoilt ones noticed"

    def newest(self):
        """What readers by SQL are given of shards of two servers each."""
        return self.with_replicas(NEWEST, "rows of readers")

    def cut_off(self):
        """What DROPs leave that were cut off."""
        self.on(2, lambda processes: self.lose(processes, CUT_OFF_ALONE))
        return f"{len(CUT_OFF_ALONE)} rows of DROPs that were cut off, {self.with_replicas(CUT_OFF, 'with replicas')}"

    def with_replicas(self, listed, what):
        """Scenarios on shards of two servers each."""
        if not zookeeper():
            return f"{what} skipped: there is no ZooKeeper here and it could not be installed"
        self.on(4, lambda processes: self.lose(processes, listed), ZooKeeper)
        return f"{len(listed)} {what}"

    def spoilt(self):
        """Spoilt scripts and clients."""
        spoilt, losses = self.turn(SPOILT), self.turn(SPOILT_LOSSES)
        left = self.on(2, lambda processes: [each.name for each in spoilt if not is_noticed(each, processes.servers())])
        left += self.on(2, lambda processes: [each.name for each in losses if not is_noticed(each, processes, processes.restart)])
        self.wrong += [f"not noticed: {name}" for name in left]
        count = len(spoilt) + len(losses)
        return f"{count - len(left)} of {count} spoilt ones noticed"

    def kills(self):
        """Servers and clients that are killed."""
        count = self.asked.kills
        wrong, struck = self.on(3, lambda processes: killed(random.Random(self.asked.seed), processes, count, count))
        self.wrong += wrong
        more, amid = self.on(2, lambda processes: self.caught(lambda: killed_amid(random.Random(self.asked.seed), processes, 3 * count), 2))
        self.wrong += more
        return f"{count} servers and {count} clients killed ({struck} amid something), {3 * count} amid repairs, restores and recasts ({amid})"

    def beside(self):
        """Clients side by side."""
        wrong, done = self.on(3, lambda processes: Beside(processes.servers(), self.asked.seconds).run())
        self.wrong += wrong
        told = ", ".join(f"{done[what]} {what}" for what in sorted(done))
        return f"side by side for {self.asked.seconds} s ({told})"

    def together(self):
        """All of it drawn together, on servers by themselves and on shards of two."""
        told, seconds = [], 60 * self.asked.minutes / 2
        for copies, keeper in ((1, None), (2, ZooKeeper)):
            if copies > 1 and not zookeeper():
                told.append("replicas skipped: there is no ZooKeeper here and it could not be installed")
                continue
            with Processes(self.clickhouse, 2 * copies, keeper=keeper, linked=True) as processes:
                wrong, done = Together(random.Random(f"{self.asked.seed} {copies}"), processes, copies, seconds).run()
            self.wrong += wrong
            told.append(f"{seconds:.0f} s with {copies} of each shard ({', '.join(f'{done[what]} {what}' for what in sorted(done))})")
        return "together: " + "; ".join(told)

    def waiting(self):
        """What is done beside SELECTs that are kept in their midst."""
        wrong, times = self.on(3, lambda processes: waited(processes.servers()))
        self.wrong += wrong + self.on(3, lambda processes: self.caught(lambda: read_beside_sweeps(processes.servers())))
        return "beside SELECTs that are kept: " + ", ".join(f"{what} {took:.2f} s" for what, took in times.items())

    def inputs(self):
        """Bad words, files and servers, large files, and what is measured."""
        self.wrong += self.on(2, lambda processes: self.caught(lambda: measured(processes)))
        for each in (inputs.mistakes, in_little_memory):
            self.wrong += self.on(2, lambda processes, each=each: self.caught(lambda: each(processes.servers())))
        return "bad and large input, and what tools/bench measures"

    def page(self):
        """The page's commands as they are written."""
        self.wrong += self.on(1, page_mistakes)
        return "docs/CLUSTER.md"


def newest_commit():
    """The name of the newest commit, or nothing where there is none."""
    return subprocess.run(["git", "rev-parse", "HEAD"], cwd=ROOT, capture_output=True, text=True).stdout.strip()


def page_mistakes(processes):
    """What the commands of the page print, where it is not what the page says. The page's server has the port 8123."""
    found = pages.blocks_of("CLUSTER.md")
    with pages.examples_in_folder() as folder:
        ran = pages.run(found["sh"][0].replace("localhost:8123", processes.all[0].address), folder)
    if (ran.stdout, ran.stderr, ran.returncode) != (found["text"][0], "", 0):
        return [f"docs/CLUSTER.md: {ran.stdout}{ran.stderr}"]
    asked = re.search("`(SELECT seq, .*?)`", (ROOT / "docs/CLUSTER.md").read_text())[1]
    (newest, slots, _), *more = processes.servers()[0].asked(asked)
    return [] if (newest, slots, more) == ("3", [0, 1, 2, 3], []) else [f"docs/CLUSTER.md: {asked} answers {newest}, {slots}, {more}"]


def words():
    given = words_with_program(__doc__, COUNT, SEED)
    given.add_argument("--part", action="append", choices=PARTS, help="what is tried alone")
    given.add_argument("--kills", type=int, default=2, help="how many servers are killed, and how many clients (%(default)s)")
    given.add_argument("--spoilt", type=int, help="how many spoilt ones of each kind are tried, which the newest commit draws (all)")
    given.add_argument("--seconds", type=int, default=6, help="how long clients work side by side (%(default)s)")
    given.add_argument("--minutes", type=float, default=1, help="how long all of it is drawn together (%(default)s)")
    return given.parse_args()


def main():
    # Servers that were started are stopped too where this is.
    signal.signal(signal.SIGTERM, lambda *_: sys.exit(143))
    asked, found = words(), clickhouse()
    if not found:
        print(f"cluster: {len(asked.part or PARTS)} parts skipped: there is no clickhouse-server here and it could not be installed; 0 failed")
        return 0
    with ExitStack() as stack:
        # A machine may be slow: what a command waits for servers is waited for longer here.
        stack.enter_context(patch.object(replicas, "PATIENCE", PATIENCE))
        trial = Trial(stack, asked, found)
        told = [getattr(trial, part)() for part in asked.part or PARTS]
        seconds = trial.seconds()
    tell([text[:2500] for text in trial.wrong], SHOWN)
    print(f"cluster: {'; '.join(told)}; {len(trial.wrong)} failed; {seconds:.0f} s of the servers' processor")
    return 1 if trial.wrong else 0
