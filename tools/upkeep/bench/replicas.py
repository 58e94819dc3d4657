"""Nights by whview cluster on two ClickHouse servers of its own, a shard each, beside those on four, two of each shard, with a ZooKeeper.

Both have the star of tools/star, with a tenth of `--facts`. Nights of 1,000 changed facts are carried out in turn, and a night amid which one
server of each shard is killed. What is printed are medians in seconds by the clock.
"""

import random
import statistics
import sys
import time
from collections import Counter

from trials.cluster.replicated import COPIES, struck_at
from trials.drawn import star
from trials.servers.clickhouse import NAME, Processes, clickhouse
from trials.servers.zookeeper import ZooKeeper, zookeeper
from upkeep.bench.clickhouse import PRODUCT_ROWS, PRODUCTS, SALES, SHOP_ROWS, SHOPS, Star, sale
from whview.cluster import making, nights
from whview.cluster.replicas import Replicas
from whview.cluster.warehouse import Warehouse
from whview.sql.catalogue import Catalogue

ROUNDS, CHANGED, SCALE = 5, 1_000, 0.1
# A night has about so many statements.
STATEMENTS = 40


class Shards(Star):
    """The star on servers of which so many are a shard."""

    def __init__(self, processes, facts, copies):
        self.processes, self.catalogue, self.copies = processes, Catalogue(star.CATALOGUE + star.STRATEGY), copies
        self.facts, self.next, self.first, self.moved = facts, facts, 0, 0
        making.create(self.replicas().new() if copies > 1 else self.plain())
        tables = {
            SALES: Counter({sale(number): 1 for number in range(facts)}),
            SHOPS: Counter(SHOP_ROWS),
            PRODUCTS: Counter(PRODUCT_ROWS),
        }
        self.done(lambda warehouse: making.load(warehouse, tables))
        self.done(making.open_views)

    def replicas(self):
        return Replicas(self.catalogue, self.processes.servers() if self.up() else self.processes.known(), "star", self.copies, ["sales:id"], NAME)

    def up(self):
        return all(each.process.poll() is None for each in self.processes.all)

    def plain(self):
        return Warehouse(self.catalogue, self.processes.servers(), "star", ["sales:id"], NAME)

    def done(self, do):
        """What a command answers."""
        return self.replicas().tried(do) if self.copies > 1 else do(self.plain().judged())

    def seconds(self):
        """How long a night takes, with all that its command asks before."""
        changes, began = self.changes(CHANGED, False), time.monotonic()
        _, refusal = self.done(lambda warehouse: nights.night(warehouse, changes, self.catalogue.correct()))
        if refusal:
            sys.exit(f"a night of {CHANGED} changes: {refusal}")
        return time.monotonic() - began


def with_kills(shards, source):
    """How long a night takes amid which one server of each shard is killed."""
    victims = [source.choice(shards.processes.all[at : at + COPIES]) for at in range(0, shards.processes.count, COPIES)]
    with struck_at(source, victims, STATEMENTS):
        took = shards.seconds()
    shards.processes.restart()
    return took


def measure(asked):
    """Prints a line of medians."""
    program = clickhouse()
    if not program or not zookeeper():
        print("replicas: there is no clickhouse-server or no ZooKeeper here, and it could not be installed")
        return
    facts, source = int(asked.facts * SCALE), random.Random(1)
    with Processes(program, 2) as alone, Processes(program, 2 * COPIES, keeper=ZooKeeper) as several:
        plain, copied = Shards(alone, facts, 1), Shards(several, facts, COPIES)
        times = [(plain.seconds(), copied.seconds()) for _ in range(1 + asked.rounds)][1:]
        struck = [with_kills(copied, source) for _ in range(asked.rounds)]
    one, two = (statistics.median(column) for column in zip(*times))
    print("facts  changes  without replicas  with them  with one of each shard killed")
    print(facts, CHANGED, f"{one:.2f}", f"{two:.2f}", f"{statistics.median(struck):.2f}", sep="  ")
