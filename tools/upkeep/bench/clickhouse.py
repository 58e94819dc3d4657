"""Nights by whview cluster on ClickHouse servers of its own, one and three, beside the views from scratch.

The star of tools/star, with a tenth of `--facts`, as many, and ten times as many in turn, is made on the servers; then nights of 1,000 and
of 10,000 changed facts are carried out, over one slot and over eleven, with the facts alone changing and with a shop and two prices
besides. A night is the command, from its start to its end, a process of its own with the changes as files. What is printed are medians in
seconds, by the clock and, in brackets, of the processor's, the servers' and the client's together: of a night of one changed fact, of the
nights, of the views from scratch, and of a read of the summary; and what the two nights take of the views from scratch. No parts are put
together meanwhile, and no views go. Three servers on one machine show no speed-up: they share its processors.

Then the same numbers of facts are loaded from a file, and read, on one server: medians of seconds, and how many MB the command takes at its
highest; and beside it the engine's own client, which puts the same file into a table of the same columns, in the same order.
"""

import os
import shutil
import statistics
import subprocess
import sys
import time
from collections import Counter
from pathlib import Path
from tempfile import TemporaryDirectory

from trials.drawn import star
from trials.servers.clickhouse import NAME, Processes, clickhouse
from trials.servers.installed import install
from upkeep.bench import run
from upkeep.words import ROOT
from whview.catalogue.parts import line
from whview.cluster import keeping, making, nights, reading, standing
from whview.cluster.carrying import Carrying
from whview.cluster.servers import Server
from whview.cluster.versions import Purpose, Stage
from whview.cluster.warehouse import Warehouse
from whview.sql.catalogue import Catalogue
from whview.sql.dialect import COUNT
from whview.sql.slots import SLOT
from whview.sql.tokens import joined, number, sql

ROUNDS = 3
# So long it is waited for at most until the servers are at rest.
REST = 30
AT_WORK = "SELECT 1 FROM system.merges"
# What the number of a fact that leaves goes by, so that they lie anywhere; by how much those that come are not as those that leave.
STRIDE, APART = 7919, 1013
CHANGED, SLOTS, SCALES = (1_000, 10_000), (1, 11), (0.1, 1, 10)
SALES, SHOPS, PRODUCTS = range(3)
FACTS = (
    "SELECT toInt64(number), toInt64(number % 20), toInt64(intDiv(number, 20) % 100), toInt64(number % 5 + 1), toInt64(1), toUInt32({slot})"
    " FROM numbers({count})"
)


def sale(number):
    """A fact, as the servers make it too."""
    return number, number % star.SHOPS, number // star.SHOPS % star.PRODUCTS, number % 5 + 1


def product(number, more=0):
    """A product, whose price is more by so much."""
    return number, star.KINDS[number % len(star.KINDS)], star.price(number) + more


SHOP_ROWS = [(shop, star.region(shop)) for shop in range(star.SHOPS)]
PRODUCT_ROWS = [product(number) for number in range(star.PRODUCTS)]


class Folder:
    """The star's folder, and the command over it as somebody types it."""

    def __init__(self, path, addresses, database):
        self.path, self.servers = Path(path), [word for address in addresses for word in ("--server", address)]
        self.more = ["--database", database, "--cluster", NAME]
        for name, text in (("catalogue.toml", star.CATALOGUE), ("strategy.txt", star.STRATEGY)):
            (self.path / name).write_text(text.partition("\n")[2])
        (self.path / "changes").mkdir()
        (self.path / "data").mkdir()

    def put(self, view, rows):
        """The changes of a view, in its file."""
        lines = [line(["#", *(column for column, _ in view.columns)]), *(line([count, *row]) for row, count in rows.items())]
        (self.path / "changes" / f"{view.name}.csv").write_text("".join(lines))

    def words(self, command, *more):
        """A command as it is typed."""
        return [sys.executable, "-S", ROOT / "python/whview/__main__.py", "cluster", command, self.path, *more, *self.servers, *self.more]

    def told(self, command):
        """Runs a command to its end, and ends everything where it fails. What Python compiles is kept, as where it is installed."""
        without = {name: value for name, value in os.environ.items() if name != "PYTHONDONTWRITEBYTECODE"}
        ran = subprocess.run(self.words(command), capture_output=True, text=True, env={**without, "PYTHONPYCACHEPREFIX": str(ROOT / "out/pycache")})
        if ran.returncode:
            sys.exit(f"{command}: {ran.stdout}{ran.stderr}")


class Star:
    """The star on servers, with so many facts that stand there from the beginning on, and its folder."""

    def __init__(self, processes, facts, folder):
        self.processes, servers = processes, processes.servers()
        self.folder = Folder(folder, processes.addresses(), f"star{facts}")
        self.catalogue = Catalogue(star.CATALOGUE + star.STRATEGY)
        shards = ["sales:id"] if len(servers) > 1 else []
        self.warehouse, self.facts = Warehouse(self.catalogue, servers, f"star{facts}", shards, NAME), facts
        self.next, self.first, self.moved = facts + APART, 0, 0
        making.create(self.warehouse)
        self.load(facts)
        making.open_views(self.warehouse)

    def load(self, facts):
        """The facts come from the servers themselves, the rest from here."""
        warehouse, versions = self.warehouse, self.warehouse.versions
        base = versions.newest()
        slot = nights.attempted(warehouse, base, Purpose.NIGHT)
        carrying, shops, products = Carrying(warehouse, base, slot), [(row, 1) for row in SHOP_ROWS], [(row, 1) for row in PRODUCT_ROWS]
        carrying.filled(SHOPS, shops)
        carrying.filled(PRODUCTS, products)
        carrying.judge_sent()
        warehouse.servers.first.carried(warehouse.written(self.put(slot, facts)))
        prints = standing.sealed(warehouse, base, slot, [SALES, SHOPS, PRODUCTS])
        totals = [facts, len(shops), len(products), 0, 0]
        versions.commit(base, slot, base.night + 1, Stage.LOADED, "load", totals, totals, prints=prints)

    def put(self, slot, facts):
        """What has the servers put so many facts into a slot, which are shared out among them where there are several."""
        script = self.warehouse.script(slot=slot)
        table = script.shared_out(SALES) if script.is_shared(SALES) else script.filled(SALES)
        columns = joined([*script.users(SALES), COUNT, SLOT])
        rows = sql(FACTS, slot=number(slot.number), count=number(facts))
        return sql("INSERT INTO {table} ({columns}) {rows}", table=table, columns=columns, rows=rows)

    def changes(self, count, with_others):
        """So many changed facts, of which half leave; and perhaps a shop and two prices."""
        half = count // 2
        sales = Counter({sale(number * STRIDE % self.facts): -1 for number in range(self.first, self.first + half)})
        sales.update({sale(number): 1 for number in range(self.next, self.next + half)})
        self.first, self.next, shops, products = self.first + half, self.next + half, Counter(), Counter()
        if with_others:
            old, new, self.moved = self.moved, self.moved + 1, self.moved + 1
            shops.update({(7, star.region(7 + old)): -1, (7, star.region(7 + new)): 1})
            for number in (3, 41):
                products.update({product(number, old): -1, product(number, new): 1})
        return {SALES: sales, SHOPS: Counter({r: n for r, n in shops.items() if n}), PRODUCTS: Counter({r: n for r, n in products.items() if n})}

    def timed(self, do):
        """What is done when the servers are at rest, and how long it takes by the clock and by the processor."""
        end = time.monotonic() + REST
        while time.monotonic() < end and any(self.warehouse.servers.each(lambda server: server.asked(AT_WORK))):
            time.sleep(0.1)
        began = time.monotonic(), self.used()
        found = do()
        return found, (time.monotonic() - began[0], self.used() - began[1])

    def used(self):
        """The processor's seconds of the servers, and of the client's processes that have ended."""
        return self.processes.seconds() + sum(os.times()[:4])

    def night(self, count, with_others=False):
        """How long a night takes."""
        for v, rows in self.changes(count, with_others).items():
            self.folder.put(self.catalogue.views[v], rows)
        return self.timed(lambda: self.folder.told("night"))[1]

    def slots(self, count):
        """Has the newest version lie in so many slots."""
        keeping.fold(self.warehouse)
        for _ in range(count - 1):
            self.night(100)

    def scratch(self):
        """How long the views take from scratch, into a slot that nobody reads, and that no night waits for."""
        warehouse = self.warehouse
        base = warehouse.versions.newest()
        carrying = Carrying(warehouse, base._replace(totals=(*base.totals[:3], 0, 0)), nights.attempted(warehouse, base, Purpose.CREATE))
        return self.timed(lambda: carrying.run(warehouse.steps.opening()))[1]

    def read(self):
        return self.timed(lambda: reading.Session(self.warehouse).read(4))[1]


def measured(stars, rounds, slots, count):
    """Medians of a night of one fact, of one of facts, of one with others, of the views from scratch and of a read; each night has a slot more than
    the one before."""
    found = [[], [], [], [], []]
    for _ in range(rounds):
        stars.slots(slots)
        found[3].append(stars.scratch())
        found[4].append(stars.read())
        found[1].append(stars.night(count))
        found[2].append(stars.night(count, True))
        found[0].append(stars.night(2))
    return [tuple(map(statistics.median, zip(*times))) for times in found]


def ratio(times, beside):
    """How much of something a night takes, by the clock and by the processor."""
    return "{:.2f} ({:.2f})".format(*(one / other for one, other in zip(times, beside)))


def measure(asked):
    """Prints a line for each number of servers, facts, slots and changes."""
    program = clickhouse()
    if not program:
        print("cluster: there is no clickhouse-server here and it could not be installed")
        return
    print("servers  facts  slots  changes  night of one  night  with a shop and two prices  views from scratch  read of by_kind  of these  of these, with others")
    for servers in (1, 3):
        for facts in (int(asked.facts * scale) for scale in SCALES):
            with Processes(program, servers) as processes, TemporaryDirectory() as folder:
                measure_star(Star(processes, facts, folder), asked.rounds, servers, facts)
    measure_loads(asked, program)


def measure_star(stars, rounds, servers, facts):
    """Prints the lines of one star."""
    for slots in SLOTS:
        for count in CHANGED:
            times = measured(stars, rounds, slots, count)
            shown = [f"{wall:.2f} ({used:.2f})" for wall, used in times]
            print(servers, facts, slots, count, *shown, ratio(times[1], times[3]), ratio(times[2], times[3]), sep="  ", flush=True)


# ---- a table from a file, and out again

CLIENT = "clickhouse-client"
BESIDE = (
    'CREATE TABLE beside{number} (id Int64, shop Int64, product Int64, pieces Int64, "#" Int64 DEFAULT 1, "~s" UInt32 DEFAULT 1)'
    ' ENGINE = SummingMergeTree(("#")) PARTITION BY "~s" ORDER BY (shop, product, id, pieces)'
)


def client():
    """The engine's own client, which is installed where it is missing and that can be done; else None."""
    install(CLIENT, lambda: shutil.which(CLIENT))
    return shutil.which(CLIENT)


def measure_loads(asked, program):
    """Prints a line for each number of facts."""
    if not client():
        print(f"cluster: there is no {CLIENT} here and it could not be installed")
        return
    print("facts  load  MB  the client  MB  of that  read  MB")
    for facts in (int(asked.facts * scale) for scale in SCALES):
        with Processes(program, 1) as processes, TemporaryDirectory() as path:
            file = sales_in(Path(path) / "sales.csv", facts)
            times = [loaded(processes.all[0], Path(path), file, facts, number) for number in range(asked.rounds)]
        load, other, read = ([statistics.median(each) for each in zip(*column)] for column in zip(*times))
        shown = [f"{seconds:.2f}  {most:.0f}" for seconds, most in (load, other)]
        print(facts, *shown, f"{load[0] / other[0]:.2f}", f"{read[0]:.2f}  {read[1]:.0f}", sep="  ", flush=True)


def sales_in(file, facts):
    """So many facts as a file."""
    with file.open("w") as opened:
        opened.write(line(["id", "shop", "product", "pieces"]))
        opened.writelines(line(sale(number)) for number in range(facts))
    return file


def loaded(process, path, file, facts, number):
    """What it takes to load a file, what the engine's own client takes, and what it takes to read it."""
    server = Server(process.address)
    (path / str(number)).mkdir()
    folder = Folder(path / str(number), [process.address], f"loaded{number}")
    (folder.path / "data/sales.csv").symlink_to(file)
    for name, columns, rows in (("shops", ["shop", "region"], SHOP_ROWS), ("products", ["product", "kind", "price"], PRODUCT_ROWS)):
        (folder.path / f"data/{name}.csv").write_text("".join(map(line, [columns, *rows])))
    folder.told("create")
    load = ended(folder.words("load"))
    server.carried(BESIDE.format(number=number))
    into = f"INSERT INTO beside{number} (id, shop, product, pieces) FORMAT CSVWithNames"
    other = ended([CLIENT, "--host", "127.0.0.1", "--port", process.tcp, "--query", into], file)
    for table in (f'loaded{number}."sales~0"', f"beside{number}"):
        if server.asked(f"SELECT count() FROM {table}") != [[str(facts)]]:
            sys.exit(f"tools/bench: {table} has not all rows of the file")
    return load, other, ended(folder.words("read", "sales"))


def ended(words, given=os.devnull):
    """How long a command takes to its end, and how many MB at its highest; what it prints goes nowhere."""
    ran = run(["sh", "-c", 'exec "$@" >/dev/null', "sh", *words], given)
    return ran.seconds, ran.kilobytes / 1024
