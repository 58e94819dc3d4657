"""Nights that are stopped at drawn moments, and one that waits for a writer: all is done or nothing, and then the night again."""

import random
from time import monotonic, sleep

from trials.drawn.views import chance
from trials.servers.databases import in_folder
from trials.tables.cases import SHOP
from trials.tables.filled import Filled, plainly
from trials.tables.given_nights import Night, written
from trials.tables.judged import Judged
from whview.catalogue.from_bundle import views_of

ROWS = {"postgresql": 5000, "sqlite": 2000}
NOBODY = "SELECT count(*) FROM pg_stat_activity WHERE datname = current_database() AND pid <> pg_backend_pid();"
TERMINATED = "SELECT pg_terminate_backend(pid) FROM pg_stat_activity WHERE datname = current_database() AND pid <> pg_backend_pid();"
WAITING = "SELECT count(*) FROM pg_stat_activity WHERE datname = current_database() AND wait_event_type = 'Lock';"


def shop(rows):
    """A shop of so many lines, in which one row in four changes."""
    products = [((f"product {n}", 100 + n), 1) for n in range(50)]
    lines = [((n, f"product {n % 50}", n % 7), 1) for n in range(rows)]
    new_prices = [((f"product {n}", 100 + n), -1) for n in range(8)] + [((f"product {n}", 101 + n), 1) for n in range(8)]
    new_lines = [(row, -1) for row, _ in lines[: rows // 8]] + [((rows + n, f"product {n % 50}", 3), 1) for n in range(rows // 8)]
    views = views_of(SHOP)
    night = Night(views, [products, lines, [], []], [new_prices, new_lines, [], []], plain=[0, 1])
    night.text = SHOP
    return night


def joined_tables(night, is_after):
    """The tables by the definitions, with the join by products' names."""
    products, lines, sales, groups = (dict(table) for table in [*night.base(is_after)[:2], {}, {}])
    prices = {}
    for (product, price), count in products.items():
        prices.update({product: price} if count else {})
    for (number, product, pieces), count in lines.items():
        if count and product in prices:
            sales[number, product, pieces * prices[product]] = count
    for (_, product, cost), count in sales.items():
        rows, costs = groups.get(product, (0, 0))
        groups[product] = rows + count, costs + count * cost
    return [products, lines, sales, {(product, *sums): 1 for product, sums in groups.items()}]


class Stopped:
    """A night that is carried out again and again, and stopped."""

    def __init__(self, database, seed, folder):
        self.database, self.source = database, random.Random(seed)
        self.night = shop(ROWS[database.engine])
        self.filled = Filled(database, self.night, [plainly(view) for view in self.night.views])
        before, self.after = joined_tables(self.night, False), joined_tables(self.night, True)
        self.made = []
        for v, view in enumerate(self.night.views):
            self.made += self.filled.made(v) + self.filled.rows(v, before[v])
            self.made += [] if view.over else self.filled.made_changes(v) + self.filled.changed(v)
        self.script = written("--engine", database.engine, *self.night.option(), self.night.folder(folder))
        self.ends = {"stopped": 0, "done": 0}

    def fresh(self):
        self.database.fresh()
        self.database.make(self.made)

    def begun(self):
        """The client, which has the night before it."""
        return self.database.begun(self.script.text)

    def ended(self, client):
        """The status of a client that has come to its end."""
        client.communicate(timeout=60)
        return client.returncode

    def timed(self):
        """How long the night runs by itself, and what is wrong with it."""
        self.fresh()
        self.before = self.database.state()
        began = monotonic()
        status = self.ended(self.begun())
        self.seconds = monotonic() - began
        return [f"the night ended with status {status}"] if status else self.judged()

    def judged(self):
        return Judged(self.database, self.night, self.filled.tables, self.before, self.database.state()).done(self.after)

    def stop(self, client):
        """The client is killed, or its backend is ended; then it is waited until no backend is left of those that were stopped."""
        if self.database.engine == "sqlite" or chance(self.source, 0.5):
            client.kill()
        else:
            self.database.asked(TERMINATED)
        self.ended(client)
        while self.database.engine == "postgresql" and self.database.asked(NOBODY) != [0]:
            sleep(0.01)

    def mistakes(self):
        """What a stop left that is neither all nor nothing, and what the night again makes of it."""
        self.fresh()
        client = self.begun()
        sleep(self.source.random() * self.seconds)
        self.stop(client)
        state = self.database.state()
        if state != self.before:
            self.ends["done"] += 1
            return [f"after a stop: {text[:300]}" for text in self.judged()]
        self.ends["stopped"] += 1
        told = self.database.run(self.script.text)
        return [f"the night again: {told}"] if told else [f"the night again: {text[:300]}" for text in self.judged()]

    # ---- a writer

    def waited(self):
        """A night that has to wait for a writer of changes: what that one wrote is carried out, or still there."""
        self.fresh()
        with self.database.another() as writer:
            writer.asked('BEGIN; INSERT INTO "lines~changes" (id, product, pieces, "#") VALUES (-1, \'product 1\', 5, 1);')
            client = self.begun()
            while client.poll() is None and self.database.asked(WAITING) == [0]:
                sleep(0.01)
            writer.asked("COMMIT;")
        status = self.ended(client)
        night = shop(ROWS["postgresql"])
        night.changes[1].append(((-1, "product 1", 5), 1))
        after = joined_tables(night, True)
        judged = Judged(self.database, night, self.filled.tables, self.before, self.database.state())
        return [f"the night ended with status {status}"] if status else judged.done(after)


def stop_mistakes(database, count, seed):
    """What so many stops show, and how they ended."""
    with in_folder() as folder:
        stopped = Stopped(database, seed, folder)
        if stopped.script.status:
            return [f"{database.engine}: {stopped.script.told.strip()[:300]}"], stopped.ends
        found = stopped.timed()
        for _ in range(0 if found else count):
            found += stopped.mistakes()
        if database.engine == "postgresql" and not found:
            found += [f"behind a writer: {text[:300]}" for text in stopped.waited()]
    return [f"{database.engine}: {text[:400]}" for text in found], {**stopped.ends, "seconds": round(stopped.seconds, 2)}
