"""Measures small nights over captured tables, on a PostgreSQL server of its own that waits for the disk: a night in which nothing changed, and one
of eight transactions, each in a new session, by the shop of examples/live.

Printed are milliseconds from the script's beginning to its end, and of the processor that the session's server process takes for it, and those
from psql's start to its end where it asks for one number; medians of the rounds. `--beside FOLDER`, a checkout of another state of this repository, is measured by turns in the same run, in a database of its own.
"""

import os
import statistics
import subprocess
import tempfile
import time
from pathlib import Path

from upkeep.bench.checkouts import Waiting, checkouts
from upkeep.words import ROOT
from trials.capture.places import LivePostgreSQL
from trials.servers.postgresql import postgresql, without_psql

ROUNDS = 40
EIGHT = (
    "INSERT INTO orders (id, day, region) SELECT max(id) + 1, '2026-03-04', 'south' FROM orders;",
    "INSERT INTO lines (id, product, pieces) SELECT max(id), 'jam', 2 FROM orders;",
    "INSERT INTO lines (id, product, pieces) SELECT max(id), 'tea', 2 FROM orders;",
    "UPDATE products SET price = price + 0.25 WHERE product = 'bread';",
    "INSERT INTO orders (id, day, region) SELECT max(id) + 1, '2026-03-05', 'north' FROM orders;",
    "INSERT INTO lines (id, product, pieces) SELECT max(id), 'bread', 1 FROM orders;",
    "UPDATE lines SET pieces = pieces % 5 + 1 WHERE id = 4;",
    "DELETE FROM lines WHERE id = 2; INSERT INTO lines VALUES (2, 'tea', 1);",
)
ORDER = "comp sales from lines\ninst lines\ncomp sales from orders\ninst orders\ncomp sales from products\ncomp daily from sales\ninst products\ninst sales\ninst daily\n"


class Shop:
    """A database whose tables are captured by a checkout of the repository, and the script of a night."""

    def __init__(self, server, name, checkout, folder):
        self.server, self.database = server, LivePostgreSQL(server, name)
        own = Path(folder) / name
        own.mkdir()
        self.database.asked((ROOT / "examples/live/shop.sql").read_text())
        (own / "catalogue.toml").write_text(checkout.sql(self.database, "--catalogue"))
        (own / "strategy.txt").write_text(ORDER)
        checkout.carried_out(self.database, "--capture", "--role", "whview", own)
        checkout.carried_out(self.database, "--live", "--open", own)
        self.script = own / "night.sql"
        self.script.write_text(checkout.sql(self.database, "--live", own))

    def alone(self):
        """The milliseconds of a psql that asks for a number."""
        began = time.monotonic()
        subprocess.run(self.server.asking(self.database.name, ("-c", "SELECT 1")), check=True, stdout=subprocess.DEVNULL)
        return (time.monotonic() - began) * 1e3, 0

    def night(self, changes):
        """The milliseconds of a night, and of the processor, in a new session."""
        for change in changes:
            self.database.asked(change)
        text = without_psql(self.script.read_text())
        with self.database.another() as session:
            spent = Path(f"/proc/{session.asked('SELECT pg_backend_pid();')[0]}/schedstat")
            before, began = int(spent.read_text().split()[0]), time.monotonic()
            session.asked(text)
            return (time.monotonic() - began) * 1e3, (int(spent.read_text().split()[0]) - before) / 1e6


def measured(shops, rounds):
    """The figures of each shop, by what was timed."""
    kinds = {"psql alone": Shop.alone, "an empty night": lambda shop: shop.night(()), "eight transactions": lambda shop: shop.night(EIGHT)}
    found = {kind: {name: [] for name in shops} for kind in kinds}
    for _ in range(rounds):
        for kind, night in kinds.items():
            for name, shop in shops.items():
                found[kind][name].append(night(shop))
    return found


def measure(asked):
    with Waiting(postgresql()) as server, tempfile.TemporaryDirectory() as folder:
        os.environ.update(PGHOST=str(server.folder), PGUSER="postgres")
        shops = {name: Shop(server, name, checkout, folder) for name, checkout in checkouts(asked).items()}
        for kind, by_name in measured(shops, asked.rounds).items():
            medians = {name: map(statistics.median, zip(*each)) for name, each in by_name.items()}
            shown = ", ".join(f"{name} {wall:.1f} ms, of the processor {cpu:.1f}" for name, (wall, cpu) in medians.items())
            print(f"small: {kind}: {shown}", flush=True)
