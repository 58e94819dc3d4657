"""The shop of the tools: its tables, what its views have to be by sqlite3 from scratch, and nights that are drawn over it."""

import csv
import shutil
import sqlite3
from collections import Counter

from trials.oracle.tables import bag_of, text_of
from upkeep.words import ROOT

BASES = {"orders": ["id", "day", "region"], "lines": ["id", "product", "pieces"], "products": ["product", "price"]}
VIEWS = {
    "sales": "SELECT COUNT(*), day, region, lines.product, pieces, pieces * price FROM orders JOIN lines USING (id)"
    " JOIN products USING (product) GROUP BY day, region, lines.product, pieces, pieces * price",
    "daily_by_product": "SELECT 1, day, product, COUNT(*), SUM(pieces), SUM(cost) FROM sold GROUP BY day, product",
    "daily_by_region": "SELECT 1, day, region, COUNT(*), SUM(cost) FROM sold GROUP BY day, region",
}
SOLD = (
    "CREATE VIEW sold AS SELECT day, region, lines.product AS product, pieces, pieces * price AS cost FROM orders"
    " JOIN lines USING (id) JOIN products USING (product)"
)
REGIONS = ["north", "south", 'the "east"', "west, far"]


class Shop:
    """The rows of the base tables, as lists, and the nights that are drawn over them."""

    def __init__(self, source, orders, lines):
        self.source, self.next = source, 0
        self.rows = {"products": [(f"product {number}", source.randint(100, 999)) for number in range(200)], "orders": [], "lines": []}
        self.place(orders, lines)

    def place(self, orders, lines):
        """Orders that come, and their lines."""
        first = self.next
        self.next += orders
        coming = [(number, f"day {number % 30}", self.source.choice(REGIONS)) for number in range(first, self.next)]
        sold = [(self.source.randrange(first, self.next), self.product(), self.source.randint(1, 9)) for _ in range(lines)]
        self.rows["orders"] += coming
        self.rows["lines"] += sold
        return coming, sold

    def product(self):
        return f"product {self.source.randrange(200)}"

    def night(self, orders, lines):
        """The changes of a night: orders that come, lines that leave, and prices that are put right."""
        leaving = self.source.sample(self.rows["lines"], lines // 3)
        left = Counter(leaving)
        self.rows["lines"] = [row for row in self.rows["lines"] if not left[row] or left.subtract([row])]
        coming, sold = self.place(orders, lines)
        prices = self.prices()
        changes = {"orders": [(1, row) for row in coming], "lines": [(1, row) for row in sold] + [(-1, row) for row in leaving]}
        return changes | {"products": prices}

    def prices(self):
        """Three prices that are put right."""
        found = []
        for place in self.source.sample(range(200), 3):
            product, price = self.rows["products"][place]
            found += [(-1, (product, price)), (1, (product, price + 5))]
            self.rows["products"][place] = (product, price + 5)
        return found


def write(path, columns, counted):
    path.parent.mkdir(exist_ok=True)
    with path.open("w", newline="") as file:
        writer = csv.writer(file)
        writer.writerow(["#", *columns])
        writer.writerows([count, *row] for count, row in counted)


def lay(folder):
    """Writes a folder with the shop's catalogue and tables without rows."""
    folder.mkdir(exist_ok=True)
    shutil.copy(ROOT / "examples/shop/catalogue.toml", folder)
    for name, columns in BASES.items():
        write(folder / "data" / f"{name}.csv", columns, [])


def put_changes(folder, changes, bases=BASES):
    for name, changed in changes.items():
        write(folder / "changes" / f"{name}.csv", bases[name], changed)


def expected(rows, bases=BASES, made=(SOLD,), views=VIEWS):
    """What sqlite3 makes of the base rows: each view's rows, with how often they stand."""
    database = sqlite3.connect(":memory:")
    for name, columns in bases.items():
        database.execute(f"CREATE TABLE {name} ({', '.join(columns)})")
        database.executemany(f"INSERT INTO {name} VALUES ({', '.join('?' * len(columns))})", rows[name])
    for statement in made:
        database.execute(statement)
    queries = {name: database.execute(query) for name, query in views.items()}
    derived = {name: Counter({texts(row): count for count, *row in found}) for name, found in queries.items()}
    return {name: Counter(map(texts, rows[name])) for name in bases} | derived


def texts(row):
    return tuple(map(str, row))


def table(path):
    """The rows of a file that was written, with how often they stand."""
    return bag_of(text_of(path))
