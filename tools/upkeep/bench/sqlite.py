"""The night of a shop beside SQLite, which loads the same tables and makes the views once, and in every order of its join.

There are 20,000 orders, 60,000 lines and 400 products, all integers; `sales` joins the three, and two summaries add it up by customer
and by product. In the night every hundredth order leaves with its lines, as many come, and one price in a hundred changes. The strategy
is what `whview plan` finds for the views' sizes.

`whview night` is timed from the start of its process to the end: it reads the tables, works the views out, carries the night out and
prints all rows of the new views to a file. SQLite works in memory, in the process of this tool, on the tables of before alone, and
prints nothing: `split` makes tuples of numbers of the text, `load` puts them by executemany into tables with their keys, and `views` is
CREATE TABLE AS SELECT for each view. The views that the night prints have to be those that SQLite makes of the tables of after, and its
text one whatever the order in which `sales` names the views that it is over. All run in turn; what is printed are the best
times and the medians, and the ratios of both.
"""

import json
import random
import sqlite3
import subprocess
import sys
from collections import Counter, defaultdict
from itertools import permutations
from pathlib import Path
from statistics import median
from tempfile import TemporaryDirectory
from time import monotonic

from upkeep.words import program

ORDERS, LINES, PRODUCTS, CUSTOMERS, DAYS = 20_000, 60_000, 400, 1_000, 30
CHANGED, ROUNDS = 100, 7
CATALOGUE = """\
@catalogue
view = [
  { name = "orders", columns = ["id", "customer", "day"] },
  { name = "lines", columns = ["id", "product", "pieces"] },
  { name = "products", columns = ["product", "price"] },
  { name = "sales", over = OVER, join = [["orders.id", "lines.id"], ["lines.product", "products.product"]], keep = [
    ["day", "orders.day"], ["customer", "orders.customer"], ["product", "lines.product"], ["pieces", "lines.pieces"],
    ["cost", ["*", "lines.pieces", "products.price"]] ] },
  { name = "by_customer", over = ["sales"], group = [["customer", "sales.customer"]], count = "lines", sum = [["cost", "sales.cost"]] },
  { name = "by_product", over = ["sales"], group = [["product", "sales.product"]], count = "lines", sum = [["cost", "sales.cost"]] },
]
"""
BASES = dict(orders="id INTEGER PRIMARY KEY, customer, day", lines="id, product, pieces", products="product INTEGER PRIMARY KEY, price")
VIEWS = {
    "sales": "SELECT day, customer, product, pieces, pieces * price AS cost FROM orders NATURAL JOIN lines NATURAL JOIN products",
    "by_customer": "SELECT customer, COUNT(*) AS lines, SUM(cost) AS cost FROM sales GROUP BY customer",
    "by_product": "SELECT product, COUNT(*) AS lines, SUM(cost) AS cost FROM sales GROUP BY product",
}


def placed(source, first, orders, lines):
    """Orders that are placed, and their lines."""
    numbers = range(first, first + orders)
    heads = [(number, source.randrange(CUSTOMERS), source.randrange(DAYS)) for number in numbers]
    return heads, [(source.choice(numbers), source.randrange(PRODUCTS), source.randint(1, 9)) for _ in range(lines)]


def drawn(source):
    """The rows of the base views before the night, those that leave in it, and those that come."""
    orders, lines = placed(source, 0, ORDERS, LINES)
    products = [(product, source.randint(100, 999)) for product in range(PRODUCTS)]
    gone, repriced = set(source.sample(range(ORDERS), ORDERS // CHANGED)), source.sample(products, PRODUCTS // CHANGED)
    leaving = [[row for row in rows if row[0] in gone] for rows in (orders, lines)] + [repriced]
    coming = *placed(source, ORDERS, ORDERS // CHANGED, LINES // CHANGED), [(product, price + 5) for product, price in repriced]
    return [dict(zip(BASES, rows)) for rows in ((orders, lines, products), leaving, coming)]


def table(header, rows):
    return "".join(",".join(map(str, row)) + "\n" for row in [header, *rows])


def columns(name):
    return [column.split()[0] for column in BASES[name].split(", ")]


def tables(rows):
    return {name: table(columns(name), rows[name]) for name in BASES}


def changes(leaving, coming):
    signed = {name: [(-1, *row) for row in leaving[name]] + [(1, *row) for row in coming[name]] for name in BASES}
    return "".join(f"@changes {name}\n{table(['#', *columns(name)], rows)}" for name, rows in signed.items())


def catalogue(over):
    return CATALOGUE.replace("OVER", json.dumps(over))


def planned(built, before, after):
    """The strategy of least work for views with these rows before the night and after it."""
    pairs = [(name, before[name], after[name]) for name in before]
    sizes = [(name, old.total(), new.total(), (old - new).total() + (new - old).total()) for name, old, new in pairs]
    bundle = catalogue(list(BASES)) + "@sizes\n" + table(["view", "pre", "post", "change"], sizes)
    said = subprocess.run([built, "plan"], input=bundle, check=True, stdout=subprocess.PIPE, text=True).stdout
    return "@strategy\n" + "".join(line + "\n" for line in said.splitlines() if line.startswith(("comp ", "inst ")))


def by_sqlite(texts):
    """A database with the views over these tables, and the moments between the steps of making it."""
    moments = [monotonic()]
    rows = {name: [tuple(map(int, line.split(","))) for line in text.splitlines()[1:]] for name, text in texts.items()}
    moments.append(monotonic())
    database = sqlite3.connect(":memory:")
    for name, listed in rows.items():
        database.execute(f"CREATE TABLE {name} ({BASES[name]})")
        database.executemany(f"INSERT INTO {name} VALUES ({', '.join('?' * len(listed[0]))})", listed)
    database.commit()
    moments.append(monotonic())
    for name, query in VIEWS.items():
        database.execute(f"CREATE TABLE {name} AS {query}")
    return database, [*moments, monotonic()]


def contents(texts):
    """The rows of all views over these tables, with how often they stand, as SQLite has them."""
    database, _ = by_sqlite(texts)
    return {name: Counter(database.execute(f"SELECT * FROM {name}")) for name in (*BASES, *VIEWS)}


def by_whview(built, bundle, answer):
    """The seconds that a night takes, from the start of its process to the end."""
    with answer.open("wb") as file:
        began = monotonic()
        subprocess.run([built, "night", "--input", bundle], check=True, stdout=file)
        return monotonic() - began


def judge(answer, expected):
    """Compares the views that a night prints with SQLite's."""
    found = {}
    for name, _, *lines in (view.splitlines() for view in answer.split("\nview ")[1:]):
        rows = [tuple(map(int, line.split(","))) for line in lines]
        found[name] = {row[1:]: row[0] for row in rows}
    if found != expected:
        sys.exit("tools/bench: the views of the night are not those that SQLite makes of the tables of after")


def measured(built, bundles, answer, texts, expected, rounds):
    """The seconds of SQLite's steps, and those of the night in each order, round by round."""
    steps, nights, answers = defaultdict(list), defaultdict(list), set()
    for _ in range(rounds):
        _, moments = by_sqlite(texts)
        for step, began, ended in zip(("split", "load", "views"), moments, moments[1:]):
            steps[step].append(ended - began)
        for over, bundle in bundles.items():
            nights[over].append(by_whview(built, bundle, answer))
            answers.add(answer.read_text())
    if len(answers) > 1:
        sys.exit("tools/bench: the texts of two orders differ")
    judge(answers.pop(), expected)
    return steps, nights


def show(what, seconds):
    print(f"{what}: best {min(seconds) * 1000:.0f} ms, median {median(seconds) * 1000:.0f} ms")


def show_ratio(what, upper, lower):
    """Prints the ratio of the greatest best time to the least one, and that of the medians."""
    best, middle = (max(map(of, upper)) / min(map(of, lower)) for of in (min, median))
    print(f"{what}: of the best {best:.2f}, of the medians {middle:.2f}")


def report(steps, nights):
    total = list(map(sum, zip(steps["load"], steps["views"])))
    night = next(iter(nights.values()))
    for step, seconds in {**steps, "load and views": total}.items():
        show(f"sqlite, {step}", seconds)
    for over, seconds in nights.items():
        show(f"whview night, over {', '.join(over)}", seconds)
    show_ratio("whview night over sqlite's load and views", [night], [total])
    show_ratio("whview night over sqlite's split, load and views", [night], [list(map(sum, zip(*steps.values())))])
    show_ratio("whview night over sqlite's views alone", [night], [steps["views"]])
    show_ratio("the slowest order over the fastest", nights.values(), nights.values())


def measure(asked):
    built = program(asked.program)
    before, leaving, coming = drawn(random.Random(7))
    after = {name: list((Counter(before[name]) - Counter(leaving[name]) + Counter(coming[name])).elements()) for name in BASES}
    texts, expected = tables(before), contents(tables(after))
    data = "".join(f"@data {name}\n{text}" for name, text in texts.items())
    parts = data + changes(leaving, coming) + planned(built, contents(texts), expected)
    with TemporaryDirectory() as folder:
        bundles = {over: Path(folder) / "_".join(over) for over in permutations(BASES)}
        for over, bundle in bundles.items():
            bundle.write_text(catalogue(over) + parts)
        steps, nights = measured(built, bundles, Path(folder) / "answer", texts, {name: expected[name] for name in VIEWS}, asked.rounds)
    report(steps, nights)
