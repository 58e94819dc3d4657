"""The application of the trials: its tables with all types that are turned, the catalogue over them, and what its views have to be. A column of
the last view is called as a variable of a night is."""

from collections import Counter

from trials.ended import faults
from trials.tables.given_nights import lay, written
from whview.catalogue.from_bundle import views_of

CATALOGUE = """
[[view]]
name = "orders"
columns = ["id", "day", "at", "paid", "region:text"]
key = ["id"]
nulls = ["at", "region"]
[[view]]
name = "lines"
columns = ["id", "product:text", "pieces"]
[[view]]
name = "products"
columns = ["product:text", "price"]
[[view]]
name = "sales"
over = ["orders", "lines", "products"]
join = [["orders.id", "lines.id"], ["lines.product", "products.product"]]
where = ["all", ["<>", "orders.region", { text = '\\N' }], ["<>", "products.price", -9223372036854775808]]
keep = [
  ["day", "orders.day"],
  ["region", "orders.region"],
  ["paid", "orders.paid"],
  ["product", "lines.product"],
  ["cost", ["*", "lines.pieces", "products.price"]],
]
[[view]]
name = "daily"
over = ["sales"]
group = [["day", "sales.day"], ["region", "sales.region"]]
count = "lines"
sum = [["cost", "sales.cost"], ["paid", "sales.paid"]]
[[view]]
name = "placed"
over = ["orders"]
where = ["<>", "orders.region", { text = '\\N' }]
keep = [["region", "orders.region"], ["id", "orders.id"], ["double", ["*", "orders.paid", 2]]]
[[view]]
name = "moments"
over = ["orders"]
group = [["places", "orders.at"]]
count = "orders"
"""
TABLES = {
    "postgresql": """
CREATE TABLE orders (note text, id int PRIMARY KEY, day date NOT NULL, at timestamptz, paid boolean NOT NULL DEFAULT FALSE, region varchar(20));
CREATE TABLE lines (id int NOT NULL REFERENCES orders ON DELETE CASCADE ON UPDATE CASCADE, product text NOT NULL, pieces smallint NOT NULL);
CREATE TABLE products (product text PRIMARY KEY, price numeric(10,2), about text);
INSERT INTO orders SELECT NULL, i, DATE '2026-01-01' + i % 5, TIMESTAMPTZ '2026-01-01 00:00Z' + i * INTERVAL '0.4 second', i % 2 = 0,
 CASE WHEN i % 4 > 0 THEN 'region ' || i % 4 END FROM generate_series(1, {rows}) AS i;
INSERT INTO products (product, price) SELECT 'product ' || i, CASE WHEN i % 10 > 0 THEN i + 0.25 END FROM generate_series(1, 20) AS i;
INSERT INTO lines SELECT i % {rows} + 1, 'product ' || (i % 20 + 1), i % 7 FROM generate_series(1, {rows} * 3) AS i;
""",
    "sqlite": """
CREATE TABLE orders (note TEXT, id INTEGER PRIMARY KEY, day DATE NOT NULL, at DATETIME, paid BOOLEAN NOT NULL DEFAULT 0, region VARCHAR(20));
CREATE TABLE lines (id INT NOT NULL REFERENCES orders ON DELETE CASCADE ON UPDATE CASCADE, product TEXT NOT NULL, pieces SMALLINT NOT NULL);
CREATE TABLE products (product TEXT PRIMARY KEY NOT NULL, price DECIMAL(10,2), about TEXT);
CREATE TEMP TABLE numbers (i INTEGER PRIMARY KEY);
INSERT INTO numbers WITH RECURSIVE n (i) AS (SELECT 1 UNION ALL SELECT i + 1 FROM n WHERE i < {rows} * 3) SELECT i FROM n;
INSERT INTO orders SELECT NULL, i, date('2026-01-01', (i % 5) || ' days'), datetime('2026-01-01', (i / 3) || ' seconds'), i % 2,
 CASE WHEN i % 4 > 0 THEN 'region ' || (i % 4) END FROM numbers WHERE i <= {rows};
INSERT INTO products (product, price) SELECT 'product ' || i, CASE WHEN i % 10 > 0 THEN i + 0.25 END FROM numbers WHERE i <= 20;
INSERT INTO lines SELECT i % {rows} + 1, 'product ' || (i % 20 + 1), i % 7 FROM numbers;
""",
}
# What the tables of the night have to be, from the application's own: a number for each type, and a sentinel for NULL.
LEAST = -(2**63)
# A text that would be taken for NULL has one backslash more.
REGION = r"CASE WHEN CAST({region} AS text) IN ('\N', '\\N') THEN '\' || {region} ELSE CAST({region} AS text) END"
OWN_REGION, REGION_OF_O = REGION.format(region="region"), REGION.format(region="o.region")
SALES = " FROM orders AS o JOIN lines AS l ON l.id = o.id JOIN products AS p ON p.product = l.product WHERE o.region IS NOT NULL AND p.price IS NOT NULL"
EXPECTED = {
    "postgresql": {
        "orders": f"SELECT id, day - DATE '1970-01-01', coalesce(floor(extract(epoch FROM at))::bigint, {LEAST}), paid::int,"
        rf" coalesce({OWN_REGION}, '\N') FROM orders",
        "lines": "SELECT id, product, pieces FROM lines",
        "products": f"SELECT product, coalesce((price * 100)::bigint, {LEAST}) FROM products",
        "sales": f"SELECT o.day - DATE '1970-01-01', {REGION_OF_O}, o.paid::int, l.product, (l.pieces * p.price * 100)::bigint" + SALES,
        "placed": f"SELECT {OWN_REGION}, id, paid::int * 2 FROM orders WHERE region IS NOT NULL",
        "daily": f"SELECT o.day - DATE '1970-01-01', {REGION_OF_O}, count(*), sum(l.pieces * p.price * 100)::bigint, sum(o.paid::int)"
        + SALES + " GROUP BY o.day, o.region",
        "moments": f"SELECT coalesce(floor(extract(epoch FROM at))::bigint, {LEAST}) AS s, count(*) FROM orders GROUP BY s",
    },
    "sqlite": {
        "orders": rf"SELECT id, unixepoch(day) / 86400, coalesce(unixepoch(at), {LEAST}), paid, coalesce({OWN_REGION}, '\N') FROM orders",
        "lines": "SELECT id, product, pieces FROM lines",
        "products": f"SELECT product, coalesce(CAST(round(price * 100) AS INTEGER), {LEAST}) FROM products",
        "sales": f"SELECT unixepoch(o.day) / 86400, {REGION_OF_O}, o.paid, l.product, l.pieces * CAST(round(p.price * 100) AS INTEGER)" + SALES,
        "placed": f"SELECT {OWN_REGION}, id, paid * 2 FROM orders WHERE region IS NOT NULL",
        "daily": f"SELECT unixepoch(o.day) / 86400, {REGION_OF_O}, count(*), sum(l.pieces * CAST(round(p.price * 100) AS INTEGER)), sum(o.paid)"
        + SALES + " GROUP BY o.day, o.region",
        "moments": f"SELECT coalesce(unixepoch(at), {LEAST}) AS s, count(*) FROM orders GROUP BY s",
    },
}
BASE = ("orders", "lines", "products")
COUNTED = (*BASE, "sales", "placed")


class Live:
    """The application's tables in a database, captured, with its views; nights, and what is wrong with what they left."""

    def __init__(self, database, path, rows=40):
        self.database, self.path, self.engine, self.rows = database, lay(path, CATALOGUE), database.engine, rows
        self.columns = {view.name: [name for name, _ in view.columns] for view in views_of(CATALOGUE)}
        # What a capture says of roles.
        self.as_whom = ()
        self.script = self.words("--live")

    def asked(self, text):
        """What the application's statements answer."""
        return self.database.asked(text)

    # ---- the command

    def captured_by(self, words):
        """The words by which tables are captured, where these capture them."""
        return words

    def written(self, *words):
        """What whview sql does for words, the folder's path among them where they want one."""
        return written("--engine", self.engine, "--database", self.database.address, *self.captured_by(words))

    def sure(self, *words):
        if (found := self.written(*words)).status:
            raise ValueError(f"{words}: {found.told}")
        return found

    def words(self, *words):
        """The text of a script over the application's own catalogue."""
        return self.sure(*words, self.path).text

    def alone(self, *words):
        """What whview sql writes without a database at hand."""
        return written("--engine", self.engine, *words, self.path).text

    def run(self, *words, path=None):
        return self.database.run(self.sure(*words, path or self.path).text)

    def tried(self, *words):
        """What such a script is told, or what kept it from being written, or None."""
        found = self.written(*words)
        return found.told if found.status else self.database.run(found.text)

    def capture(self):
        return self.run("--capture", *self.as_whom)

    def opened(self, *words, path=None):
        """What is told of a capture by these words and of the filling of the views, or None."""
        return self.run("--capture", *words, path=path) or self.run("--live", "--open", path=path)

    def night(self):
        return self.database.run(self.script)

    # ---- what has to come of it

    def made(self, *more):
        self.database.fresh()
        self.database.make([TABLES[self.engine].replace("{rows}", str(self.rows)), *more])

    def fresh(self, *more):
        """The tables, captured, with their views filled."""
        self.made(*more)
        told = self.opened(*self.as_whom)
        # By a script that is made with the tables at hand, these are compared where the schema changes.
        self.script = self.words("--live") if self.engine == "sqlite" else self.script
        return [f"capture: {told}"] if told else self.mistakes()

    def bare(self, *more):
        """The tables, which were captured and are no longer."""
        return self.fresh(*more) + faults(self.run("--uncapture"))

    def right(self, when=""):
        """What a night is told, or leaves otherwise than the tables give it."""
        return [f"{when}{text}" for text in faults(self.night()) or self.mistakes()]

    def anew(self, when=""):
        """The same where the tables are captured once more before it."""
        return [f"{when}{text}" for text in faults(self.capture()) or self.right()]

    def refuses(self, word, when=""):
        """What a night is told that has to be refused by a word, where it is something else."""
        told = self.night()
        return [] if told and word in told else [f"{when}the night was told {told!r}, and not {word!r}"]

    def mistakes(self):
        """What the mirrors and the views have otherwise than the application's tables give them."""
        return unlike(self.database, {name: (wanted, self.stored(name)) for name, wanted in EXPECTED[self.engine].items()})

    def stored(self, name):
        """A query for what a view's table has, and how often each row counts."""
        return stored(self.database, name, self.columns[name], name in COUNTED)

    def pending(self):
        """How many rows stand in the tables of changes."""
        return sum(map(len, self.database.answers(*(f"SELECT * FROM {self.database.table(name + '~changes')}" for name in BASE))))


def stored(database, name, columns, is_counted):
    """A query for what a view's table has, and how often each row counts."""
    listed = ", ".join([*(f'"{column}"' for column in columns), '"#"' if is_counted else "1"])
    return f"SELECT {listed} FROM {database.table(name)}"


def bag(rows):
    """How often rows stand somewhere that have their count at their end."""
    found = Counter()
    for *row, count in rows:
        found[tuple(row)] += count
    return found


def unlike(database, views):
    """What views have otherwise than is wanted: each by a query for the rows, and one for what its table has."""
    found, answers = [], iter(database.answers(*(query for both in views.values() for query in both)))
    for name, wanted, rows in zip(views, answers, answers):
        wanted, there = Counter(wanted), bag(rows)
        if wanted != there:
            found.append(f"{name} has {dict(there - wanted)}, and not {dict(wanted - there)}"[:600])
    return found
