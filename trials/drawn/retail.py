"""A drawn warehouse of fifteen views with texts: a shop chain's base tables of any size, what its views have to be by sqlite3 from
scratch, and nights of few changed rows. The same number of orders gives the same bytes."""

import random

from trials.drawn import shop
from trials.drawn.shop import write

BASES = {
    "cities": ["city", "country", "zone"], "customers": ["customer", "name", "city", "segment"], "categories": ["category", "department"],
    "products": ["product", "category", "price"], "stores": ["store", "city"], "orders": ["id", "customer", "store", "day"],
    "lines": ["id", "product", "pieces", "note"],
}
NUMBERS = ("customer", "price", "id", "day", "pieces")
DERIVED = """\
[[view]]
name = "placed"
over = ["orders", "customers"]
join = [["orders.customer", "customers.customer"]]
keep = [["id", "orders.id"], ["day", "orders.day"], ["store", "orders.store"], ["city", "customers.city"],
        ["segment", "customers.segment"]]
[[view]]
name = "sold"
over = ["lines", "products"]
join = [["lines.product", "products.product"]]
keep = [["id", "lines.id"], ["product", "lines.product"], ["category", "products.category"],
        ["cost", ["*", "lines.pieces", "products.price"]]]
[[view]]
name = "sales"
over = ["sold", "placed"]
join = [["sold.id", "placed.id"]]
keep = [["city", "placed.city"], ["store", "placed.store"], ["product", "sold.product"], ["day", "placed.day"],
        ["segment", "placed.segment"], ["category", "sold.category"], ["cost", "sold.cost"]]
[[view]]
name = "returned"
over = ["lines"]
where = ["any", ["=", "lines.note", { text = "sent back" }], ["=", "lines.note", { text = "broken, and sent back" }]]
keep = [["id", "lines.id"], ["note", "lines.note"], ["product", "lines.product"]]
[[view]]
name = "by_day"
over = ["sales"]
group = [["day", "sales.day"], ["category", "sales.category"]]
count = "lines"
sum = [["cost", "sales.cost"]]
[[view]]
name = "by_city"
over = ["sales", "cities"]
join = [["sales.city", "cities.city"]]
group = [["zone", "cities.zone"], ["country", "cities.country"], ["city", "cities.city"]]
count = "lines"
sum = [["cost", "sales.cost"]]
[[view]]
name = "by_store"
over = ["sales", "stores"]
join = [["sales.store", "stores.store"]]
group = [["city", "stores.city"], ["store", "stores.store"], ["segment", "sales.segment"]]
count = "lines"
sum = [["cost", "sales.cost"]]
[[view]]
name = "by_department"
over = ["sales", "categories"]
join = [["sales.category", "categories.category"]]
group = [["department", "categories.department"]]
count = "lines"
sum = [["cost", "sales.cost"]]
"""
VIEWS = {
    "placed": "SELECT COUNT(*), id, day, store, city, segment FROM placed GROUP BY id, day, store, city, segment",
    "sold": "SELECT COUNT(*), id, product, category, cost FROM sold GROUP BY id, product, category, cost",
    "sales": "SELECT COUNT(*), city, store, product, day, segment, category, cost FROM sales"
    " GROUP BY city, store, product, day, segment, category, cost",
    "returned": "SELECT COUNT(*), id, note, product FROM lines WHERE note IN ('sent back', 'broken, and sent back')"
    " GROUP BY id, note, product",
    "by_day": "SELECT 1, day, category, COUNT(*), SUM(cost) FROM sales GROUP BY day, category",
    "by_city": "SELECT 1, zone, country, city, COUNT(*), SUM(cost) FROM sales JOIN cities USING (city) GROUP BY zone, country, city",
    "by_store": "SELECT 1, stores.city, store, segment, COUNT(*), SUM(cost) FROM sales JOIN stores USING (store)"
    " GROUP BY stores.city, store, segment",
    "by_department": "SELECT 1, department, COUNT(*), SUM(cost) FROM sales JOIN categories USING (category) GROUP BY department",
}
INDEXED = (("customers", "customer"), ("products", "product"), ("orders", "id"), ("cities", "city"), ("stores", "store"))
JOINED = (
    *(f"CREATE INDEX {name}_{column} ON {name} ({column})" for name, column in INDEXED),
    "CREATE TEMP VIEW placed AS SELECT id, day, store, city, segment FROM orders JOIN customers USING (customer)",
    "CREATE TEMP VIEW sold AS SELECT id, product, category, pieces * price AS cost FROM lines JOIN products USING (product)",
    "CREATE TEMP TABLE sales AS SELECT city, store, product, day, segment, category, cost FROM sold JOIN placed USING (id)",
)
# How many bytes an order and its lines take in the base tables, about.
ORDER = 260
ZONES, SEGMENTS = ["the north", "the south", "islands, and coast"], ["private", "trade", 'the "few"']
NOTES = [f"to be left at door {number} where nobody is in" for number in range(500)] + ["sent back", "broken, and sent back"]
LINES = 3


class Retail:
    """The rows of the base tables, as lists."""

    def __init__(self, orders, seed=15):
        self.source = random.Random(seed)
        self.rows = {
            "cities": [(f"city of {number}", f"country {number % 17}", ZONES[number % 3]) for number in range(200)],
            "customers": [self.customer(number) for number in range(orders // 10 + 1)],
            "categories": [(f"category {number}", f"department {number % 7}") for number in range(40)],
            "products": [(f"product, no. {number}", f"category {number % 40}", self.source.randint(100, 999)) for number in range(2000)],
            "stores": [(f"store {number}", f"city of {number % 200}") for number in range(300)],
            "orders": [self.order(number) for number in range(orders)],
            "lines": [self.line(number % max(orders, 1)) for number in range(LINES * orders)],
        }

    def customer(self, number):
        return number, f"customer named {number}", f"city of {self.source.randrange(200)}", self.source.choice(SEGMENTS)

    def order(self, number):
        customer = self.source.randrange(max(number // 10, 1))
        return number, customer, f"store {self.source.randrange(300)}", 20260101 + number % 28

    def line(self, order):
        return order, f"product, no. {self.source.randrange(2000)}", self.source.randint(1, 9), self.source.choice(NOTES)

    def night(self, few=1):
        """The changes of a night, 28 rows of them or so many times as many: orders with their lines come, lines leave, a customer
        moves."""
        orders = [self.order(len(self.rows["orders"]) + number) for number in range(8 * few)]
        coming = [self.line(order[0]) for order in orders for _ in range(1)] + [self.line(0) for _ in range(4 * few)]
        leaving = self.source.sample(range(len(self.rows["lines"])), 6 * few)
        changes = {"orders": [(1, row) for row in orders], "lines": [(1, row) for row in coming]}
        changes["lines"] += [(-1, self.rows["lines"][place]) for place in leaving]
        for place in sorted(leaving, reverse=True):
            self.rows["lines"][place] = self.rows["lines"][-1]
            self.rows["lines"].pop()
        self.rows["orders"] += orders
        self.rows["lines"] += coming
        return changes | {"customers": self.moved()}

    def moved(self):
        """A customer who moves."""
        place = self.source.randrange(len(self.rows["customers"]))
        old = self.rows["customers"][place]
        new = (*old[:2], f"city of {self.source.randrange(200)}", old[3])
        self.rows["customers"][place] = new
        return [(-1, old), (1, new)] if new != old else []


def catalogue():
    texts_of = ((name, ", ".join(f'"{column}{"" if column in NUMBERS else ":text"}"' for column in columns)) for name, columns in BASES.items())
    return "".join(f'[[view]]\nname = "{name}"\ncolumns = [{columns}]\n' for name, columns in texts_of) + DERIVED


def lay(folder, retail):
    """Writes a folder with the catalogue and the base tables."""
    folder.mkdir(parents=True, exist_ok=True)
    (folder / "catalogue.toml").write_text(catalogue())
    for name, rows in retail.rows.items():
        write(folder / "data" / f"{name}.csv", BASES[name], ((1, row) for row in rows))


def put_changes(folder, changes):
    shop.put_changes(folder, {name: changed for name, changed in changes.items() if changed}, BASES)


def expected(rows):
    """What sqlite3 makes of the base rows: each view's rows, with how often they stand."""
    return shop.expected(rows, BASES, JOINED, VIEWS)
