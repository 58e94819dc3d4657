"""Drawn statements over SQLite's captured tables, beside triggers of an application's own that change, delete and make anew the rows that they are
fired for: after each night the views are what the tables give, and no statement fails by the capture."""

import sqlite3

from trials.drawn.shrunk import smallest

NIGHTS, MOST = 12, 500
TRIGGERS = (
    "BEFORE UPDATE ON lines WHEN new.pieces = 5 BEGIN UPDATE lines SET pieces = old.pieces + 9, product = 'product 9' WHERE rowid = old.rowid; END;",
    "BEFORE UPDATE ON lines WHEN new.pieces = 4 BEGIN DELETE FROM lines WHERE rowid = old.rowid; INSERT INTO lines (rowid, id, product, pieces) VALUES"
    " (old.rowid, old.id, 'product 4', 2); END;",
    "BEFORE UPDATE ON lines WHEN new.pieces = 6 BEGIN UPDATE lines SET rowid = rowid + 5000 WHERE rowid = old.rowid; END;",
    "BEFORE DELETE ON lines WHEN old.pieces % 2 = 0 BEGIN UPDATE lines SET pieces = pieces + 1 WHERE rowid = old.rowid; END;",
    "BEFORE DELETE ON lines WHEN old.pieces = 3 BEGIN DELETE FROM lines WHERE rowid = old.rowid; INSERT INTO lines VALUES (old.id, 'product 2', 9); END;",
    "AFTER DELETE ON lines BEGIN UPDATE lines SET pieces = pieces + 1 WHERE id = old.id; END;",
    "AFTER INSERT ON lines WHEN new.pieces < 2 BEGIN UPDATE lines SET pieces = pieces + 2 WHERE rowid = new.rowid; END;",
    "BEFORE INSERT ON products BEGIN UPDATE products SET price = 77.25 WHERE product = new.product; END;",
    "BEFORE INSERT ON products WHEN new.price > 50 BEGIN DELETE FROM products WHERE product = new.product; END;",
    "AFTER UPDATE ON products WHEN new.price < 3 BEGIN UPDATE products SET price = 30 WHERE product = new.product; END;",
    "BEFORE UPDATE ON orders WHEN new.paid = 1 BEGIN UPDATE orders SET region = 'seen' WHERE id = old.id; UPDATE lines SET pieces = 4 WHERE id = old.id; END;",
    "BEFORE DELETE ON orders BEGIN UPDATE orders SET region = 'gone' WHERE id = old.id + 1; DELETE FROM lines WHERE id = old.id AND pieces = 1; END;",
)
CONFLICTS = ("", "", "OR REPLACE", "OR IGNORE", "OR FAIL", "OR ROLLBACK", "OR ABORT")
STATEMENTS = (
    "UPDATE {o} lines SET pieces = {n} % 8 WHERE id % 7 = {n} % 7",
    "UPDATE {o} lines SET id = id + 1 WHERE id % 9 = {n} % 9 AND id < 30",
    "UPDATE {o} lines SET rowid = rowid + 1 WHERE rowid % 10 = {n} % 10",
    "UPDATE {o} products SET product = 'product ' || ({n} % 23) WHERE product = 'product ' || ({n} % 19)",
    "UPDATE {o} orders SET id = id + 1 WHERE id % 6 = {n} % 6",
    "UPDATE {o} orders SET paid = {n} % 2, region = 'r' || {n} WHERE id % 5 = {n} % 5",
    "DELETE FROM lines WHERE id % 11 = {n} % 11",
    "DELETE FROM orders WHERE id % 13 = {n} % 13",
    "INSERT {o} INTO lines SELECT id, 'product ' || ({n} % 20 + 1), {n} % 7 FROM orders WHERE id % 8 = {n} % 8",
    "INSERT {o} INTO products (product, price) VALUES ('product ' || ({n} % 22), {n} % 60)",
    "INSERT {o} INTO orders (id, day, region) VALUES ({n} % 60, '2026-01-0' || (1 + {n} % 8), 'x')",
    "INSERT INTO products (product, price) VALUES ('product ' || ({n} % 24), 9) ON CONFLICT (product) DO UPDATE SET price = price + 1",
    "REPLACE INTO products (product, price) VALUES ('product ' || ({n} % 22), {n} % 60), ('product ' || ({n} % 20), 2)",
    "REPLACE INTO lines (rowid, id, product, pieces) SELECT rowid + 1, id, product, {n} % 9 FROM lines WHERE rowid % 15 = {n} % 15",
    "REPLACE INTO orders (id, day, region) VALUES ({n} % 50, '2026-02-02', 'y'), ({n} % 40, '2026-02-03', 'z')",
)


def written(live, source):
    """Some drawn statements of an application, and what it meets of them that is the capture's and not its own."""
    said, wrong = [], []
    with live.database.opened() as database:
        database.execute(f"PRAGMA recursive_triggers = {source.choice('0001')}")
        for _ in range(source.randint(1, 4)):
            said.append(source.choice(STATEMENTS).format(o=source.choice(CONFLICTS), n=source.randint(0, MOST)))
            try:
                database.execute(said[-1])
            except sqlite3.Error as told:
                wrong += [f"{said[-1]} was told {told}"] if "wh_" in str(told) else []
    return said, wrong


def mistakes(live, source):
    """What the first night after drawn statements leaves otherwise than the tables give, with all that was drawn."""
    made = [f"CREATE TRIGGER own{at} {said}" for at, said in enumerate(source.sample(TRIGGERS, source.randint(0, 5)))]
    wrong, drawn = live.fresh(*made), list(made)
    for _ in range(NIGHTS):
        said, told = written(live, source)
        drawn += said
        wrong += told + live.right()
        if wrong:
            return [f"{wrong[0]}, after {drawn}"[:3000]]
    return []


def drawn_mistakes(live, rounds, seed):
    """What is wrong with the smallest of so many rounds of nights after drawn statements."""
    return [f"{live.engine}: drawn statements: {text}" for text in smallest(lambda source: mistakes(live, source), rounds, f"{seed} triggers")]
