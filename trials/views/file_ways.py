"""What a file whose views are taken does beside nights: views are taken again, scripts stop, values are none of their columns, and all is let go."""

import sqlite3
import tempfile
from argparse import Namespace
from contextlib import closing
from pathlib import Path

from trials.views.file_shop import DAYS, TABLES
from trials.views.kept_file import Broken, KeptFile, difference
from whview.sql.command import complete
from whview.sql.tokens import Unfit
from whview.views import take

VIEWS = {
    "by_city": "SELECT city, count(*) AS n, max(id) AS last FROM customers GROUP BY city",
    "dear": "SELECT id, customer, total * 2 AS twice, created FROM orders WHERE total > 5",
    "by_day": "SELECT date(created) AS day, count(*) AS n, sum(total) AS t FROM orders GROUP BY date(created)",
}
OTHERS = {
    "by_city": "SELECT city, count(*) AS n, max(id) AS last, sum(score) AS score FROM customers GROUP BY city",
    "dear": "SELECT id, customer, total * 3 AS twice FROM orders WHERE total > 4",
    "named": "SELECT upper(c.name) AS name, count(*) AS n FROM customers AS c JOIN orders AS o ON o.customer = c.id GROUP BY upper(c.name)",
}


def made(views, before=()):
    """The statements that make views in the place of others."""
    return "".join(f"DROP VIEW IF EXISTS {name};\n" for name in {**views, **dict.fromkeys(before)}) + "".join(f"CREATE VIEW {name} AS {query};\n" for name, query in views.items())


class Ways:
    """A shop in a file whose views are taken, and what is wrong with it."""

    def __init__(self, folder):
        self.kept, self.wrong = KeptFile(folder), []
        self.kept.said(TABLES + made(VIEWS))
        self.kept.take(list(VIEWS))

    def right(self, is_right, told):
        """Notes what is wrong where something is not right."""
        self.wrong += [] if is_right else [told]

    def same(self, when):
        """Notes what the kept views have otherwise."""
        self.wrong += [f"{when}: {each}" for each in self.kept.differences()]

    def fails(self, why, act):
        """Notes what goes through, or fails for another reason."""
        try:
            act()
        except (Broken, Unfit) as fault:
            self.right(why in str(fault), f"{fault}, and not {why}")
            return
        self.wrong.append(f"it goes through, where {why}")

    def names(self):
        """The names of all that stands in the file behind the word of the nights."""
        with closing(sqlite3.connect(self.kept.file)) as database:
            return [name for name, in database.execute("SELECT name FROM sqlite_master WHERE name LIKE 'wh\\_%' ESCAPE '\\'")]

    # ---- ways

    def strange(self):
        """A row with a value that is none of its column is refused and told, and the next night takes it once it is mended."""
        mends = {
            "UPDATE Customers SET score = 1.005 WHERE id = 3;": "score = 1", "UPDATE Customers SET boss = 'nobody' WHERE id = 3;": "boss = 2",
            "UPDATE orders SET created = 'now' WHERE id = 7;": "created = '2026-01-01 00:00:00'", "UPDATE orders SET total = 'much' WHERE id = 7;": "total = 2",
        }
        self.kept.said(made({**VIEWS, "bosses": "SELECT boss, sum(score) AS s FROM customers GROUP BY boss"}))
        self.kept.take([*VIEWS, "bosses"])
        for statement, mend in mends.items():
            self.kept.said(statement)
            self.fails("refused row", self.kept.night)
            table, place = ("Customers", 3) if "Customers" in statement else ("orders", 7)
            self.kept.said(f"UPDATE {table} SET {mend} WHERE id = {place};")
            self.kept.carried(self.kept.command(capture=True))
            self.kept.night()
            self.same(f"mended of {statement}")

    def again(self):
        """Views are taken again, others in their places; each stop leaves right rows."""
        self.kept.said(made(OTHERS, VIEWS) + DAYS["rows come, leave and change"])
        lines = take.taken(self.kept.words(views=",".join(OTHERS)))
        ends = [at for at, line in enumerate(lines, 1) if line == "COMMIT;"]
        self.kept.carried(lines[: ends[0]])
        # From here on they read as the views do.
        for begin, end in zip(ends, ends[1:]):
            self.kept.carried(lines[begin:end])
            self.wrong += [f"stopped behind {end} lines: {each}" for each in self.of_those()]
        self.kept.taken = list(OTHERS)
        self.same("taken again")
        self.right("wh_by_day" not in self.names(), "a view that is taken no more is still there")
        self.kept.said(DAYS["groups leave, and one value becomes the least"])
        self.kept.night()
        self.same("a night behind it")
        self.right(self.kept.check()[1] == 0, f"a check says {self.kept.check()[0]}")

    def of_those(self):
        """What the read views that there are have otherwise than the views."""
        names = set(self.names())
        with closing(sqlite3.connect(self.kept.file)) as database:
            return [each for view in OTHERS if f"wh_{view}" in names for each in difference(database, view)]

    def altered(self):
        """The schema changes: nights compare, and go on."""
        self.kept.said("ALTER TABLE orders ADD COLUMN more TEXT; CREATE INDEX by_state_of ON orders (state); UPDATE orders SET more = 'x', total = 8 WHERE id = 9;")
        self.kept.night()
        self.same("a column more")

    def places(self):
        """Nothing of others is taken away, and nothing is made of what has changed meanwhile."""
        other = complete(Namespace(engine="sqlite", database=str(self.kept.file), path=str(self.kept.place / "other"), views="open_orders"))
        self.fails("which this folder did not make", lambda: take.taken(other))
        other.schema, other.views = "more", "by_city"
        self.kept.said("CREATE VIEW more_by_city AS SELECT 1 AS one;")
        self.fails("did not make: drop it", lambda: take.taken(other))
        self.kept.said("DROP VIEW more_by_city;")
        lines = take.taken(other)
        self.kept.said("DROP VIEW by_city; CREATE VIEW by_city AS SELECT city FROM customers;")
        self.fails("is not what it was", lambda: self.kept.carried(lines))
        self.kept.said(made({"by_city": OTHERS["by_city"]}))
        self.kept.carried(take.taken(other))
        with closing(sqlite3.connect(self.kept.file)) as database:
            self.wrong += difference(database, "by_city", "more_")
        # Triggers of others that may be fired before a row changes have their own way of capturing it.
        self.kept.carried(self.kept.command(capture=True))
        self.kept.said("UPDATE Customers SET score = score * 2 WHERE id < 5;")
        self.kept.night()
        self.same("beside another warehouse")

    def let_go(self):
        """All that was made goes, and the application's tables stay."""
        self.kept.carried(self.kept.command(uncapture=True))
        self.right(self.names() == [], f"there is still {self.names()}")
        self.kept.said("UPDATE orders SET total = 1;")
        self.kept.take(list(OTHERS))
        self.same("taken once more")


def ways_mistakes():
    """What is wrong with these."""
    with tempfile.TemporaryDirectory() as folder:
        ways = Ways(Path(folder))
        tried = (ways.strange, ways.again, ways.altered, ways.places, ways.let_go)
        for way in tried:
            try:
                way()
            except (Broken, Unfit) as fault:
                ways.wrong.append(f"{way.__name__}: {fault}")
    return [each[:700] for each in ways.wrong], f"{len(tried)} ways of a file whose views are taken"
