"""Times nights over live tables, and over tables of one's own, beside what a good hand would write for the same night, and beside REFRESH,
on a PostgreSQL server of its own.

A million facts (or `--facts N`) with three dimensions, of which that of products has 200,000 rows, and four views: the facts joined with their
dimensions, and three summaries of that. There are 100 to 100,000 changes: half of them facts that get other pieces, a quarter that leave, a
quarter that come, and for each hundred a product whose price changes. The nights are that of `whview sql night --live`, and that of `whview sql night --plain
'*'` over the tables that `--create` makes; the hand's statements are in HAND below, over tables of the same rows; REFRESH is of materialized
views with keys. All are rolled back but for REFRESH, and printed are medians, the hand's and REFRESH's share, and of `--open` beside the first
filling of the materialized views. The server's memory is what PostgreSQL gives it by itself, a session's that of MEMORY.
"""

import statistics
import sys
import tempfile
from pathlib import Path

from trials.capture.places import LivePostgreSQL
from trials.servers.postgresql import Server, postgresql, without_psql
from trials.tables.given_nights import written
from whview.catalogue.from_bundle import views_of
from whview.catalogue.parts import Warehouse

ROUNDS = 3
CHANGES = (100, 1_000, 10_000, 100_000)
CATALOGUE = """
[[view]]
name = "sales"
columns = ["id", "shop", "product:text", "day", "pieces"]
key = ["id"]
[[view]]
name = "shops"
columns = ["shop", "region:text"]
key = ["shop"]
[[view]]
name = "products"
columns = ["product:text", "kind:text", "price"]
key = ["product"]
[[view]]
name = "days"
columns = ["day", "month"]
key = ["day"]
[[view]]
name = "sold"
over = ["sales", "shops", "products", "days"]
join = [["sales.shop", "shops.shop"], ["sales.product", "products.product"], ["sales.day", "days.day"]]
keep = [["id", "sales.id"], ["region", "shops.region"], ["kind", "products.kind"], ["month", "days.month"], ["cost", ["*", "sales.pieces", "products.price"]]]
[[view]]
name = "by_region"
over = ["sold"]
group = [["region", "sold.region"], ["month", "sold.month"]]
count = "n"
sum = [["cost", "sold.cost"]]
[[view]]
name = "by_kind"
over = ["sold"]
group = [["kind", "sold.kind"], ["month", "sold.month"]]
count = "n"
sum = [["cost", "sold.cost"]]
[[view]]
name = "by_both"
over = ["sold"]
group = [["region", "sold.region"], ["kind", "sold.kind"]]
count = "n"
sum = [["cost", "sold.cost"]]
"""
APPLICATION = """
CREATE TABLE shops (shop int PRIMARY KEY, region text NOT NULL);
CREATE TABLE products (product text PRIMARY KEY, kind text NOT NULL, price int NOT NULL);
CREATE TABLE days (day int PRIMARY KEY, month int NOT NULL);
CREATE TABLE sales (id int PRIMARY KEY, shop int NOT NULL, product text NOT NULL, day int NOT NULL, pieces int NOT NULL);
INSERT INTO shops SELECT i, 'region ' || i % 20 FROM generate_series(0, 199) AS i;
INSERT INTO products SELECT 'product ' || i, 'kind ' || i % 50, 100 + i FROM generate_series(0, 199999) AS i;
INSERT INTO days SELECT i, i / 30 FROM generate_series(0, 364) AS i;
INSERT INTO sales SELECT i, i * 7 % 200, 'product ' || i::bigint * 31 % 200000, i * 11 % 365, i % 9 FROM generate_series(1, {facts}) AS i;
ANALYZE;
"""
# A half of the changes are rows that change, of which each is two of the night's; a hundredth of all is products whose price changes.
CHANGED = """
UPDATE sales SET pieces = pieces + 1 WHERE id IN (SELECT i::bigint * 97 % {facts} FROM generate_series(1, {many} / 4) AS i);
DELETE FROM sales WHERE id IN (SELECT i::bigint * 89 % {facts} + 1 FROM generate_series(1, {many} / 4) AS i);
INSERT INTO sales SELECT (SELECT max(id) FROM sales) + i, i * 7 % 200, 'product ' || i * 31 % 200000, i * 11 % 365, i % 9 FROM generate_series(1, {many} / 4) AS i;
UPDATE products SET price = price + 1 WHERE product IN (SELECT 'product ' || i * 37 % 200000 FROM generate_series(1, {many} / 100) AS i);
"""
# The hand's tables: those of the application copied, the same view with its key, and the summaries.
BY_HAND = """
CREATE SCHEMA hand;
SET search_path = hand;
CREATE TABLE sales AS SELECT id::bigint, shop::bigint, product, day::bigint, pieces::bigint FROM public.sales;
ALTER TABLE sales ADD PRIMARY KEY (id);
CREATE INDEX ON sales (product);
CREATE INDEX ON sales (shop);
CREATE INDEX ON sales (day);
CREATE TABLE shops AS SELECT * FROM public.shops;
ALTER TABLE shops ADD PRIMARY KEY (shop);
CREATE TABLE products AS SELECT * FROM public.products;
ALTER TABLE products ADD PRIMARY KEY (product);
CREATE TABLE days AS SELECT * FROM public.days;
ALTER TABLE days ADD PRIMARY KEY (day);
CREATE TABLE sold AS SELECT s.id, h.region, p.kind, d.month, s.pieces * p.price AS cost FROM sales s JOIN shops h USING (shop)
 JOIN products p USING (product) JOIN days d USING (day);
ALTER TABLE sold ADD PRIMARY KEY (id);
CREATE TABLE by_region AS SELECT region, month, count(*) AS n, sum(cost)::bigint AS cost FROM sold GROUP BY region, month;
ALTER TABLE by_region ADD PRIMARY KEY (region, month);
CREATE TABLE by_kind AS SELECT kind, month, count(*) AS n, sum(cost)::bigint AS cost FROM sold GROUP BY kind, month;
ALTER TABLE by_kind ADD PRIMARY KEY (kind, month);
CREATE TABLE by_both AS SELECT region, kind, count(*) AS n, sum(cost)::bigint AS cost FROM sold GROUP BY region, kind;
ALTER TABLE by_both ADD PRIMARY KEY (region, kind);
ANALYZE;
"""
# What a good hand writes for a night of facts and products: what changes, what that comes to, the rows by their keys, and the groups.
HAND = """
BEGIN;
LOCK TABLE hand.sales, hand.products, hand.sold, hand.by_region, hand.by_kind, hand.by_both IN EXCLUSIVE MODE;
CREATE TEMPORARY TABLE net ON COMMIT DROP AS SELECT id, shop, product, day, pieces, sum("#")::bigint AS n FROM wh."sales~changes"
 GROUP BY id, shop, product, day, pieces HAVING sum("#") <> 0;
CREATE TEMPORARY TABLE prices ON COMMIT DROP AS SELECT product, kind, price, sum("#")::bigint AS n FROM wh."products~changes"
 GROUP BY product, kind, price HAVING sum("#") <> 0;
ANALYZE net; ANALYZE prices;
CREATE TEMPORARY TABLE more ON COMMIT DROP AS SELECT id, region, kind, month, cost, sum(n)::bigint AS n FROM (
 SELECT s.id, h.region, p.kind, d.month, s.pieces * p.price AS cost, s.n FROM net s
  JOIN hand.shops h USING (shop) JOIN hand.products p USING (product) JOIN hand.days d USING (day)
 UNION ALL SELECT s.id, h.region, p.kind, d.month, s.pieces * p.price AS cost, p.n FROM prices p
  JOIN hand.sales s USING (product) JOIN hand.shops h USING (shop) JOIN hand.days d USING (day)
 UNION ALL SELECT s.id, h.region, p.kind, d.month, s.pieces * p.price AS cost, s.n * p.n FROM prices p
  JOIN net s USING (product) JOIN hand.shops h USING (shop) JOIN hand.days d USING (day)) AS m
 GROUP BY id, region, kind, month, cost HAVING sum(n) <> 0;
ANALYZE more;
DELETE FROM hand.products AS t USING prices AS d WHERE t.product = d.product AND d.n < 0
 AND NOT EXISTS (SELECT 1 FROM prices AS e WHERE e.product = d.product AND e.n > 0);
INSERT INTO hand.products SELECT product, kind, price FROM prices WHERE n > 0
 ON CONFLICT (product) DO UPDATE SET kind = excluded.kind, price = excluded.price;
DELETE FROM hand.sales AS t USING net AS d WHERE t.id = d.id AND d.n < 0 AND NOT EXISTS (SELECT 1 FROM net AS e WHERE e.id = d.id AND e.n > 0);
INSERT INTO hand.sales SELECT id, shop, product, day, pieces FROM net WHERE n > 0
 ON CONFLICT (id) DO UPDATE SET shop = excluded.shop, product = excluded.product, day = excluded.day, pieces = excluded.pieces;
DELETE FROM hand.sold AS t USING more AS d WHERE t.id = d.id AND d.n < 0 AND NOT EXISTS (SELECT 1 FROM more AS e WHERE e.id = d.id AND e.n > 0);
INSERT INTO hand.sold SELECT id, region, kind, month, cost FROM more WHERE n > 0
 ON CONFLICT (id) DO UPDATE SET region = excluded.region, kind = excluded.kind, month = excluded.month, cost = excluded.cost;
INSERT INTO hand.by_region AS t SELECT region, month, sum(n), sum(n * cost) FROM more GROUP BY region, month
 ON CONFLICT (region, month) DO UPDATE SET n = t.n + excluded.n, cost = t.cost + excluded.cost;
DELETE FROM hand.by_region WHERE n = 0;
INSERT INTO hand.by_kind AS t SELECT kind, month, sum(n), sum(n * cost) FROM more GROUP BY kind, month
 ON CONFLICT (kind, month) DO UPDATE SET n = t.n + excluded.n, cost = t.cost + excluded.cost;
DELETE FROM hand.by_kind WHERE n = 0;
INSERT INTO hand.by_both AS t SELECT region, kind, sum(n), sum(n * cost) FROM more GROUP BY region, kind
 ON CONFLICT (region, kind) DO UPDATE SET n = t.n + excluded.n, cost = t.cost + excluded.cost;
DELETE FROM hand.by_both WHERE n = 0;
DELETE FROM wh."sales~changes";
DELETE FROM wh."products~changes";
"""
# The tables of one's own: those that `--create` makes, with the rows of the application and what was captured.
BASE = ("sales", "shops", "products", "days")
OF_ONES_OWN = ("--schema", "own", "--plain", "*")
SOLD = (
    "SELECT s.id, h.region, p.kind, d.month, s.pieces * p.price AS cost FROM sales s"
    " JOIN shops h USING (shop) JOIN products p USING (product) JOIN days d USING (day)"
)
# The groups of each summary.
GROUPS = {"by_region": "region, month", "by_kind": "kind, month", "by_both": "region, kind"}
# The query and the key of each view.
MATERIALIZED = {"sold": (SOLD, "id")} | {
    name: (f"SELECT {groups}, count(*) AS n, sum(cost) AS cost FROM m_sold GROUP BY {groups}", groups) for name, groups in GROUPS.items()
}
MEMORY = "SET work_mem = '64MB'; SET temp_buffers = '64MB'; SET maintenance_work_mem = '64MB'; SET max_parallel_workers_per_gather = 0;"


class OfItsOwn(Server):
    """A server whose buffers are as many as PostgreSQL has by itself."""

    settings = Server.settings.replace("shared_buffers=32MB", "shared_buffers=128MB")


class Beside:
    """The tables of the application, those of the night and the hand's."""

    def __init__(self, server, folder, facts):
        self.database, self.folder, self.facts = LivePostgreSQL(server), Path(folder), facts
        words = Warehouse(views_of(CATALOGUE))
        (self.folder / "catalogue.toml").write_text(CATALOGUE)
        (self.folder / "strategy.txt").write_bytes(words.listed(words.one_way()).partition(b"\n")[2])
        self.process = self.database.asked("SELECT pg_backend_pid();")[0]
        self.database.asked(MEMORY + APPLICATION.format(facts=facts))

    def live(self, *words):
        return self.script("--database", self.database.name, *words)

    def script(self, *words):
        found = written(*words, self.folder)
        if found.status:
            sys.exit(f"tools/bench: {found.told}")
        return found.text

    def spent(self):
        """The seconds of a processor that the session's server process has taken."""
        return int(Path(f"/proc/{self.process}/schedstat").read_text().split()[0]) / 1e9

    def timed(self, text):
        """The seconds of a processor that statements take in the session; what else the machine does is not in them."""
        began = self.spent()
        self.database.asked(without_psql(text))
        return self.spent() - began

    def prepare(self):
        """Captures and opens, makes the materialized views, the hand's tables and those of one's own; the seconds of all but the hand's."""
        captured = self.timed(self.live("--capture"))
        opened = self.timed(self.live("--live", "--open"))
        views = [f"CREATE MATERIALIZED VIEW m_{name} AS {query}; CREATE UNIQUE INDEX ON m_{name} ({key});" for name, (query, key) in MATERIALIZED.items()]
        made = sum(map(self.timed, views))
        self.database.asked(BY_HAND + "RESET search_path;" + MEMORY)
        return captured, opened, made, self.prepare_own()

    def prepare_own(self):
        """The tables of one's own; the seconds of opening them."""
        self.database.asked("CREATE SCHEMA own;")
        self.timed(self.script("--create", *OF_ONES_OWN))
        self.database.asked("".join(f"INSERT INTO own.{name} SELECT * FROM {name};" for name in BASE) + "ANALYZE;")
        return self.timed(self.script("--open", *OF_ONES_OWN))

    def refreshed(self, rounds):
        refresh = "".join(f"REFRESH MATERIALIZED VIEW m_{name};" for name in MATERIALIZED)
        return statistics.median(self.timed(refresh) for _ in range(rounds))

    def nights(self, many, rounds):
        """The seconds of the night over live tables, of that over one's own, and the hand's, by turns, each rolled back."""
        changed = CHANGED.format(many=many, facts=self.facts)
        own = "".join(f'INSERT INTO own."{name}~changes" SELECT * FROM wh."{name}~changes"; ANALYZE own."{name}~changes";' for name in BASE)
        self.database.asked("BEGIN;" + changed + 'COMMIT; ANALYZE wh."sales~changes";' + own)
        live, of_own = self.live("--live"), self.script(*OF_ONES_OWN)
        texts = (live.replace("COMMIT;", ""), of_own.replace("COMMIT;", ""), HAND)
        found = [[] for _ in texts]
        for _ in range(rounds):
            for text, seconds in zip(texts, found):
                seconds.append(self.timed(text))
                self.database.asked("ROLLBACK;")
        self.timed(HAND.replace('DELETE FROM wh."sales~changes";', "").replace('DELETE FROM wh."products~changes";', "") + "COMMIT;")
        self.timed(live)
        self.timed(of_own)
        self.same("wh")
        self.same("own")
        return [statistics.median(seconds) for seconds in found]

    def same(self, schema):
        """Ends where a night and the hand came to other rows."""
        for name in ("sold", "by_region", "by_kind", "by_both"):
            columns = ", ".join(column for column, _ in next(view for view in views_of(CATALOGUE) if view.name == name).columns)
            there, by_hand = (f"SELECT {columns} FROM {schema}.{name}" for schema in (schema, "hand"))
            other = self.database.asked(f"SELECT count(*) FROM (({there} EXCEPT {by_hand}) UNION ALL ({by_hand} EXCEPT {there})) AS g;")
            if other != [0]:
                sys.exit(f"tools/bench: {schema}.{name} has {other[0]} other rows than the hand's")


def measure(asked):
    with OfItsOwn(postgresql()) as server, tempfile.TemporaryDirectory() as folder:
        import os

        os.environ.update(PGHOST=str(server.folder), PGUSER="postgres")
        beside = Beside(server, folder, asked.facts)
        captured, opened, made, own = beside.prepare()
        times, parts = f"--capture {captured:.1f} s, --open {opened:.1f} s, of one's own tables {own:.1f} s", f"{opened / made:.2f} and {own / made:.2f}"
        print(f"hand: {times}, materialized views with keys {made:.1f} s: {parts}", flush=True)
        refreshed = beside.refreshed(asked.rounds)
        for many in CHANGES:
            night, own, hand = beside.nights(many, asked.rounds)
            times = f"night {night:.3f} s, over one's own tables {own:.3f} s, by hand {hand:.3f} s, REFRESH {refreshed:.3f} s"
            parts = f"{night / hand:.2f} and {own / hand:.2f} of the hand's, {night / refreshed:.3f} and {own / refreshed:.3f} of REFRESH"
            print(f"hand: {many} changes: {times}: {parts}", flush=True)
