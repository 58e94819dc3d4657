"""How many rows of its tables a night reads where little changes: rows are looked up by indexes, whose text is of the database's own
collation, and where nothing changes nothing is read."""

import re

from trials.servers.databases import PostgreSQLDatabase, in_folder
from trials.servers.postgresql import without_psql
from trials.tables.cases import SHOP
from trials.tables.given_nights import lay, written

PRODUCTS, LINES = 2_000, 20_000
# Whoever reads more went through one of the large tables.
MOST = LINES // 2
MADE = """
CREATE TABLE products (product text NOT NULL, price bigint NOT NULL);
CREATE TABLE lines (id bigint NOT NULL, product text NOT NULL, pieces bigint NOT NULL);
"""
ROWS = f"""
ALTER TABLE products ADD PRIMARY KEY (product);
ALTER TABLE lines ADD PRIMARY KEY (id);
INSERT INTO products SELECT 'product ' || n, n FROM generate_series(1, {PRODUCTS}) AS n;
INSERT INTO lines SELECT n, 'product ' || 1 + n % {PRODUCTS}, n % 7 FROM generate_series(1, {LINES}) AS n;
"""
CHANGED = {
    "public": """INSERT INTO "products~changes" VALUES ('product 5', 5, -1), ('product 5', 6, 1);""",
    "wh": "UPDATE products SET price = 6 WHERE product = 'product 5';",
}
# A session hands over what it counted at most once a second, at the end of a statement: what it counted before is then no longer seen.
HANDED_OVER = "SELECT pg_sleep(1.1);"
READ = "SELECT coalesce(sum(seq_tup_read), 0), coalesce(sum(idx_tup_fetch), 0) FROM pg_stat_xact_user_tables WHERE schemaname = '{}' AND relname !~ '~'"
# A text of a table, which a script that is spoilt compares by its bytes.
BY_BYTES = re.compile(r't\d*\."product"(::text)?')


class Reads:
    """A night over tables of one's own, or over mirrors, in a database whose collation is not that of bytes."""

    def __init__(self, server, schema, words):
        self.database, self.schema, self.words = PostgreSQLDatabase(server, f"reads_{schema}", locale="C.UTF-8"), schema, words

    def script(self, folder, *words):
        made = written(*self.words, *words, folder)
        return without_psql(made.text) if not made.status else made.told

    def filled(self, folder):
        if self.schema == "public":
            self.database.asked(self.script(folder, "--create") + ROWS)
        else:
            self.database.asked(MADE + ROWS)
            self.database.asked(self.script(folder, "--capture"))
        self.database.asked(self.script(folder, "--open") + "ANALYZE;")

    def read(self, night):
        """How many rows a night reads one after the other, and how many by an index; it is rolled back."""
        self.database.asked(HANDED_OVER)
        *_, found = self.database.asked(night.replace("COMMIT;", "") + READ.format(self.schema) + ";")
        self.database.asked("ROLLBACK;")
        return found

    def mistakes(self):
        with in_folder() as folder:
            lay(folder, SHOP)
            self.filled(folder)
            night = self.script(folder)
        nothing = self.read(night)
        self.database.asked(CHANGED[self.schema])
        few, by_bytes = self.read(night), self.read(BY_BYTES.sub(r'\g<0> COLLATE "C"', night))
        wrong = [f"without changes it reads {nothing} rows"] if any(nothing) else []
        wrong += [f"with one price changed it reads {few[0]} rows one after the other"] if few[0] > MOST else []
        return wrong + ([] if by_bytes[0] > MOST else [f"not noticed: texts that are compared by bytes, {by_bytes}"])


def reads_mistakes(server):
    """What nights of both kinds read that they should not."""
    found = []
    for schema, words in (("public", ("--plain", "*")), ("wh", ("--database", "reads_wh", "--live"))):
        found += [f"{schema}: {text}" for text in Reads(server, schema, words).mistakes()]
    return found
