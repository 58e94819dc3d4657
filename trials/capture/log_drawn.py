"""Drawn statements over tables that are captured from the log, beside columns of all sorts: whatever stands in them, what is captured is told from it."""

import random

# Texts like what the log writes, and what else a text may have.
PIECES = (
    "'", "''", "a b", " new-tuple: id[integer]:1", "]: ", "x[text]:'y'", "null", "unchanged-toast-datum", "\n", "\r\n", "\t", "\\", "\\'", "é€𝄞", "table public.lines: DELETE:"
    " id[integer]:1", ": TRUNCATE: (no-flags)", "COMMIT", "BEGIN", "(no-tuple-data)", "\x01", "$night$", '"', "old-key: ",
)
KINDS = (
    """CREATE TYPE sort AS (a int, "b c" text, d numeric); CREATE DOMAIN shorter AS text CHECK (length(VALUE) < 100000); CREATE TYPE few AS ENUM ('x', 'y''z', ']: q');"""
    " ALTER TABLE orders ALTER region TYPE text;"
)
COLUMNS = {
    "numeric": ("'NaN'", "'Infinity'", "1.50", "-0", "1e30", "NULL"), "float8": ("'NaN'", "'-Infinity'", "1.5e-300"), "bytea": ("convert_to({text}, 'UTF8')",),
    "text[]": ("ARRAY[{text}, NULL, {text}]",), "jsonb": ("to_jsonb(ltrim({text}, E'\\x01')::text)", "NULL"), "sort": ("ROW(1, {text}, 'NaN')::sort",),
    "sort[]": ("ARRAY[ROW(2, {text}, 3)::sort]",), "int4range": ("'[1,5)'", "'empty'"), "interval": ("'-3 mons 04:05:06.7'",), "shorter": ("{text}",),
    '"char"': ("' '", "''''"), "xml": ("'<a b=\"x\">y</a>'",), "bit varying(9)": ("B'0101'", "B''"), "few": ("'x'", "'y''z'", "']: q'"), "money": ("'12.5'",),
    "point": ("'(1,2)'",), "boolean": ("TRUE", "NULL"), "timestamptz": ("'2026-01-01 BC'",), "char(5)": ("'a'", "' '"), "inet": ("'::1/64'",), "text": ("{text}", "NULL"),
}
STATEMENTS = (
    "UPDATE lines SET {sets} WHERE id = {id};", "UPDATE lines SET {sets}, pieces = (pieces + 1) % 50 WHERE id = {id};", "UPDATE orders SET {sets} WHERE id = {id};",
    "UPDATE orders SET {sets}, paid = NOT paid WHERE id = {id};", "UPDATE orders SET {sets}, region = {text} WHERE id = {id};",
    "DELETE FROM lines WHERE id = {id} AND pieces % 3 = 1;", "INSERT INTO lines (id, product, pieces) VALUES ({id}, left({text}, 60) || 'p', 3);",
    "BEGIN; UPDATE orders SET id = id + 1000 WHERE id = {id}; UPDATE orders SET {sets}, region = NULL WHERE id = {id} + 1000; UPDATE orders SET id = id - 1000 WHERE id > 999; COMMIT;",
    "INSERT INTO products (product, price, about) VALUES ({text}, 4, {text}) ON CONFLICT (product) DO UPDATE SET about = {text}; UPDATE products SET about = {text} WHERE product LIKE '%{id}%';",
)


class Drawn:
    def __init__(self, seed):
        self.source = random.Random(seed)

    def text(self):
        """A literal, now and then of a text that is stored apart from its row."""
        said = "".join(self.source.choice(PIECES) for _ in range(self.source.randrange(4))) + self.source.choice(["", "", "", "", "x" * 9000, "'" * 9000])
        return "'" + said.replace("'", "''") + "'"

    def sets(self):
        """Other values of some columns, which are numbered."""
        kinds = list(COLUMNS.values())
        some = self.source.sample(range(len(kinds)), self.source.randrange(1, 5))
        return ", ".join(f"c{at} = {self.source.choice(kinds[at]).replace('{text}', self.text())}" for at in some)

    def statement(self):
        said = self.source.choice(STATEMENTS).replace("{id}", str(self.source.randrange(1, 41))).replace("{sets}", self.sets())
        parts = said.split("{text}")
        return parts[0] + "".join(self.text() + part for part in parts[1:])


def made():
    """The columns beside those that are captured, of which some are never stored within their rows."""
    added = "".join(f", ADD c{at} {kind}" for at, kind in enumerate(COLUMNS))[2:]
    apart = ", ".join(f"ALTER c{at} SET STORAGE EXTERNAL" for at, kind in enumerate(COLUMNS) if kind in ("bytea", "shorter", "text"))
    return [KINDS, *(f"ALTER TABLE {table} {added}; ALTER TABLE {table} {apart};" for table in ("lines", "orders")), "ALTER TABLE orders ALTER region SET STORAGE EXTERNAL;"]


def mistakes(live, nights, seed, many=60):
    wrong, drawn = live.fresh(*made()), Drawn(seed)
    for number in range(nights):
        for _ in range(many):
            live.asked(drawn.statement())
        told = live.night()
        wrong += [f"drawn night {number}: {each}"[:600] for each in ([told] if told else live.mistakes())]
    return wrong + live.checked()
