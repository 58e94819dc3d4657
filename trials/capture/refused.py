"""Rows of an application's that a night cannot take: it is refused with a word and the row, and goes on once the row is put right; and what SQLite
lets happen to triggers between nights."""

import sqlite3
import subprocess
from typing import NamedTuple

from trials.capture.application import stored, unlike
from trials.capture.case import each_of
from trials.ended import faults
from trials.servers.databases import SHELL
from trials.tables.given_nights import lay
from whview.catalogue.from_bundle import views_of


class Row(NamedTuple):
    """What makes a row that is refused, what is told of it besides the night's refusal, and what puts it right."""

    said: str
    told: str
    mended: str


MENDED_DAY, MENDED_PRICE = "UPDATE orders SET day = '2026-01-02' WHERE id = 3;", "UPDATE products SET price = 5 WHERE product = 'product 4';"
OF_SQLITE = {
    "a day with a time": Row("UPDATE orders SET day = '2026-01-02 10:00:00' WHERE id = 3;", "refused row of orders: id 3, day 'not written 0000-00-00: 2026-01-02 10:00:00'",
                             MENDED_DAY),
    "a day with a zone": Row("UPDATE orders SET day = '2026-01-02Z' WHERE id = 3;", "2026-01-02Z", MENDED_DAY),
    "a day that is none": Row("UPDATE orders SET day = '2026-02-31' WHERE id = 3;", "2026-02-31", MENDED_DAY),
    "a day that is told as a number": Row("UPDATE orders SET day = 20514 WHERE id = 3;", "20514", MENDED_DAY),
    "a moment with a T": Row("UPDATE orders SET at = '2026-01-02T10:00:00' WHERE id = 3;", "at 'not written 0000-00-00 00:00:00: 2026-01-02T10:00:00'",
                             "UPDATE orders SET at = '2026-01-02 10:00:00.25' WHERE id = 3;"),
    "a moment with a zone": Row("UPDATE orders SET at = '2026-01-02 10:00:00Z' WHERE id = 3;", "10:00:00Z", "UPDATE orders SET at = NULL WHERE id = 3;"),
    "a moment with an offset": Row("UPDATE orders SET at = '2026-01-02 10:00:00+02:00' WHERE id = 3;", "+02:00", "DELETE FROM orders WHERE id = 3;"),
    "a moment without seconds": Row("INSERT INTO orders (id, day, at) VALUES (700, '2026-01-02', '2026-01-02 10:00');", "10:00'", "DELETE FROM orders WHERE id = 700;"),
    "a price of three places": Row("UPDATE products SET price = 4.999 WHERE product = 'product 4';",
                                   "refused row of products: product 'product 4', price 'not of 2 places: 4.999'", MENDED_PRICE),
    "a price that is computed": Row("UPDATE products SET price = 0.1 + 0.2 WHERE product = 'product 4';", "not of 2 places", MENDED_PRICE),
    "a price beyond all digits": Row("UPDATE products SET price = 1e300 WHERE product = 'product 4';", "beyond 1.0e+300", MENDED_PRICE),
}


def printed(live):
    """What SQLite's own shell prints of a night, and says of it."""
    ran = subprocess.run(["sqlite3", "-bail", live.database.path], input=live.script, capture_output=True, text=True, timeout=60, check=False)
    return ran.stdout, ran.stderr


def row_mistakes(live):
    wrong = []
    for name, row in OF_SQLITE.items():
        faulty = live.fresh()
        live.asked(row.said)
        out, told = printed(live)
        faulty += [] if row.told in out and "of another kind" in told else [f"the night prints {out!r} and says {told!r}"]
        told = live.written("--capture", live.path).told
        faulty += [] if "cannot be captured" in told else [f"a capture of such a row is told {told!r}"]
        live.asked(row.mended)
        wrong += [f"{name}: {text}" for text in faulty + live.anew()]
    return wrong


# ---- triggers of SQLite between nights


def triggers_anew(live, meanwhile):
    """The triggers of the lines are dropped, and made again as they were."""
    with live.database.opened() as database:
        made = database.execute("SELECT name, sql FROM sqlite_master WHERE type = 'trigger' AND tbl_name = 'lines'").fetchall()
        for name, _ in made:
            database.execute(f'DROP TRIGGER "{name}"')
        database.executescript(meanwhile)
        for _, text in made:
            database.execute(text)


def anew_mistakes(live):
    """Triggers that are dropped and made anew: the night tells where rows changed meanwhile, and only there."""
    wrong = []
    for meanwhile, word in (("", "None"), ("DELETE FROM lines WHERE id = 5;", "changed unnoticed"), ("UPDATE lines SET pieces = 77 WHERE id = 5;", "changed unnoticed")):
        wrong += live.fresh()
        live.asked("UPDATE lines SET pieces = pieces + 1 WHERE id < 4;")
        triggers_anew(live, meanwhile)
        told = live.night()
        wrong += [] if word in str(told) else [f"{meanwhile!r} between triggers: the night was told {told!r}"]
        wrong += live.anew()
    return wrong


def without_database_mistakes(live):
    """A script that is made without a look at the tables refuses to go on where the schema changed, until they are captured once more."""
    wrong, words = live.fresh(), live.words("--live")
    live.script = live.alone("--live")
    live.asked("DELETE FROM lines WHERE id = 6;")
    wrong += faults(live.night())
    live.asked("CREATE TABLE elsewhere (x INT); DELETE FROM lines WHERE id = 7;")
    wrong += live.refuses("made without --database", "after a table has come ") + live.anew()
    live.script = words
    return wrong


CONFLICTS = (
    "INSERT OR IGNORE INTO products (product, price) VALUES ('product 1', 7); UPDATE OR ABORT products SET price = 8 WHERE product = 'product 1';"
    " INSERT OR FAIL INTO products (product, price) VALUES ('new', 1); UPDATE OR ROLLBACK lines SET pieces = 5 WHERE id < 9;"
    " UPDATE OR FAIL lines SET pieces = 5 WHERE id = 7; UPDATE OR IGNORE lines SET pieces = 5, id = id WHERE id < 9; DELETE FROM lines WHERE id = 7;"
    " INSERT INTO lines (rowid, id, product, pieces) VALUES (9001, 9, 'product 9', 1); UPDATE OR FAIL lines SET rowid = 9002 WHERE rowid = 9001;"
    " UPDATE OR ABORT lines SET rowid = 9001, pieces = 5 WHERE rowid = 9002; REPLACE INTO lines (rowid, id, product, pieces) VALUES (9001, 9, 'product 8', 2);"
)
BEFORE = (
    "CREATE TRIGGER a BEFORE UPDATE ON lines WHEN new.pieces = 5 BEGIN UPDATE lines SET pieces = old.pieces + 9, product = 'product 9' WHERE rowid = old.rowid; END;"
    " CREATE TRIGGER b BEFORE INSERT ON products BEGIN UPDATE products SET price = 77.25 WHERE product = new.product; END;"
    " CREATE TRIGGER c AFTER DELETE ON lines BEGIN UPDATE lines SET pieces = pieces + 1 WHERE id = old.id; END;"
)


def conflict_mistakes(live):
    """What statements of an application say of conflicts is said of the triggers' own statements too: none of them may fail by it."""
    wrong = []
    for made in ("", BEFORE):
        wrong += live.fresh(*([made] if made else []))
        try:
            live.asked(CONFLICTS)
        except sqlite3.Error as told:
            wrong.append(f"an application was told {told}")
        wrong += live.right()
    return wrong


# ---- numbers that leave 64 bits, and values that are no numbers, in PostgreSQL

SUMS = (
    "CREATE TABLE sums (id int PRIMARY KEY, region text NOT NULL, amount bigint NOT NULL, price numeric(10,2) NOT NULL, ends date NOT NULL);"
    " CREATE TABLE regions (region text PRIMARY KEY, factor bigint NOT NULL); INSERT INTO regions VALUES ('north', 2), ('south', 3);"
    " INSERT INTO sums SELECT i, CASE WHEN i % 2 = 0 THEN 'north' ELSE 'south' END, i * 10, i + 0.25, DATE '2026-01-01' + i FROM generate_series(1, 9) AS i;"
)
BASE = """
[[view]]
name = "sums"
columns = ["id", "region:text", "amount", "price", "ends"]
key = ["id"]
[[view]]
name = "regions"
columns = ["region:text", "factor"]
key = ["region"]
"""
LAST = '[[view]]\nname = "by_region"\nover = ["sums"]\ngroup = [["region", "sums.region"]]\ncount = "n"\nsum = [["amount", "sums.amount"]]\n'
OVER_IT = '[[view]]\nname = "total"\nover = ["by_region"]\ngroup = []\ncount = "n"\nsum = [["rows", "by_region.n"]]\n'
KEPT = '[[view]]\nname = "kept"\nover = ["sums"]\nkeep = [["id", "sums.id"], ["double", ["*", "sums.amount", 2]]]\n'
JOINED = ('[[view]]\nname = "joined"\nover = ["sums", "regions"]\njoin = [["sums.region", "regions.region"]]\ngroup = [["region", "sums.region"]]\ncount = "n"\n'
          'sum = [["amount", ["*", "sums.amount", "regions.factor"]]]\n')
PRICES = '[[view]]\nname = "prices"\nover = ["sums"]\nwhere = [">", "sums.price", 400]\ngroup = [["price", "sums.price"], ["ends", "sums.ends"]]\ncount = "n"\n'
SUMMED = '[[view]]\nname = "summed"\nover = ["sums"]\ngroup = [["region", "sums.region"]]\ncount = "n"\nsum = [["rest", ["-", 1000, "sums.price"]]]\n'
DAYS = '[[view]]\nname = "days"\nover = ["sums"]\nkeep = [["id", "sums.id"], ["next", ["+", "sums.ends", 1]]]\n'
LARGE = "UPDATE sums SET amount = 9223372036854775800 WHERE id = 4;"
NAN, ENDLESS = "UPDATE sums SET price = 'NaN' WHERE id = 5;", "UPDATE sums SET ends = '-infinity' WHERE id = 6;"
# A catalogue's views; what is written; what is told of the night, or nothing where it is carried out; and what puts it right.
NUMBERS = {
    "a sum that leaves 64 bits": (LAST, LARGE, "refused range by_region: in the group (region north) from sums (id 4)", "UPDATE sums SET amount = 1 WHERE id = 4;"),
    "a sum with a view over it": (LAST + OVER_IT, LARGE, "refused range by_region: in the group (region north) from sums (id 4)", "DELETE FROM sums WHERE id = 4;"),
    "a product that is kept": (KEPT, LARGE, "refused range kept: sums (id 4)", "UPDATE sums SET amount = -4611686018427387904 WHERE id = 4;"),
    "a product over two tables": (JOINED, LARGE, "refused range joined: in the group (region north) from sums (id 4), regions (region north)", "UPDATE sums SET amount = 1 WHERE id = 4;"),
    "the factor of a product": (JOINED, "UPDATE regions SET factor = 922337203685477580 WHERE region = 'south';", "from sums (id 9), regions (region south)",
                                "UPDATE regions SET factor = 4 WHERE region = 'south';"),
    "what is no number, and summed": (SUMMED, NAN, "refused number sums: a value that is no number, or without end, with which views compute: id 5",
                                      "UPDATE sums SET price = 5 WHERE id = 5;"),
    "what is no number, and compared": (PRICES, NAN + ENDLESS, "", ""),
    "a day without end, and one more": (DAYS, ENDLESS, "refused number sums: a value that is no number, or without end, with which views compute: id 6",
                                        "DELETE FROM sums WHERE id = 6;"),
    "a whole number as large as what stands for none": (LAST, "UPDATE sums SET amount = 9223372036854775806 - 600 WHERE id = 4; UPDATE sums SET amount = 9223372036854775806,"
                                                        " region = 'alone' WHERE id = 2;", "", ""),
}
# What the views have to have, from the tables.
BY_HAND = {
    "by_region": "SELECT region, count(*), sum(amount)::bigint FROM sums GROUP BY region", "total": "SELECT count(DISTINCT region), count(*) FROM sums",
    "kept": "SELECT id, amount * 2 FROM sums", "joined": "SELECT s.region, count(*), sum(amount * factor)::bigint FROM sums AS s JOIN regions USING (region) GROUP BY 1",
    "prices": "SELECT CASE WHEN price = 'NaN' THEN 9223372036854775806 ELSE (price * 100)::bigint END, CASE WHEN isfinite(ends) THEN ends - DATE '1970-01-01'"
              " ELSE -9223372036854775807 END, count(*) FROM sums WHERE price > 4.00 GROUP BY price, ends",
    "summed": "SELECT region, count(*), sum(1000 - price * 100)::bigint FROM sums GROUP BY region",
    "days": "SELECT id, ends - DATE '1970-01-01' + 1 FROM sums",
}


def filled(live, catalogue, *made):
    """The tables of sums, captured with their views: where the catalogue is, and what is told, or None."""
    path = lay(live.path / "numbers", catalogue)
    live.database.fresh()
    live.database.make([SUMS, *made])
    return path, [live.run(*words, path=path) for words in (["--capture"], ["--live", "--open"])]


def number_mistakes(live):
    """Nights, openings and captures of such numbers: refused with the rows, and as the tables have it once these are put right."""
    return [f"{name}: {text}" for name, row in NUMBERS.items() for text in number_mistakes_of(live, *row)]


def number_mistakes_of(live, views, said, word, mended):
    path, told = filled(live, BASE + views)
    wrong = faults(*told)
    live.asked(said)
    night = live.sure("--live", path).text
    told = live.database.run(night)
    wrong += [] if (word in (told or "") if word else not told) else [f"the night was told {told!r}"]
    live.asked(mended)
    wrong += faults(live.database.run(night) if word else None) or unlike_tables(live, BASE + views)
    return wrong + (opened_mistakes(live, BASE + views, said, word) if word else [])


def opened_mistakes(live, catalogue, said, word):
    """The same where the tables are captured and the views filled with such rows in them."""
    _, told = filled(live, catalogue, said)
    named, row = word.split(":")[0], word.rpartition("(id ")[2][:1] if "(id " in word else word[-1]
    wanted = "cannot be captured" if "number" in named else named if named.startswith("refused") else "refused range joined"
    return [] if wanted in str(told) and f"id {row}" in str(told) else [f"captured and opened with such rows: {told}"]


def later_mistakes(live):
    """A view that is added and computes with a column in whose mirror stands no number: it is not filled, until the tables are captured anew."""
    path, told = filled(live, BASE + LAST, NAN)
    wrong = faults(*told)
    lay(path, BASE + LAST + SUMMED)
    told = live.run("--capture", path=path)
    wrong += [] if "sums cannot be captured" in (told or "") else [f"a capture is told {told!r}"]
    live.asked("UPDATE sums SET price = 5 WHERE id = 5;")
    wrong += faults(live.run("--capture", path=path))
    told = live.run("--live", "--open", path=path)
    wrong += [] if "run --uncapture and --capture" in (told or "") else [f"an opening is told {told!r}"]
    wrong += faults(live.run("--uncapture", path=path), live.opened(path=path))
    return wrong + unlike_tables(live, BASE + LAST + SUMMED)


def unlike_tables(live, catalogue):
    """What the views have otherwise than the tables give them."""
    views = {view.name: [column for column, _ in view.columns] for view in views_of(catalogue) if view.over}
    return unlike(live.database, {name: (BY_HAND[name], stored(live.database, name, columns, False)) for name, columns in views.items()})


def unseen_mistakes(live):
    """Rows that are written with triggers off: no night tells, and a capture puts them right."""
    wrong = live.fresh()
    wrong += faults(live.database.by_shell(".dbconfig enable_trigger off\nDELETE FROM lines WHERE id = 5;\n", SHELL), live.night())
    wrong += [] if live.mistakes() else ["rows that are written with triggers off are seen"]
    return wrong + live.anew()


def near_mistakes(live):
    """A number by which a sum leaves 64 bits: the night is refused, and the row is printed."""
    wrong = live.fresh()
    live.asked("UPDATE lines SET pieces = 9223372036854775800 WHERE id = 5; UPDATE products SET price = 5 WHERE product = 'product 3';")
    out, told = printed(live)
    near = "row of lines with a number near the end of 64 bits, with which views compute: id 5, product "
    wrong += [] if near in out and "pieces 9223372036854775800" in out and "refused range sales" in told else [f"the night prints {out!r} and says {told!r}"]
    live.asked("UPDATE lines SET pieces = 1 WHERE id = 5;")
    out, told = printed(live)
    return wrong + ([f"a night prints {out!r} and says {told!r}"] if out or told else live.mistakes())


TRIED = {
    "postgresql": {"numbers": number_mistakes, "a view that comes later": later_mistakes},
    "sqlite": {"rows": row_mistakes, "triggers made anew": anew_mistakes, "without the database": without_database_mistakes, "conflicts": conflict_mistakes,
               "unseen": unseen_mistakes, "near the end": near_mistakes},
}


def mistakes(live):
    return each_of(live, TRIED[live.engine])
