"""Tables that --create makes of a catalogue with keys, opened and after a night: what stands in them is worked by hand."""

from types import SimpleNamespace
from typing import NamedTuple

from whview.sql.carry import Night, carry
from whview.sql.catalogue import Catalogue
from whview.sql.comments import Comments

SOLD = """@catalogue
[[view]]
name = "lines"
columns = ["line", "product:text", "pieces"]
key = ["line"]
[[view]]
name = "products"
columns = ["product:text", "price"]
key = ["product"]
[[view]]
name = "sold"
over = ["lines", "products"]
join = [["lines.product", "products.product"]]
keep = [["line", "lines.line"], ["product", "lines.product"], ["cost", ["*", "lines.pieces", "products.price"]]]
[[view]]
name = "sums"
over = ["sold"]
group = [["product", "sold.product"]]
count = "n"
sum = [["cost", "sold.cost"]]
@strategy
comp sold from lines
inst lines
comp sold from products
inst products
comp sums from sold
inst sold
inst sums
"""
PRODUCTS = "INSERT INTO products (product, price) VALUES ('ale', 3), ('jam', 5);"
LINES = "INSERT INTO lines (line, product, pieces) VALUES (1, 'ale', 2), (2, 'ale', 1), (3, 'jam', 4);"
ONCE_MORE = "INSERT INTO lines (line, product, pieces) VALUES (3, 'jam', 4);"
WITHOUT_KEY = "DROP TABLE lines; CREATE TABLE lines (line bigint NOT NULL, product text NOT NULL, pieces bigint NOT NULL);"
# Line 2 is of 6 pieces then, and ale costs 4.
CHANGED = """INSERT INTO "lines~changes" (line, product, pieces, "#") VALUES (2, 'ale', 1, -1), (2, 'ale', 6, 1);
INSERT INTO "products~changes" (product, price, "#") VALUES ('ale', 3, -1), ('ale', 4, 1);"""
ROWS = ('"sold"', ["line", "product", "cost", '"#"'])
SUMS = ('"sums"', ["product", "n", "cost"])
FILLED = [[1, "ale", 6, 1], [2, "ale", 3, 1], [3, "jam", 20, 1]]
ABOUT = "ALTER TABLE sold ADD about text NOT NULL DEFAULT 'none'; UPDATE sold SET about = 'long' WHERE line = 2;"
TRIGGER = "CREATE FUNCTION f() RETURNS trigger LANGUAGE plpgsql AS $f$ BEGIN RETURN NEW; END $f$; CREATE TRIGGER q BEFORE INSERT ON sold FOR EACH ROW EXECUTE FUNCTION f();"
HEIR = "CREATE TABLE more () INHERITS (lines); INSERT INTO more VALUES (3, 'jam', 4);"


class Case(NamedTuple):
    """What is made before and after the views are filled; a word of the refusal, or None; what is asked after the night, and the rows."""

    before: list
    after: list
    asked: tuple
    rows: list
    told: str | None = None


CASES = {
    "rows of a joined view are added up": Case([LINES, PRODUCTS], [], ROWS, FILLED),
    "groups of a summary": Case([LINES, PRODUCTS], [], SUMS, [["ale", 2, 9], ["jam", 1, 20]]),
    "a key stands once in a joined view": Case([LINES, PRODUCTS], ["INSERT INTO sold VALUES (1, 'ale', 7, 1);"], ROWS, FILLED, "unique"),
    "a key stands once in a table without counts": Case([LINES, PRODUCTS], [ONCE_MORE], ROWS, FILLED, "unique"),
    "a row stands twice where there is no key": Case([WITHOUT_KEY, LINES, PRODUCTS, ONCE_MORE], [], ROWS, [*FILLED[:2], [3, "jam", 20, 2]]),
    "rows change": Case([LINES, PRODUCTS], [CHANGED], ROWS, [[1, "ale", 8, 1], [2, "ale", 24, 1], FILLED[2]]),
    "groups change": Case([LINES, PRODUCTS], [CHANGED], SUMS, [["ale", 2, 32], ["jam", 1, 20]]),
}
OF_POSTGRESQL = {
    "a row of a joined view that changes keeps its other columns": Case(
        [LINES, PRODUCTS], [ABOUT, CHANGED], ('"sold"', ["line", "cost", "about"]), [[1, 8, "none"], [2, 24, "long"], [3, 20, "none"]]
    ),
    "a row stands once more in an heir": Case([LINES, HEIR, PRODUCTS], [], ROWS, [*FILLED[:2], [3, "jam", 20, 2]]),
    "views with a trigger are filled apart": Case([LINES, PRODUCTS, TRIGGER], [CHANGED], ROWS, [[1, "ale", 8, 1], [2, "ale", 24, 1], FILLED[2]]),
}


def ran(engine, case):
    catalogue = Catalogue(SOLD)
    script = carry(Night(catalogue, frozenset((0, 1))), engine.dialect)
    comment = lambda: Comments(SimpleNamespace(**vars(catalogue))).short
    engine.fresh()
    told = engine.run([*script.creation(), *case.before]) or engine.run(script.open(comment()))
    told = told or engine.run(case.after) or engine.run(script.night(catalogue.correct(), comment()))
    return told, sorted(map(list, engine.contents([case.asked])[0]))


def mistakes(engine):
    """The cases that an engine does otherwise."""
    wrong, name = [], engine.dialect.engine
    for title, case in {**CASES, **(OF_POSTGRESQL if name == "postgresql" else {})}.items():
        told, rows = ran(engine, case)
        if rows != case.rows or (case.told not in told.lower() if told and case.told else told != case.told):
            wrong.append(f"{name}, {title}: {told!r}, and {rows}")
    return wrong
