"""Catalogues that change while tables stay captured: views that come, go or are defined anew, columns that come into a mirror or leave it. What was
not changed keeps its rows, no change is lost, and nights go on."""

import re
import sqlite3
from collections import Counter
from typing import NamedTuple

from trials.capture.application import CATALOGUE, EXPECTED, LEAST, SALES, Live, stored, unlike
from trials.capture.case import each_case, each_of
from trials.capture.cases import NEW_LINES, NEW_ORDER
from trials.capture.writers_beside import WRITER
from trials.ended import faults
from trials.servers.beside import Beside
from trials.servers.postgresql import Broken
from trials.tables.given_nights import lay
from whview.catalogue.from_bundle import views_of


class Changed(NamedTuple):
    """What is put in the place of what in the catalogue; what of its views comes to something else, as queries over the application's tables for
    each engine, where {days}, {seconds} and {cents} stand for how it writes these; the views that keep their rows; what the application does before."""

    edits: tuple
    expected: dict
    kept: tuple
    before: str = ""


SAID = {
    "postgresql": {"days": "({} - DATE '1970-01-01')", "cents": "({} * 100)::bigint", "seconds": f"coalesce(floor(extract(epoch FROM {{}}))::bigint, {LEAST})"},
    "sqlite": {"days": "(unixepoch({}) / 86400)", "cents": "CAST(round({} * 100) AS INTEGER)", "seconds": f"coalesce(unixepoch({{}}), {LEAST})"},
}
BY_DAY = """[[view]]
name = "by_day"
over = ["orders", "lines"]
join = [["orders.id", "lines.id"]]
group = [["day", "orders.day"]]
count = "lines"
"""
MOMENTS = CATALOGUE[CATALOGUE.index('[[view]]\nname = "moments"') :]
PLACED = """where = ["<>", "orders.region", { text = '\\N' }]
keep = [["region", "orders.region"], ["id", "orders.id"], ["double", ["*", "orders.paid", 2]]]"""
ALL = ("sales", "daily", "placed", "moments")


def without(*names):
    return tuple(name for name in ALL if name not in names)


CASES = {
    "a view comes": Changed(
        ((MOMENTS, MOMENTS + BY_DAY),), {"by_day": "SELECT {days:o.day}, count(*) FROM orders AS o JOIN lines AS l ON l.id = o.id GROUP BY o.day"}, ALL,
    ),
    "a view goes": Changed(((MOMENTS, ""),), {}, without("moments")),
    "a view is defined anew": Changed(
        ((PLACED, PLACED.replace("where = ", "where = ['all', ['>', 'orders.id', 9], ").replace("}]\n", "}]]\n")),),
        {"placed": "SELECT region, id, CAST(paid AS int) * 2 FROM orders WHERE region IS NOT NULL AND id > 9"}, without("placed"),
    ),
    "a view over which another one is": Changed(
        ((', { text = \'\\N\' }], ["<>", "products.price"', ', { text = \'\\N\' }], [">", "lines.pieces", 2], ["<>", "products.price"'),),
        {"sales": "SELECT {days:o.day}, o.region, CAST(o.paid AS int), l.product, l.pieces * {cents:p.price}" + SALES + " AND l.pieces > 2",
         "daily": "SELECT {days:o.day}, o.region, count(*), sum(l.pieces * {cents:p.price}), sum(CAST(o.paid AS int))" + SALES + " AND l.pieces > 2"
         " GROUP BY o.day, o.region"}, ("placed", "moments"),
    ),
    "a view gets other columns": Changed(
        ((', ["double", ["*", "orders.paid", 2]]]', ', ["day", "orders.day"]]'), (', ["paid", "sales.paid"]]', ', ["double", ["*", 2, "sales.cost"]]]')),
        {"placed": "SELECT region, id, {days:day} FROM orders WHERE region IS NOT NULL",
         "daily": "SELECT {days:o.day}, o.region, count(*), sum(l.pieces * {cents:p.price}), sum(2 * l.pieces * {cents:p.price})" + SALES
         + " GROUP BY o.day, o.region"}, ("sales", "moments"),
    ),
    "a column comes into a mirror": Changed(
        (('"paid", "region:text"]', '"paid", "region:text", "note:text"]'), ('nulls = ["at", "region"]', 'nulls = ["at", "region", "note"]'),
         (', ["double", ["*", "orders.paid", 2]]]', ', ["note", "orders.note"]]')),
        {"orders": "SELECT id, {days:day}, {seconds:at}, CAST(paid AS int), coalesce(region, '\\N'), coalesce(note, '\\N') FROM orders",
         "placed": "SELECT region, id, coalesce(note, '\\N') FROM orders WHERE region IS NOT NULL"},
        without("placed"), before="UPDATE orders SET note = 'note ' || id WHERE id % 3 = 0;",
    ),
    "a column comes into a mirror without a key": Changed(
        (('name = "lines"\ncolumns = ["id", "product:text", "pieces"]',
          'name = "lines"\ncolumns = ["id", "colour:text", "product:text", "pieces"]\nnulls = ["colour"]'),),
        {"lines": "SELECT id, coalesce(colour, '\\N'), product, pieces FROM lines"}, ALL,
        before="ALTER TABLE lines ADD COLUMN colour varchar(9); UPDATE lines SET colour = 'red' WHERE pieces > 4;"
        " INSERT INTO lines (id, product, pieces, colour) SELECT id, product, pieces, 'blue' FROM lines WHERE pieces = 2;",
    ),
    "a column leaves a mirror": Changed((('"day", "at", "paid"', '"day", "paid"'), ('nulls = ["at", "region"]', 'nulls = ["region"]'), (MOMENTS, "")),
                                        {"orders": "SELECT id, {days:day}, CAST(paid AS int), coalesce(region, '\\N') FROM orders"}, without("moments")),
    "a column leaves a mirror without a key": Changed(
        (('"product:text", "pieces"]', '"product:text"]'), ('["*", "lines.pieces", "products.price"]', '["*", 1, "products.price"]')),
        {"lines": "SELECT id, product FROM lines", "sales": "SELECT {days:o.day}, o.region, CAST(o.paid AS int), l.product, {cents:p.price}" + SALES,
         "daily": "SELECT {days:o.day}, o.region, count(*), sum({cents:p.price}), sum(CAST(o.paid AS int))" + SALES + " GROUP BY o.day, o.region"},
        ("placed", "moments"),
    ),
    "a table comes": Changed(
        ((MOMENTS, MOMENTS + '[[view]]\nname = "codes"\ncolumns = ["a", "b:text"]\n' + BY_DAY.replace('["orders", "lines"]', '["orders", "codes"]')
          .replace('"lines.id"', '"codes.a"')),),
        {"codes": "SELECT a, b FROM codes", "by_day": "SELECT {days:o.day}, count(*) FROM orders AS o JOIN codes AS c ON c.a = o.id GROUP BY o.day"},
        ALL, before="CREATE TABLE codes (a int NOT NULL, b varchar(9) NOT NULL); INSERT INTO codes VALUES (3, 'x'), (4, 'y'), (3, 'x');",
    ),
    "a table goes": Changed(((re.compile(r'\[\[view\]\]\nname = "products".*?(?=\[\[view\]\]\nname = "placed")', re.DOTALL), ""),), {}, ("placed", "moments")),
}
# What an application does before the catalogue changes, whose night has run; what waits then; and what it does afterwards.
FIRST = "UPDATE lines SET pieces = pieces + 1 WHERE id < 5; DELETE FROM orders WHERE id = 11;"
WAITING = NEW_ORDER + "INSERT INTO lines (id, product, pieces) VALUES (900, 'product 2', 3), (3, 'product 4', 4);" + (
    "UPDATE orders SET region = 'region 8' WHERE id = 6; DELETE FROM orders WHERE id = 12; UPDATE orders SET note = 'new' WHERE id IN (7, 9);"
    " DELETE FROM lines WHERE id = 5 AND product = 'product 5';"
)
THEN = "UPDATE orders SET note = 'then', paid = NOT paid WHERE id < 9; UPDATE lines SET pieces = pieces + 1 WHERE id > 30; DELETE FROM lines WHERE id = 8;"


def said(engine, query):
    """A query over the application's tables in the words of an engine."""
    return re.sub(r"\{(\w+):([\w.]+)\}", lambda found: SAID[engine][found[1]].format(found[2]), query)


class Catalogue(Live):
    """The application's tables with a changed catalogue, which has a folder of its own."""

    def __init__(self, live, changed, name="changed"):
        text = CATALOGUE
        for old, new in changed.edits:
            text, many = re.subn(old if isinstance(old, re.Pattern) else re.escape(old), lambda _, new=new: new, text)
            if not many:
                raise ValueError(f"{old!r} is not in the catalogue")
        views = views_of(text)
        self.database, self.engine, self.path, self.changed = live.database, live.engine, lay(live.path / name, text), changed
        self.columns = {view.name: [name for name, _ in view.columns] for view in views}
        self.summaries = {view.name for view in views if view.over and view.keep is None}

    def carried(self, *words):
        """What a script is told, or what kept it from being written."""
        return self.tried(*words, self.path)

    def nights(self):
        return faults(self.carried("--live"))

    def expected(self, name):
        own = self.changed.expected.get(name)
        return said(self.engine, own) if own else EXPECTED[self.engine][name]

    def stored(self, name):
        return stored(self.database, name, self.columns[name], name not in self.summaries)

    def mistakes(self):
        """What is otherwise than the application's tables give it."""
        found = []
        for name in self.columns:
            try:
                found += unlike(self.database, {name: (self.expected(name), self.stored(name))})
            except (Broken, sqlite3.Error) as fault:
                found.append(f"{name} cannot be read: {fault}"[:300])
        return found

    def contents(self, names):
        queries = [f"SELECT * FROM {self.database.table(name)}" for name in names]
        return dict(zip(names, map(Counter, self.database.answers(*queries))))

    def checked(self, when):
        found = self.written("--check", self.path)
        return [f"{when} a check told {found.text}{found.told}"] if found.status else []


ALL_OF_IT = ("--capture", "--drop", "--live", "--open", "--changed")


def changed_mistakes(live, changed):
    """What is wrong after a catalogue changed."""
    wrong = live.fresh(*([changed.before] if changed.before else []))
    catalogue = Catalogue(live, changed)
    live.asked(FIRST)
    wrong += [f"the night before: {told}" for told in faults(live.night())]
    live.asked(WAITING)
    kept = catalogue.contents(changed.kept)
    wrong += [f"the script was told {told}" for told in faults(catalogue.carried(*ALL_OF_IT))]
    wrong += [f"{name} did not keep its rows" for name, rows in catalogue.contents(changed.kept).items() if rows != kept[name]]
    wrong += catalogue.checked("after it") + index_mistakes(catalogue)
    if "note" in catalogue.columns.get("orders", []) and live.pending() > 20:
        wrong.append(f"{live.pending()} changes wait, where 9 rows of orders and lines changed")
    for said_then in ("", THEN):
        if said_then:
            live.asked(said_then)
        wrong += catalogue.nights() or catalogue.mistakes()
    return wrong + catalogue.checked("after the nights") + gone_mistakes(catalogue) + again_mistakes(catalogue)


def index_mistakes(catalogue):
    """A table that a view is joined with and that has no index or key which begins with the column, of tables whose views came or changed."""
    if catalogue.engine == "sqlite" or "by_day" not in catalogue.columns or "codes" in catalogue.columns:
        return []
    asked = "SELECT 1 FROM pg_indexes WHERE schemaname = 'wh' AND tablename = 'lines' AND indexdef LIKE '%(id)%'"
    return [] if catalogue.asked(asked) else ["lines has no index by which it is joined"]


STANDING = {
    "postgresql": "SELECT relname FROM pg_class WHERE relnamespace = 'wh'::regnamespace UNION ALL SELECT proname FROM pg_proc WHERE pronamespace = 'wh'::regnamespace",
    "sqlite": "SELECT DISTINCT substr(name, 4) FROM sqlite_master WHERE name LIKE 'wh\\_%' ESCAPE '\\'",
}


def gone_mistakes(catalogue):
    """What stands of views that went: a table of theirs, or a trigger that would note what is wanted no more."""
    names = [name for name in EXPECTED[catalogue.engine] if name not in catalogue.columns]
    return [f"{each} stands yet" for each, in catalogue.database.answers(STANDING[catalogue.engine])[0] if each.partition("~")[0] in names]


def again_mistakes(catalogue):
    """Said once more there is nothing to do; all of it anew, as it was said before, is right too."""
    found = catalogue.written(*ALL_OF_IT, catalogue.path)
    written_again = re.findall(r"TRUNCATE|DELETE FROM|INSERT INTO [^;]* SELECT", found.text)
    wrong = [f"once more it is to do {found.text[:300]}"] if written_again or found.status else []
    for words in (("--capture",), ("--live", "--open"), ("--live",)):
        wrong += [f"{words}: {told}" for told in faults(catalogue.carried(*words))]
    return wrong + catalogue.mistakes()


# ---- beside writers


def beside_mistakes(live, many=600):
    """A column comes into a mirror, and another one leaves, while an application writes: no statement of it fails, and nothing is lost."""
    wrong = []
    for name in ("a column comes into a mirror", "a column leaves a mirror without a key"):
        wrong += live.fresh()
        catalogue = Catalogue(live, CASES[name])
        live.asked(WRITER.replace("'region '", "'r '") + "TRUNCATE took;")
        with live.database.another() as writer, Beside(writer.goes_on, f"CALL writes({many});") as told:
            wrong += [f"beside a writer: {each}" for each in faults(catalogue.carried(*ALL_OF_IT))]
            wrong += [f"a night beside a writer: {each}" for _ in range(3) for each in catalogue.nights()]
        wrong += [f"the application was told {each}"[:400] for each in told.answer]
        wrong += [f"the last night: {each}" for each in catalogue.nights()] + catalogue.mistakes()
    return wrong


def late_mistakes(live):
    """A transaction that is open while a column comes: the script waits for it, and what it wrote is not lost."""
    wrong, catalogue = live.fresh(), Catalogue(live, CASES["a column comes into a mirror"])
    with live.database.another() as late:
        late.asked("BEGIN; UPDATE orders SET note = 'late', region = 'late' WHERE id = 5;")
        with Beside(catalogue.carried, *ALL_OF_IT) as told:
            wrong += [] if told.is_at_work(1.5) else ["it did not wait"]
            late.asked(NEW_LINES.replace("900", "5") + "UPDATE orders SET note = 'later' WHERE id = 6; COMMIT;")
    return wrong + faults(told.answer) + catalogue.nights() + catalogue.mistakes()


def stopped_mistakes(live):
    """A script that is stopped after a mirror got its columns, and before it got their contents: nights are refused, and once more it is all right."""
    wrong, catalogue = live.fresh(), Catalogue(live, CASES["a column comes into a mirror"])
    live.asked(FIRST + "UPDATE orders SET note = 'note ' || id WHERE id % 3 = 0;")
    text = catalogue.words(*ALL_OF_IT)
    wrong += faults(live.database.run(text[: text.index("BEGIN ISOLATION LEVEL REPEATABLE READ")]))
    live.asked(WAITING)
    for told in (live.night(), catalogue.carried("--live")):
        wrong += [] if told and ("run whview sql capture" in told or "does not fit" in told) else [f"a night between was told {told}"]
    wrong += faults(catalogue.carried(*ALL_OF_IT)) + catalogue.checked("after it")
    return wrong + catalogue.nights() + catalogue.mistakes()


def catalogue_mistakes(live, only=""):
    """What is wrong with catalogues that change, and how many were tried."""
    found, many = each_case(live, CASES, changed_mistakes, only, "a changed catalogue: ")
    if live.engine == "postgresql" and not only:
        found += each_of(live, {"a changed catalogue": lambda each: beside_mistakes(each) + late_mistakes(each) + stopped_mistakes(each)})
    return found, many
