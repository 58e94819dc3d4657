"""What whview sql makes of a database: catalogues, sizes, plans, dry nights and what work costs; and what it refuses."""

from types import SimpleNamespace

from trials.capture.application import CATALOGUE, EXPECTED, stored, unlike
from trials.capture.case import each_of
from trials.ended import faults
from trials.tables.given_nights import lay, written
from whview.catalogue.nulls import NULL
from whview.sql.capture.proposed import Proposed
from whview.sql.capture.values import DAY, MOMENT, TEXT, ZONED
from whview.sql.engines.registry import LIVE
from whview.sql.tokens import Unfit

# Views of the application, each with the word of the reason for which it is not taken, or none where it is.
VIEWS = {
    "sold": ("SELECT o.day, o.region, l.product, l.pieces * p.price AS cost FROM orders AS o JOIN lines AS l ON l.id = o.id"
             " JOIN products AS p ON p.product = l.product WHERE p.price IS NOT NULL AND o.day >= '2026-01-02'", ""),
    "by_region": ("SELECT region, count(*) AS many, sum(cost) AS cost, avg(cost) AS mean FROM sold GROUP BY region", ""),
    "cheap": ("SELECT p.product, p.price FROM products AS p WHERE p.price < 7.5 OR NOT (p.price > 3 AND p.product <> 'product 12')", ""),
    "few": ("SELECT l.product, sum(l.pieces) AS pieces FROM lines AS l WHERE l.pieces BETWEEN 1 AND 4 AND l.product IN ('product 1', 'product 2', 'product 3')"
            " GROUP BY l.product", ""),
    "paid_days": ("SELECT o.day, count(*) AS orders FROM orders AS o WHERE o.paid AND NOT o.region = 'region 1' GROUP BY o.day", ""),
    "whole": ("SELECT count(*) AS many, sum(p.price * 2 + 1) AS doubled FROM products AS p WHERE p.price > 2.5", ""),
    "regions": ("SELECT o.region, count(o.region) AS many FROM orders AS o WHERE o.region IS NOT NULL GROUP BY o.region", ""),
    "late": ("SELECT o.id FROM orders AS o WHERE o.at >= '2026-01-01 00:00:05'", ""),
    "signs": ("SELECT l.id, l.pieces * -1 AS minus, - l.pieces + 2 AS rest FROM lines AS l WHERE l.pieces NOT IN (2, 3)", ""),
    "over_one": ("SELECT f.product FROM few AS f", ""),
    "twice_grouped": ("SELECT o.region AS a, o.region AS b, count(*) AS n FROM orders AS o GROUP BY o.region", "already"),
    "beyond": ("SELECT o.id FROM orders AS o WHERE o.id < 99999999999999999999", "64 bits"),
    "deep": (f"SELECT l.id, {' + '.join(['l.pieces'] * 700)} AS s FROM lines AS l", "too deep"),
    "outer_lines": ("SELECT o.id, l.pieces FROM orders AS o LEFT JOIN lines AS l ON l.id = o.id", "outer join"),
    "first": ("SELECT l.product, min(l.pieces) AS least FROM lines AS l GROUP BY l.product", "MIN"),
    "sums_nulls": ("SELECT p.product, sum(p.price) AS price FROM products AS p GROUP BY p.product", "may be NULL"),
    "upper_names": ("SELECT upper(p.product) AS product FROM products AS p", "function upper"),
    "in_order": ("SELECT p.product FROM products AS p ORDER BY p.product", "ORDER BY"),
    "apart": ("SELECT DISTINCT o.region FROM orders AS o", "DISTINCT"),
    "with_itself": ("SELECT a.id FROM lines AS a JOIN lines AS b ON a.id = b.id", "twice"),
    "over_others": ("SELECT f.product FROM first AS f", "not taken"),
    "moments_of": ("SELECT o.at, count(*) AS many FROM orders AS o GROUP BY o.at", "moment"),
    "large": ("SELECT l.product, count(*) AS many FROM lines AS l GROUP BY l.product HAVING count(*) > 1", "HAVING"),
}
# The same of one engine, and what is made for them.
OWN = {
    "postgresql": {
        "blanks": ("SELECT c.code FROM codes AS c WHERE c.code = 'ab  '", ""),
        "of_a_domain": ("SELECT c.many * 2 AS many FROM codes AS c", ""),
        "hidden": ("SELECT c.shade FROM codes AS c", "cannot be had"),
        "elsewhere": ("SELECT l.id FROM other.lines AS l", "another schema"),
        "rounded": ("SELECT p.price::numeric(10,1) AS price FROM products AS p", "casts to numeric"),
        "cut": ("SELECT o.region::varchar(3) AS region FROM orders AS o", "casts to character varying"),
        "padded": ("SELECT l.id FROM lines AS l WHERE l.product::char(9) = 'product 1'", "casts to character"),
        "without_zone": ("SELECT o.id FROM orders AS o WHERE o.at >= '2026-01-01 00:00:05'::timestamp", "moment"),
        "heirs": ("SELECT h.id FROM heir AS h", "not taken"),
    },
    "sqlite": {
        "named": ("(pieces, id) AS SELECT l.id, l.pieces FROM lines AS l", ""),
        "over_named": ("SELECT n.pieces FROM named AS n WHERE n.id > 2", ""),
        "true_ones": ("SELECT l.id FROM lines AS l WHERE l.pieces AND NOT l.pieces = 3", ""),
        "hexadecimal": ("SELECT l.id, l.pieces + 0x10 FROM lines AS l", "stands where"),
        "exponent": ("SELECT l.id, l.pieces + 1e3 FROM lines AS l", "stands where"),
        "without_rows": ("SELECT c.a FROM codes AS c", "not taken"),
        "nowhere": ("SELECT n.a FROM no_table AS n", "not taken"),
    },
}
MADE = {
    "postgresql": "CREATE SCHEMA other; CREATE TABLE other.lines (id int); CREATE TABLE heir () INHERITS (lines); CREATE TYPE colour AS ENUM ('red', 'blue');"
                  " CREATE DOMAIN shade AS colour; CREATE DOMAIN many AS int CHECK (VALUE > 0);"
                  " CREATE TABLE codes (code char(5) NOT NULL, many many NOT NULL, shade shade); INSERT INTO codes VALUES ('ab', 1, 'red'), ('ab c', 2, 'blue');"
                  """ CREATE TABLE "a
[[view]]
name = 'b'" (id int);""",
    "sqlite": """CREATE TABLE codes (a INT NOT NULL PRIMARY KEY) WITHOUT ROWID; CREATE TABLE "a
[[view]]
name = 'b'" (id INT);""",
}
UNMADE = {
    "postgresql": """DROP SCHEMA other CASCADE; DROP TABLE heir, codes, "a
[[view]]
name = 'b'"; DROP DOMAIN shade, many; DROP TYPE colour;""",
    "sqlite": """DROP TABLE codes; DROP TABLE "a
[[view]]
name = 'b'";""",
}
LATER = (
    "UPDATE lines SET pieces = pieces + 1 WHERE id < 20; DELETE FROM orders WHERE id = 7; UPDATE products SET price = NULL WHERE product = 'product 3';"
    " UPDATE orders SET region = NULL WHERE id = 2;",
    "UPDATE orders SET region = 'region 1' WHERE id < 9; UPDATE products SET price = 3.25; INSERT INTO lines VALUES (3, 'product 3', 2);"
    " UPDATE orders SET paid = NOT paid WHERE id > 30;",
)
OF_COLUMN = {
    "postgresql": {DAY: "({c} - DATE '1970-01-01')", MOMENT: "floor(extract(epoch FROM {c}))::bigint", TEXT: "{c}::text", "number": "({c} * {unit})::bigint",
                   ZONED: "floor(extract(epoch FROM {c}))::bigint"},
    "sqlite": {DAY: "unixepoch({c}) / 86400", MOMENT: "unixepoch({c})", TEXT: "{c}", "number": "CAST(round({c} * {unit}) AS INTEGER)"},
}


def shown(engine, column):
    """A column of the application's view as the night has it."""
    null = "'" + NULL["text"] + "'" if column.kind == "text" else NULL["int"]
    return f"coalesce({OF_COLUMN[engine][column.holds].format(c=column.name, unit=10**column.places)}, {null})"


# ---- catalogues


def catalogue_mistakes(live):
    """The catalogue of a database with views of many kinds: what is taken is the same as the view, and what is not has its reason."""
    live.bare()
    views = {**VIEWS, **OWN[live.engine]}
    wrong = proposed(live, views, [MADE[live.engine]], LATER)
    live.database.make([*(f"DROP VIEW {name};" for name in reversed(views)), UNMADE[live.engine]])
    return wrong


def proposed(live, views, made, later):
    """What the catalogue of these views takes otherwise than by their reasons, and what nights over it leave otherwise than the views have it."""
    live.database.make([*made, *(f"CREATE VIEW {name} {text if text.startswith('(') else 'AS ' + text};" for name, (text, _) in views.items())])
    found, wrong = live.sure("--catalogue"), []
    for name, (_, reason) in views.items():
        lines = [line for line in found.told.splitlines() if f" {name} is not taken" in line]
        if bool(lines) != bool(reason) or (reason and reason not in lines[0]):
            wrong.append(f"of {name} is told {lines}, and not {reason!r}")
    if wrong or not later:
        return wrong
    return same_views(live, lay(live.path / f"{next(iter(views))} of {live.engine}", found.text), views, later)


def same_views(live, path, texts, later):
    """What the views that were taken have otherwise than the application's, once they are filled, and after each night of what is written later."""
    if fault := live.opened(path=path):
        return [fault]
    database = LIVE[live.engine](SimpleNamespace(database=live.database.address)).database()
    known = Proposed(database.dialect, database.tables(database.own_schema), database.views(database.own_schema), database.own_schema).known
    views = {name: own_and_stored(live, name, known[name], is_joined(text)) for name, (text, reason) in texts.items() if not reason}
    wrong = unlike(live.database, views)
    for text in later:
        live.asked(text)
        wrong += faults(live.run("--live", path=path)) or unlike(live.database, views)
    return wrong + faults(live.run("--uncapture", path=path))


def own_and_stored(live, name, columns, has_counts):
    """A query for the application's own view, as the night has its columns, and one for the night's table."""
    there = [column for column in columns if not column.name.endswith("_sum") and column.name != "rows"]
    own = f"SELECT {', '.join(shown(live.engine, column) for column in there)} FROM {name}"
    return own, stored(live.database, name, [column.name for column in there], has_counts)


def is_joined(text):
    return "GROUP BY" not in text and "count(" not in text


# ---- sizes and plans


def plan_mistakes(live, program):
    """Sizes before a night and after it, a plan that is certified, a dry night that changes nothing, and what work costs."""
    wrong, path, plan = live.fresh(), lay(live.path / "planned", CATALOGUE), ("--program", program, "--plan")
    (path / "strategy.txt").unlink()
    for number in range(3):
        live.asked(f"UPDATE lines SET pieces = pieces + 1 WHERE id % 4 = {number}; DELETE FROM orders WHERE id = {number + 1};")
        before, script, state = live.sure("--sizes", path).text, live.sure(*plan, path), live.database.state()
        wrong += [] if "certified all work" in script.told else [f"--plan says {script.told}"]
        dry = live.sure(*plan, "--dry", path).text
        wrong += [] if live.database.state() == state else ["a dry night changed something"]
        wrong += dry_mistakes(dry)
        wrong += [f"a planned night: {text}" for text in faults(live.database.run(script.text)) or live.mistakes()]
        wrong += size_mistakes(live, before, live.sure("--sizes-after", path).text)
    costs = live.written("--costs", path)
    has_seconds = live.engine == "postgresql"
    if bool(costs.status) == has_seconds or (has_seconds and not costs.text.startswith("# measured from ")):
        wrong.append(f"--costs says {costs}")
    if has_seconds:
        live.asked("UPDATE lines SET pieces = 1 WHERE id = 9;")
        wrong += [f"a night by what was measured: {text}" for text in faults(live.run(*plan, "--measured", path=path)) or live.mistakes()]
    return wrong


def dry_mistakes(text):
    lines = text.splitlines()
    ends = lines[-1] == "rolled back: nothing was changed" and lines[-2].startswith("all steps")
    comps = [line.split() for line in lines if line.startswith(("comp ", "inst "))]
    return [] if ends and comps and all(line[-3].isdecimal() and float(line[-1]) >= 0 for line in comps) else [f"a dry night says {text}"]


def size_mistakes(live, before, after):
    """Sizes that are not those of the tables, or before the night not those that base views have after it."""
    records = [{line.split(",")[0]: tuple(map(int, line.split(",")[1:])) for line in text.splitlines()[1:]} for text in (before, after)]
    wrong = []
    for name, (_, post, _) in records[1].items():
        rows = sum(count for *_, count in live.database.answers(live.stored(name))[0])
        wrong += [] if post == rows else [f"{name} has {rows} rows, and --sizes-after says {post}"]
    for name in ("orders", "lines", "products"):
        wrong += [] if records[0][name] == records[1][name] else [f"{name}: --sizes says {records[0][name]}, and the night {records[1][name]}"]
    return wrong


# ---- going away, and refusals


def uncapture_mistakes(live):
    """What --uncapture leaves, once there were nights."""
    wrong = live.bare()
    bare = live.database.state()
    for words in (["--capture"], ["--live", "--open"], ["--live"], ["--uncapture"], ["--uncapture"]):
        wrong += faults(live.run(*words))
    return wrong + bare.differences(live.database.state())


READERS = {
    "CREATE VIEW best AS SELECT * FROM wh.sales;": "DROP VIEW best;",
    "CREATE TABLE noted (id int REFERENCES wh.orders (id));": "DROP TABLE noted;",
    "CREATE FUNCTION best() RETURNS SETOF wh.sales LANGUAGE sql AS 'SELECT * FROM wh.sales';": "DROP FUNCTION best;",
}
# What goes with a table, since it is the table's own.
OF_A_TABLE = (
    "CREATE FUNCTION told() RETURNS trigger LANGUAGE plpgsql AS 'BEGIN RETURN NULL; END'; CREATE TRIGGER told AFTER UPDATE ON wh.orders FOR EACH ROW"
    " WHEN (OLD.day <> NEW.day) EXECUTE FUNCTION told(); CREATE POLICY few ON wh.orders USING (id < 9);"
)


def reader_mistakes(live):
    """What depends on a table that --uncapture would take away keeps all of it, triggers too, until it is dropped."""
    wrong = []
    for made, dropped in READERS.items():
        wrong += live.fresh()
        live.asked(made)
        before = live.database.state()
        said = live.run("--uncapture")
        wrong += [] if "drop it before" in (said or "") else [f"--uncapture beside {made} is told {said!r}"]
        wrong += before.differences(live.database.state())
        live.asked(dropped)
        wrong += faults(live.run("--uncapture"))
    wrong += live.fresh()
    live.asked(OF_A_TABLE)
    return wrong + faults(live.run("--uncapture"))


# A table of the application's that has the name of one of the night's, by what it would be captured and let go; and less than is captured.
TAKEN = {
    "postgresql": ("CREATE TABLE lines (id int, product text, pieces int); INSERT INTO lines VALUES (7);", ("--schema", "public"), "lines"),
    "sqlite": ("CREATE TABLE lines (id INT, product TEXT, pieces INT); CREATE TABLE shop_lines (id INT, product TEXT, pieces INT);"
               " INSERT INTO shop_lines VALUES (7, 'x', 1);", ("--schema", "shop"), "shop_lines"),
}
OF_TAKEN = '[[view]]\nname = "lines"\ncolumns = ["id", "product:text", "pieces"]\n'


def taken_mistakes(live):
    """What is done to a table of the application's by captures that would take it for one of the night's."""
    live.database.fresh()
    made, words, name = TAKEN[live.engine]
    live.database.make([made])
    path, wrong, before = lay(live.path / "taken", OF_TAKEN), [], live.database.state()
    for word, wanted in (("--uncapture", None), ("--capture", "none of --capture's"), ("--uncapture", None)):
        said = live.tried(*words, word, path)
        wrong += [] if said is None is wanted or wanted and wanted in (said or "") else [f"{word} over {name} is told {said!r}"]
        wrong += before.differences(live.database.state())
    wrong += live.fresh()
    said = live.tried("--uncapture", path)
    wrong += [] if "not in this catalogue" in (said or "") else [f"less than is captured is let go, and told {said!r}"]
    return wrong + live.right()


def definition_mistakes(live):
    """Nights over views that were never filled, or by another definition: they are refused until the views are filled."""
    wrong, word = live.fresh(), "was not filled by the definition"
    path = lay(live.path / "defined", CATALOGUE.replace('["*", "orders.paid", 2]', '["*", "orders.paid", 3]'))
    live.asked("UPDATE orders SET paid = NOT paid;")
    for of in (path, live.path):
        fault = live.run("--live", path=of)
        wrong += [] if word in (fault or "") else [f"a night by another definition is told {fault!r}"]
        wrong += faults(live.run("--live", "--open", path=of) or live.run("--live", path=of))
    wrong += live.mistakes()
    for words in ("--uncapture", "--capture"):
        live.run(words)
    return wrong + live.refuses(word)


# What comes to a captured table by which its rows change unnoticed, what takes it away again, and what is told.
LATER_UNFIT = {
    "ALTER TABLE lines SET UNLOGGED;": ("ALTER TABLE lines SET LOGGED;", "lines is unlogged"),
    "CREATE SUBSCRIPTION s CONNECTION 'host=/nowhere' PUBLICATION p WITH (connect = false, slot_name = NONE); SET allow_system_table_mods = on;"
    " INSERT INTO pg_subscription_rel (srsubid, srrelid, srsubstate) SELECT s.oid, 'lines'::regclass, 'r' FROM pg_subscription AS s;"
    " SET allow_system_table_mods = off;": ("DROP SUBSCRIPTION s;", "lines is written by logical replication"),
}


def unfit_mistakes(live):
    """Captures and nights of tables whose rows come to change while no trigger is fired."""
    wrong = live.fresh()
    for made, (unmade, word) in LATER_UNFIT.items():
        live.asked(made)
        for told in (live.night(), live.capture()):
            wrong += [] if word in (told or "") else [f"{word} is not told, but {told!r}"]
        live.asked(unmade)
        wrong += live.right()
    return wrong


ELSEWHERE = "the house"


def elsewhere_mistakes(live):
    """Nights whose tables stand in another schema, or have another word before their names, and what is left when they go."""
    live.made()
    bare, words = live.database.state(), ("--schema", ELSEWHERE)
    wrong = faults(live.run(*words, "--capture"), live.run(*words, "--live", "--open"))
    live.asked("UPDATE lines SET pieces = pieces + 1 WHERE id < 9; DELETE FROM orders WHERE id = 3;")
    wrong += faults(live.run(*words, "--live"))
    there = live.stored("daily").replace('wh."', f'"{ELSEWHERE}"."').replace('"wh_', f'"{ELSEWHERE}_')
    wrong += unlike(live.database, {"daily": (EXPECTED[live.engine]["daily"], there)})
    live.asked("UPDATE lines SET pieces = pieces - 1 WHERE id < 9;")
    wrong += faults(live.run(*words, "--uncapture"))
    left = bare.definitions - live.database.state().definitions, live.database.state().definitions - bare.definitions
    return wrong + [f"{each} is otherwise" for each in left if each]


REFUSED = {
    "CREATE TABLE other (id int)": ("[[view]]\nname = \"nowhere\"\ncolumns = [\"id\"]\n", "there is no table nowhere in"),
    "ALTER TABLE lines ADD COLUMN weight double precision": ("[[view]]\nname = \"lines\"\ncolumns = [\"id\", \"weight\"]\n", "neither a whole number nor a text"),
    "ALTER TABLE lines ADD COLUMN other int": ("[[view]]\nname = \"lines\"\ncolumns = [\"id\", \"colour\"]\n", "has no column colour"),
    "ALTER TABLE lines ADD COLUMN more int": ("[[view]]\nname = \"orders\"\ncolumns = [\"day:text\"]\n", "write it as 'day' in the catalogue"),
}
FOLDED = {
    "postgresql": "CREATE COLLATION folded (provider = icu, locale = 'und-u-ks-level2', deterministic = false); CREATE TABLE named (id int, said text"
                  " COLLATE folded)",
    "sqlite": "CREATE TABLE named (id int, said text COLLATE NOCASE)",
}
OWN_REFUSED = {
    "postgresql": {
        "CREATE UNLOGGED TABLE loose (id int)": ('[[view]]\nname = "loose"\ncolumns = ["id"]\n', "is unlogged"),
        "CREATE TABLE numbered (id int PRIMARY KEY, x int NOT NULL); CREATE TABLE heirs () INHERITS (numbered)": (
            '[[view]]\nname = "numbered"\ncolumns = ["id", "x"]\nkey = ["id"]\n', "has no unique key of these columns"),
    },
    "sqlite": {"CREATE TABLE hidden (id INT, _RowId_ INT)": ('[[view]]\nname = "hidden"\ncolumns = ["id"]\n', "hides the numbers of the rows")},
}
OF_FOLDED = ('[[view]]\nname = "named"\ncolumns = ["id", "said:text"]\n', "takes unequal texts for equal ones")


def refusal_mistakes(live):
    """Captures that are refused in one line that says why, and change nothing."""
    wrong = live.bare()
    for made, (catalogue, word) in [*REFUSED.items(), (FOLDED[live.engine], OF_FOLDED), *OWN_REFUSED[live.engine].items()]:
        live.database.make([made + ";"])
        path, before = lay(live.path / "refused", catalogue), live.database.state().definitions
        found = live.written("--capture", path)
        said = found.told if found.status else live.database.run(found.text) or ""
        wrong += [] if word in said and "Traceback" not in said else [f"{made}: is told {said!r}, and not {word!r}"]
        wrong += [] if not found.status or live.database.state().definitions == before else [f"{made}: something was changed"]
        live.run("--uncapture", path=path)
    lost = written("--engine", live.engine, "--database", "/nowhere/at all", "--capture", live.path)
    return wrong + ([] if lost.status and lost.told.startswith("whview sql: ") else [f"a database that is not there: {lost}"])


BOTH = {
    "a catalogue": catalogue_mistakes, "--uncapture": uncapture_mistakes, "a table of the application's": taken_mistakes, "a definition": definition_mistakes,
    "another schema": elsewhere_mistakes, "refusals": refusal_mistakes,
}
TRIED = {"postgresql": {**BOTH, "something that depends on a mirror": reader_mistakes, "a table that is not fit any more": unfit_mistakes}, "sqlite": BOTH}


def mistakes(live, program):
    """All of these, where a fault of whview sql is one of them."""

    def caught(tried):
        def of(live):
            try:
                return tried(live)
            except (ValueError, Unfit) as fault:
                return [str(fault)]

        return of

    tried = {"a plan": lambda live: plan_mistakes(live, program), **TRIED[live.engine]}
    return each_of(live, {name: caught(each) for name, each in tried.items()})
