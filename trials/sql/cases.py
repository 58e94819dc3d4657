"""Nights over tables as people have them, each with what has to come of it, and the spoilt script that it has to notice."""

from copy import copy
from types import SimpleNamespace
from typing import NamedTuple

from trials.spoilt.exchanged import script_of
from trials.spoilt.scripts import nothing
from whview.sql.catalogue import Catalogue
from whview.sql.comments import Comments
from whview.sql.tokens import sql

SMALL = """@catalogue
[[view]]
name = "a"
columns = ["x", "t:text"]
[[view]]
name = "v"
over = ["a"]
keep = [["t", "a.t"]]
@strategy
comp v from a
inst a
inst v
"""


def small(engine, *more, plain=(), spoilt=None, keyed=None):
    """The night of a small catalogue whose tables were made with more statements, and what was told there."""
    catalogue = Catalogue(SMALL)
    dialect = spoilt.dialect(engine.dialect) if spoilt and spoilt.dialect else engine.dialect
    script = script_of(catalogue, dialect, plain, keyed, spoilt.parts if spoilt else None)
    engine.fresh()
    told = engine.run([*script.creation(), *more])
    return told, script.night(catalogue.correct(), Comments(SimpleNamespace(**vars(catalogue))).short)


# ---- scripts without one check each


class Spoilt(NamedTuple):
    """What is wrong with a script, the parts of it that are spoilt, and what is made of its dialect."""

    name: str
    parts: dict
    dialect: object = None


def put_alone(own, it, v, statement, rows):
    return own(v, statement, rows)[:1] if it.dialect.engine == "sqlite" else [statement]


def by_places(dialect):
    """A dialect by which rows are told by their places alone."""
    alone = copy(dialect)
    alone.at = lambda: sql("t.ctid = g.place")
    return alone


UNSEEN_INSTS = {"insts": {"put": put_alone, "verified": nothing, "untouched": nothing}}
UNPAIRED = Spoilt("rows are not paired", {"changes": {"paired": nothing, "has_pairs": lambda *_: False, "spared": nothing}})
UNJUDGED = Spoilt("new rows are not judged", {"changes": {"spared": nothing}})
WITHOUT_CASCADES = Spoilt("cascades are not judged", {"changes": {"cascades": nothing}})
UNSEEN = Spoilt("nothing is looked at", UNSEEN_INSTS)
UNCOUNTED = Spoilt("other rows are not counted", {"insts": {"untouched": nothing}})
BY_PLACES = Spoilt("places are taken for rows", UNSEEN_INSTS, by_places)


# ---- cases


class Case(NamedTuple):
    """What is made beside the tables that --create makes; the words of the refusal, or None; and what a question gives after the night."""

    made: list
    told: str | None
    asked: tuple
    rows: list
    spoilt: Spoilt | None
    plain: tuple = (0,)


OWN = "DROP TABLE a; CREATE TABLE a ({});"
KEYED = OWN.format("x BIGINT NOT NULL PRIMARY KEY, t TEXT NOT NULL, about TEXT NOT NULL DEFAULT 'none'")
HELD = "INSERT INTO a (x, t, about) VALUES (7, 'six', 'long'); INSERT INTO v (t) VALUES ('six');"
CHANGED = """INSERT INTO "a~changes" (x, t, "#") VALUES (7, 'six', -1), (7, 'seven', 1);"""
GONE = """INSERT INTO "a~changes" (x, t, "#") VALUES (7, 'six', -1);"""
COMES = """INSERT INTO "a~changes" (x, t, "#") VALUES (7, 'seven', 1);"""
CHILD = "CREATE TABLE child (x BIGINT NOT NULL REFERENCES a (x) ON DELETE CASCADE ON UPDATE CASCADE); INSERT INTO child VALUES (7);"
KEPT = ('"a"', ["x", "t"])
ABOUT = ('"a"', ["t", "about"])
CASES = {
    "a row that changes keeps its other columns": Case([KEYED, HELD, CHANGED], None, ABOUT, [["seven", "long"]], UNPAIRED),
    "a price that changes under a cascade": Case([KEYED, HELD, CHILD, CHANGED], None, ('"child"', ["x"]), [[7]], UNPAIRED),
    "a row that goes under a cascade": Case([KEYED, HELD, CHILD, GONE], "refused cascade a", ('"child"', ["x"]), [[7]], WITHOUT_CASCADES),
    "a row that comes without a value": Case([OWN.format("x BIGINT NOT NULL, t TEXT NOT NULL, about TEXT"), COMES], "table a does not fit: a row comes", KEPT, [], UNJUDGED),
}
FUNCTION = "CREATE FUNCTION f() RETURNS trigger LANGUAGE plpgsql SET search_path FROM CURRENT AS $f$ BEGIN {} END $f$;"
EACH = " FOR EACH ROW EXECUTE FUNCTION f();"
BEFORE, INSERTED = "CREATE TRIGGER q BEFORE INSERT ON a", "CREATE TRIGGER q AFTER INSERT ON v"
TORN, UNFIT = "refused torn a", "table a~changes does not fit"
OF_POSTGRESQL = {
    "a trigger that skips a row": Case([FUNCTION.format("RETURN NULL;"), BEFORE + EACH, COMES], TORN, KEPT, [], UNSEEN, ()),
    "a trigger that changes a row": Case([FUNCTION.format("NEW.t := 'else'; RETURN NEW;"), BEFORE + EACH, COMES], TORN, KEPT, [], UNSEEN, ()),
    "a trigger of another table": Case([FUNCTION.format("INSERT INTO a VALUES (9, 'nine', 1); RETURN NULL;"), INSERTED + EACH, COMES], TORN, KEPT, [], UNCOUNTED, ()),
    "two partitions": Case([
        OWN.format("x bigint NOT NULL, t text NOT NULL").replace(");", ") PARTITION BY LIST (t);"),
        "CREATE TABLE a1 PARTITION OF a FOR VALUES IN ('six'); CREATE TABLE a2 PARTITION OF a FOR VALUES IN ('jam', 'seven');",
        "INSERT INTO a VALUES (7, 'six'), (1, 'jam'); INSERT INTO v (t) VALUES ('six'), ('jam');", GONE], None, KEPT, [[1, "jam"]], BY_PLACES),
    "rows of a table that inherits": Case([
        "CREATE TABLE below () INHERITS (a); INSERT INTO below VALUES (7, 'six', 1); INSERT INTO a VALUES (1, 'jam', 1);", GONE,
        "INSERT INTO v (t) VALUES ('six'), ('jam');"], None, KEPT, [[1, "jam"]], BY_PLACES, ()),
    "a rule": Case(["CREATE RULE q AS ON DELETE TO a DO INSTEAD NOTHING;", COMES], "table a does not fit: it has a rule", KEPT, [], None, ()),
}
TEXT_CHANGES = """INSERT INTO "a~changes" (x, t, "#") VALUES ('seven', 'seven', 1);"""
UNCOUNTED_CHANGES = 'DROP TABLE "a~changes"; CREATE TABLE "a~changes" (x INTEGER NOT NULL, t TEXT NOT NULL);'
OF_SQLITE = {
    "a trigger that skips a row": Case([BEFORE + " BEGIN SELECT RAISE(IGNORE); END;", COMES], TORN, KEPT, [], UNSEEN, ()),
    "a trigger that changes a row": Case(["CREATE TRIGGER q AFTER INSERT ON a BEGIN UPDATE a SET t = 'else' WHERE x = new.x; END;", COMES], TORN, KEPT, [], UNSEEN, ()),
    "a trigger of another table": Case([INSERTED + " BEGIN INSERT INTO a VALUES (9, 'nine', 1); END;", COMES], TORN, KEPT, [], UNCOUNTED, ()),
    "a text among numbers": Case([TEXT_CHANGES], UNFIT, KEPT, [], None, ()),
    "a table without rowids": Case([OWN.format("x INTEGER PRIMARY KEY, t TEXT NOT NULL").replace(");", ") WITHOUT ROWID;"), COMES], "WITHOUT ROWID", KEPT, [], None),
    "changes without counts": Case([UNCOUNTED_CHANGES], UNFIT, KEPT, [], None, ()),
}
OF = {"postgresql": OF_POSTGRESQL, "sqlite": OF_SQLITE}


def mistake(engine, case, spoilt=None, keyed=None):
    """What comes of a case that has not to come of it, or None."""
    foreign_keys = ["PRAGMA foreign_keys = ON;"] if engine.dialect.engine == "sqlite" else []
    made, night = small(engine, *foreign_keys, *case.made, plain=case.plain, spoilt=spoilt, keyed=keyed)
    told = made or engine.run(night)
    rows = list(map(list, engine.contents([case.asked])[0]))
    right = (case.told in told if told and case.told else told is None and case.told is None) and rows == case.rows
    return None if right else f"{told!r}, and {rows}"


# Tables of which a key is said: whether its rows are paired by that, and what is told where it is none.
TWO_KEYS = OWN.format("x BIGINT NOT NULL PRIMARY KEY, t TEXT NOT NULL UNIQUE, about TEXT NOT NULL DEFAULT 'none'")
LONG, NONE = [["six", "long"]], "--keyed wants"
SAID = {
    "a key that is said": ((0,), Case([KEYED, HELD, CHANGED], None, ABOUT, [["seven", "long"]], None)),
    "a key that is said beside the primary one": ((1,), Case([TWO_KEYS, HELD, CHANGED.replace("(7, 'seven', 1)", "(8, 'six', 1)")], None, ABOUT, LONG, None)),
    "a key that is none": ((1,), Case([KEYED, HELD, CHANGED], NONE, ABOUT, LONG, None)),
}
IN_PARTS = OWN.format("x BIGINT NOT NULL PRIMARY KEY, t TEXT NOT NULL").replace(");", ") PARTITION BY RANGE (x);") + "CREATE TABLE a1 PARTITION OF a DEFAULT;"
IN_IT = "INSERT INTO a (x, t) VALUES (7, 'six'); INSERT INTO v (t) VALUES ('six');"
PARTLY = "CREATE UNIQUE INDEX partly ON a (t) WHERE x > 5;"
SAID_OF = {
    "postgresql": {
        "a key of a table in parts": ((0,), Case([IN_PARTS, IN_IT, CHANGED], NONE, KEPT, [[7, "six"]], None)),
        "a key of a table with an heir": ((0,), Case([KEYED, "CREATE TABLE below () INHERITS (a);", HELD, CHANGED], NONE, ABOUT, LONG, None)),
        "a key that only some rows have": ((1,), Case([KEYED, PARTLY, HELD, CHANGED], NONE, ABOUT, LONG, None)),
    },
    "sqlite": {},
}


def said_mistakes(engine):
    """The same with keys that are said."""
    found = []
    for title, (places, case) in {**SAID, **SAID_OF[engine.dialect.engine]}.items():
        told = mistake(engine, case, keyed={0: places})
        found += [f"{engine.dialect.engine}, {title}: {told}"] if told else []
    return found


def mistakes(engine):
    """The cases that an engine does otherwise, and the spoilt scripts that they do not notice."""
    wrong, name = said_mistakes(engine), engine.dialect.engine
    for title, case in {**CASES, **OF[name]}.items():
        if told := mistake(engine, case):
            wrong.append(f"{name}, {title}: {told}")
        if case.spoilt and mistake(engine, case, case.spoilt) is None:
            wrong.append(f"{name}, {title}: {case.spoilt.name} is not noticed")
    return wrong
