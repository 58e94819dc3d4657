"""Captures and nights that go against one rule each: the trials have to notice all of them."""

from functools import partial
from unittest import mock

from trials.capture import writers_beside as beside, cases, intruders
from trials.servers.postgresql import Broken
from trials.spoilt.exchanged import exchanged
from whview.sql.capture import live_postgresql
from whview.sql.capture.parting import Parting
from whview.sql.capture.postgresql import LivePostgreSQL
from whview.sql.capture.sqlite import Captures as SQLiteCaptures
from whview.sql.capture.merge import MergeParts, MergeScript
from whview.sql.capture.triggers import Triggers
from whview.sql.tokens import END_OF_STATEMENT, sql


def table_by_table(script):
    """Each statement has a snapshot of its own: a transaction may be in the night by one table and in the next by another, and what is committed
    between the reading and the emptying is lost."""
    script.dialect.isolation = "READ COMMITTED"
    return script.dialect.captures(script)


def not_looked_at(script):
    """A table that is not captured as it was is taken for one that is."""
    captures = script.dialect.captures(script)
    captures.whole = list
    return captures


def no_group_changes(own, _, v):
    """Groups that stay keep their sums."""
    sets, cells = own(v)
    return [(column, sql("t.{column}", column=column)) for column, _ in sets], cells


def nothing_is_absent(own, _, refusals):
    """Whether a row that leaves is there is not looked at."""
    return own([(test, told) for test, told in refusals if not told.startswith("refused absent")])


SPOILT = {
    "table by table": MergeParts(captures=table_by_table),
    "not looked at": MergeParts(captures=not_looked_at),
    "no group changes": exchanged(MergeParts(), {"groups": {"group_cells": no_group_changes}}),
    "nothing is absent": exchanged(MergeParts(), {"block": {"first_told": nothing_is_absent}}),
}


def spoilt(name):
    """While it lasts, scripts are made of spoilt parts."""
    return mock.patch.object(live_postgresql, "MergeScript", partial(MergeScript, parts=SPOILT[name]))


def unnoticed_beside(live, name, times=5):
    """A spoilt night that a writer's transactions do not notice, tried again and again."""
    with spoilt(name):
        live.script = live.words("--live")
    try:
        for _ in range(times):
            live.fresh()
            told, _ = beside.written(live, 400, 6)
            if told or live.night() or live.mistakes():
                return []
    finally:
        live.script = live.words("--live")
    return [f"{live.engine}: {name} is not noticed"]


def instead(of, name, made):
    """While it lasts, a function answers this."""
    return mock.patch.object(of, name, lambda *_: made)


# What is spoilt, and the case that has to go wrong then.
CASES = {
    "postgresql": {
        "not looked at": (spoilt("not looked at"), "a new part where an event trigger is disabled"),
        "no group changes": (spoilt("no group changes"), "rows change"),
        "what no trigger notes is not marked": (instead(Triggers, "torn", sql("PERFORM 1")), "a column that gets another name"),
        "parts without rows": (instead(Parting, "rows", sql("NULL{end}", end=END_OF_STATEMENT)), "a part that is attached"),
        "parts without compared": (instead(Parting, "compared", []), "a part that is dropped"),
    },
    "sqlite": {
        "noted": (instead(SQLiteCaptures, "noted", sql("SELECT 1")), "REPLACE"),
        "kept": (instead(SQLiteCaptures, "kept", sql("SELECT 1")), "a trigger BEFORE UPDATE that changes the row"),
        "renoted": (instead(SQLiteCaptures, "renoted", sql("SELECT 1")), "a trigger BEFORE INSERT that changes what is replaced"),
        "others": (instead(SQLiteCaptures, "others", []), "a trigger BEFORE UPDATE that changes the row"),
        "unlike": (instead(SQLiteCaptures, "unlike", sql("SELECT 1 WHERE 1 = 0")), "a unique index that comes, and goes again"),
        "stands": (instead(SQLiteCaptures, "stands", []), "a table in the place of another one"),
    },
}


def unnoticed_cases(live):
    """Spoilt nights and captures that their cases do not notice."""
    found = []
    for name, (spoiling, case) in CASES[live.engine].items():
        with spoiling:
            live.script = live.words("--live")
            found += [] if cases.mistakes(live, cases.OF[live.engine][case]) else [f"{live.engine}: {name} is not noticed"]
    live.script = live.words("--live")
    return found


def absent_mistakes(live):
    """A row that leaves and is not there: the night is refused, and one that does not look is noticed."""
    wrong = live.fresh()
    live.asked("""INSERT INTO wh."lines~changes" VALUES (77, 'nothing', 1, -1);""")
    wrong += live.refuses("refused absent lines") + ([] if live.pending() == 1 else ["an absent row is not kept"])
    with spoilt("nothing is absent"):
        told = live.run("--live")
    return wrong + ([] if told is None else [f"nothing is absent: it is told {told!r}, and ought to be carried out"])


ON_VIEWS = (
    "CREATE FUNCTION noted() RETURNS trigger LANGUAGE plpgsql AS $f$ BEGIN INSERT INTO public.book VALUES (TG_OP); RETURN NEW; END $f$;"
    " CREATE TABLE book (told text); CREATE TRIGGER noted {when} UPDATE ON wh.daily FOR EACH ROW EXECUTE FUNCTION noted();"
)


def trigger_mistakes(live):
    """Triggers of somebody else's on a view: one that could change rows is refused, and one that writes elsewhere is not."""
    wrong = []
    for when, word in (("BEFORE", "table daily does not fit: the trigger noted"), ("AFTER", None)):
        wrong += live.fresh()
        live.asked(ON_VIEWS.format(when=when) + "UPDATE products SET price = price + 1 WHERE price > 2;")
        told = live.night()
        right = word in (told or "") if word else told is None and not live.mistakes()
        wrong += [] if right else [f"a trigger {when} UPDATE of a view: the night was told {told!r}"]
    return wrong


def unnoticed_intruders(live):
    """Functions that look at no table and at no type, which tables and types of others do not notice."""
    live.as_whom = ("--without-role",)
    with mock.patch.object(Triggers, "judged_by", lambda *_: sql("SELECT NULL")), mock.patch.object(Triggers, "as_ever", lambda *_: sql("")):
        tried = {"tables of others": intruders.forged_mistakes, "types of others": intruders.of_later}
        found = [f"{live.engine}: {said} are not noticed" for said, mistakes in tried.items() if not is_noticed(mistakes, live)]
    live.as_whom = ()
    with mock.patch.object(LivePostgreSQL, "block_apart", LivePostgreSQL.block):
        found += [] if is_noticed(intruders.owned_mistakes, live) else [f"{live.engine}: tables that are read by a role that was only taken on are not noticed"]
    return found


def is_noticed(mistakes, live):
    try:
        return bool(mistakes(live))
    except Broken:
        return True


def unnoticed(live):
    """The spoilt scripts of an engine that nothing notices."""
    if live.engine == "sqlite":
        return unnoticed_cases(live)
    return unnoticed_beside(live, "table by table") + unnoticed_cases(live) + absent_mistakes(live) + trigger_mistakes(live) + unnoticed_intruders(live)
