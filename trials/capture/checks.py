"""Checks of captured tables: what was altered by hand or by what no trigger sees is told by its key, what agrees is not, and a repair puts it right."""

from typing import NamedTuple

from trials.capture.case import each_case, each_of
from trials.capture.cases import NEW_LINES, NEW_ORDER
from trials.capture.writers_beside import WRITER
from trials.ended import faults
from trials.servers.beside import Beside
from trials.servers.databases import SHELL

DRIFTED, AGREES = "differs by", "agrees:"
VIEWS = ("orders", "lines", "products", "sales", "daily", "placed", "moments")


class Drift(NamedTuple):
    """What is made beside the tables before they are captured; what somebody does then, where {wh} stands before the names of the nights' tables;
    how many keys of which views differ after it, counted by hand; and words that have to be told."""

    done: str
    keys: dict
    made: str = ""
    told: tuple = ()
    is_unseen: bool = False


# Beside each of them an order with its lines waits for the next night, which is no drift.
BOTH = {
    "nothing": Drift("", {}),
    "a row of a mirror is altered": Drift("UPDATE {wh}orders SET region = 'elsewhere' WHERE id = 7;", {"orders": 1}, told=('id 7: region is "elsewhere"',)),
    "a row of a mirror goes": Drift("DELETE FROM {wh}lines WHERE id = 3 AND pieces = 2;", {"lines": 1},
                                    told=('id 3, product "product 3", pieces 2: there 0 times and should be 1',)),
    "a row of a mirror comes": Drift("""INSERT INTO {wh}lines (id, product, pieces, "#") VALUES (1, 'nothing', 7, 3);""", {"lines": 1},
                                     told=('id 1, product "nothing", pieces 7: there 3 times and should be 0',)),
    "a row of a mirror counts twice": Drift("""UPDATE {wh}orders SET "#" = 2 WHERE id = 9;""", {"orders": 1}, told=("id 9: there 2 times and should be 1",)),
    "a sum of a view is altered": Drift(
        "UPDATE {wh}moments SET orders = orders + 1 WHERE places = (SELECT min(m.places) FROM {wh}moments AS m WHERE m.places > 0);",
        {"moments": 1}, told=("moments differs by 1 key", "orders is "),
    ),
    "a group of a view goes": Drift("DELETE FROM {wh}moments WHERE places = (SELECT min(m.places) FROM {wh}moments AS m WHERE m.places > 0);", {"moments": 1}),
    "what stands below a view goes": Drift(
        "DELETE FROM {wh}placed WHERE id = 6; DELETE FROM {wh}sales WHERE product = 'product 3' AND cost = 0;", {"placed": 1, "sales": 1},
        told=("id 6", 'product "product 3", cost 0: there 0 times and should be 1'),
    ),
    "all of a view goes": Drift("DELETE FROM {wh}placed;", {"placed": 30}, told=(".. and 10 more",)),
    "a change that waits is altered": Drift(
        """DELETE FROM {wh}"orders~changes" WHERE id = 900;""", {"orders": 1, "placed": 1, "moments": 1}, told=("id 900: there 0 times and should be 1",),
    ),
}
OF_POSTGRESQL = {
    "a view is defined anew": Drift(
        "CREATE OR REPLACE VIEW daily AS SELECT day, count(*) AS orders FROM orders WHERE paid GROUP BY day;", {"daily": 0},
        made="CREATE VIEW daily AS SELECT day, count(*) AS orders FROM orders GROUP BY day;", told=("daily is defined otherwise in the database",),
    ),
    "a view is defined as it was": Drift(
        "DROP VIEW daily; CREATE VIEW daily AS SELECT  day,count(*) AS orders FROM public.orders GROUP BY day;", {},
        made="CREATE VIEW daily AS SELECT day, count(*) AS orders FROM orders GROUP BY day;",
    ),
}
OF_SQLITE = {
    "rows go while triggers are switched off": Drift(
        ".dbconfig enable_trigger off\nDELETE FROM lines WHERE id = 3 AND pieces = 2;", {"lines": 1, "sales": 1, "daily": 1}, is_unseen=True,
        told=('id 3, product "product 3", pieces 2: there 1 times and should be 0',),
    ),
    "a view is defined anew": Drift(
        "DROP VIEW daily; CREATE VIEW daily AS SELECT day, count(*) AS orders FROM orders WHERE paid GROUP BY day;", {"daily": 0},
        made="CREATE VIEW daily AS SELECT day, count(*) AS orders FROM orders GROUP BY day;", told=("daily is defined otherwise in the database",),
    ),
}
OF = {"postgresql": {**BOTH, **OF_POSTGRESQL}, "sqlite": {**BOTH, **OF_SQLITE}}


def check(live, *words):
    return live.written("--check", live.path, *words)


def keys_told(found):
    """How many keys differ, by the names of those that do not agree."""
    told = {}
    for line in found.text.splitlines():
        view, *others = line.split(" ")
        if " ".join(others).startswith(DRIFTED):
            told[view] = int(others[2])
        elif view in VIEWS and others[:1] != [AGREES]:
            told.setdefault(view, 0)
    return told


def telling(live, keys, when):
    """What a check tells otherwise than that so many keys differ."""
    found = check(live)
    return [] if keys_told(found) == keys else [f"{when} was told {found.text}{found.told}"]


def mistakes_of(live, drift):
    """What a check tells otherwise than it should, and what a repair leaves."""
    wrong = live.fresh(drift.made)
    live.asked(NEW_ORDER + NEW_LINES)
    said = drift.done.replace('{wh}"', 'wh."' if live.engine == "postgresql" else '"wh_').replace("{wh}", live.database.before)
    told = live.database.by_shell(said, SHELL) if drift.is_unseen else live.asked(said) and None
    found = check(live)
    wrong += [f"the application was told {told}"] if told else []
    is_right = (keys_told(found), found.status) == (drift.keys, int(bool(drift.keys)))
    wrong += [] if is_right else [f"with status {found.status} was told {found.text}{found.told}"]
    wrong += [f"{word!r} is not told: {found.text}" for word in drift.told if word not in found.text]
    # One alone is compared over the tables below it as they stand.
    for view, many in () if {"orders", "lines"} & drift.keys.keys() and len(drift.keys) > 1 else drift.keys.items():
        alone = keys_told(check(live, view))
        wrong += [] if alone == {view: many} else [f"{view} alone differs by {alone}"]
    return wrong + repair_mistakes(live, {view: 0 for view, many in drift.keys.items() if not many})


def repair_mistakes(live, left):
    """What is otherwise than it should be after a repair, but for definitions, and after the next night."""
    check(live, "--repair")
    wrong = telling(live, left, "after a repair") + live.right("the night after a repair: ") + telling(live, left, "after the night")
    return wrong + (opened_mistakes(live, left) if left else [])


def opened_mistakes(live, left):
    """A view that is filled by its name is filled by the definition that there is now; others are not touched."""
    wrong = faults(live.tried("--live", "--open", live.path, *left)) or live.mistakes()
    return wrong + telling(live, {}, "after it was filled")


# ---- a snapshot beside writers, and what is noted


def beside_mistakes(live, many=400, checks=6):
    """Checks beside a writer and nights: nothing differs."""
    wrong = live.fresh()
    live.asked(WRITER + "TRUNCATE took;")
    with live.database.another() as writer, Beside(writer.asked, f"CALL writes({many});"):
        for _ in range(checks):
            found = check(live)
            wrong += ([found.text + found.told] if found.status else []) + faults(live.night())
    return wrong + [f"a repair of what agrees: {found.text}" for found in [check(live, "--repair")] if found.status]


def rewritten_mistakes(live):
    """A check while somebody writes a table anew: it waits, and does not take it for an empty one."""
    wrong = live.fresh()
    with live.database.another() as writer:
        writer.asked("BEGIN; ALTER TABLE lines ALTER pieces TYPE smallint USING pieces + 0;")
        with Beside(check, live) as beside:
            beside.is_at_work(2)
            writer.asked("COMMIT;")
    found = beside.answer
    wrong += [] if any("columns of public.lines were written anew" in line for line in history(live)) else [f"the history says {history(live)}"]
    wrong += [f"{view} alone: {other.text}{other.told}" for view in ("orders", "sales") for other in [check(live, view)] if other.status]
    right = found.status == 1 and "columns of public.lines were written anew" in found.told and "differs" not in found.text
    return wrong + ([] if right else [f"a check beside ALTER TABLE was told {found.text}{found.told}"])


def turn_mistakes(live):
    """Checks in turn look at each table and view once before they begin anew; and the history says of them."""
    wrong, seen = live.fresh(), []
    for _ in VIEWS:
        found = check(live, "--in-turn")
        seen.append(found.text.split(" ")[0])
        wrong += [found.told] if found.status or len(found.text.splitlines()) != 2 else []
    wrong += [] if sorted(seen) == sorted(VIEWS) else [f"in turn were checked {seen}"]
    return wrong + [f"the history: {text}" for text in history_mistakes(live)]


def history(live, *words):
    found = live.written("--history", *words, live.path)
    return found.text.splitlines() if not found.status else [found.told]


def pairs(live):
    """The line for what watches, as a dictionary."""
    (line,) = history(live, "--line")
    return dict(each.split("=") for each in line.split(" "))


def history_mistakes(live):
    """The history of checks, nights and what waits."""
    wrong = [] if all("agreed" in line for line in history(live)[: len(VIEWS)]) else [f"the history is {history(live)}"]
    before = pairs(live)
    live.asked(NEW_ORDER + NEW_LINES)
    waiting = pairs(live)
    wanted = {"night": "0", "night_age": "-1", "stale_views": "0", "waiting_rows": "0", "unchecked": "0", "differing": "0"}
    wrong += [f"{key} is {before[key]}" for key, value in wanted.items() if before[key] != value]
    # An order and two lines: all that is over orders or lines waits, which products alone is not.
    wanted = {"stale_views": "6", "waiting_rows": "3", "waiting_most": "lines"}
    wrong += [f"with changes {key} is {waiting[key]}" for key, value in wanted.items() if waiting[key] != value]
    wrong += [] if int(waiting["waiting_bytes"]) >= int(before["waiting_bytes"]) > -1 else [f"bytes: {before}, {waiting}"]
    wrong += faults(live.night())
    after = pairs(live)
    wrong += [f"after a night {key} is {after[key]}" for key in ("waiting_rows", "stale_views") if after[key] != "0"]
    wrong += [] if int(after["night"]) > 0 and 0 <= int(after["night_age"]) < 60 else [f"after a night: {after}"]
    live.asked(f"DELETE FROM {live.database.before}placed WHERE id = 6;")
    check(live, "placed")
    return wrong + ([] if pairs(live)["differing"] == "1" and any("1 keys of" in line for line in history(live)) else [f"after a drift: {history(live)}"])


BESIDE = {"postgresql": {"checks beside a writer": beside_mistakes, "a table that is written anew": rewritten_mistakes}, "sqlite": {}}


def check_mistakes(live, only=""):
    """What is wrong with checks, and how many drifts were tried."""
    found, many = each_case(live, OF[live.engine], mistakes_of, only, "check: ")
    return found + each_of(live, {"in turn": turn_mistakes, **BESIDE[live.engine]}), many
