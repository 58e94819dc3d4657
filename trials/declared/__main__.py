"""Views of folders whose catalogue is SQL: after every night each reads as sqlite3 says of the same SELECT over the same rows, or it is refused with its reason.

Each construct has its cases over a shop with values at the edges of their kinds; then views are drawn from a grammar of all of them. What has a fault is told
with its line, a catalogue that changes keeps all rows, and changes come once, wherever a night stops.
"""

import os
import sqlite3
import sys
import tempfile
from collections import Counter

from trials import pages
from trials.declared.cases import BELOW, REFUSED, TABLES, TAKEN
from trials.declared.drawn import KINDS as DRAWN_KINDS
from trials.declared.drawn import TABLES as DRAWN_TABLES
from trials.declared.drawn import Views
from trials.declared.shop import DAYS, KINDS, first
from trials.declared.warehouse import Told, Warehouse
from trials.declared.ways import ways_mistakes
from upkeep.words import program, words
from whview.views.refused import Refused
from whview.views.sqlite.declared import declared
from whview.views.sqlite.taking import TakingDeclared

PACKAGES = ("pglast",)
PARTS = ("cases", "refused", "drawn", "ways", "page")
HEADING = "A catalogue as somebody wrote it"
TOGETHER, DRAWN_TOGETHER, NIGHTS, SHOWN = 10, 8, 2, 12


def batches(only):
    """The views of constructs that have this in their names, some at a time."""
    found = []
    for construct, queries in TAKEN.items():
        name = "".join(letter if letter.isalnum() else "_" for letter in construct.lower())[:30]
        found += [(f"{name}_{at}", query) for at, query in enumerate(queries, 1) if only in construct]
    return [dict(found[at : at + TOGETHER]) for at in range(0, len(found), TOGETHER)]


def batch_mistakes(built, views):
    """What is wrong with views that are kept together, after the first night and after each day's."""
    made = [each for each in BELOW.split(";\n") if each.strip()] + [f"CREATE VIEW {name} AS {query}" for name, query in views.items()]
    wrong = []
    with tempfile.TemporaryDirectory() as folder:
        kept = Warehouse(folder, built, first(), TABLES + "".join(f"{each};\n" for each in made), KINDS)
        try:
            for day in (None, *DAYS):
                if day is not None:
                    day(kept.tables)
                    kept.put_changes()
                kept.night()
                wrong += [f"{day.__name__ if day else 'first'}: {each}" for each in kept.differences(kept.database(made), [*views, "open_orders", "by_state"])]
        except Told as told:
            wrong.append(f"{list(views)}: {told}")
    return wrong


def case_mistakes(built, only):
    """What is wrong with the views of all constructs."""
    tried = batches(only)
    wrong = [each[:900] for views in tried for each in batch_mistakes(built, views)]
    return wrong, f"{sum(map(len, tried))} views of {len(TAKEN)} constructs, over {len(DAYS) + 1} nights"


def refused_mistakes(built):
    """What is taken that has to be refused, or refused for another reason, or without its place, or made."""
    wrong = []
    for name, (query, why) in REFUSED.items():
        with tempfile.TemporaryDirectory() as folder:
            kept = Warehouse(folder, built, first(), f"{TABLES}CREATE VIEW v AS {query};\n", KINDS)
            try:
                kept.night()
                wrong.append(f"{name} is taken")
            except Told as told:
                wrong += [] if why in str(told) and ("line 6, column " in str(told)) and not (kept.folder / "kept").exists() else [f"{name}: {told}"]
    return wrong, f"{len(REFUSED)} views refused with line and reason, and nothing made"


def drawn_batch(built, seed, counts, reasons):
    """What is wrong with drawn views that are kept together."""
    views, names, made = Views(seed), {}, []
    tables = {name: views.rows(name, 12) for name in DRAWN_KINDS}
    while len(names) < DRAWN_TOGETHER:
        query, name = views.view(), f"v{len(names) + 1}"
        why = refused(query)
        counts["refused" if why else "taken"] += 1
        if why:
            reasons[why] += 1
            continue
        names[name] = query
        made.append(f"CREATE VIEW {name} AS {query}")
    wrong = []
    with tempfile.TemporaryDirectory() as folder:
        kept = Warehouse(folder, built, tables, DRAWN_TABLES + "".join(f"{each};\n" for each in made), DRAWN_KINDS)
        try:
            for night in range(NIGHTS + 1):
                if night:
                    kept.tables.update({name: views.changed(rows, name) for name, rows in kept.tables.items()})
                    kept.put_changes()
                kept.night()
                wrong += [f"seed {seed}, night {night}: {each}\nof {names[each.partition(':')[0]]}" for each in kept.differences(kept.database(made), list(names))]
        except (Told, sqlite3.Error) as told:
            wrong.append(f"seed {seed}: {told}\nof {names}")
    return wrong


def refused(query):
    """Why a view is refused, or an empty text."""
    try:
        taking = TakingDeclared(declared(f"{DRAWN_TABLES}CREATE VIEW v AS {query};\n"))
        taking.taken()
    except Refused as fault:
        return fault.cause
    return taking.refused[0].cause if taking.refused else ""


def drawn_mistakes(built, many, seed):
    """What is wrong with so many drawn views, and why others were refused."""
    counts, reasons, wrong = Counter(), Counter(), []
    for at in range(-(-many // DRAWN_TOGETHER)):
        wrong += [each[:1200] for each in drawn_batch(built, seed + at, counts, reasons)]
    return wrong, f"{counts['taken']} drawn views over {NIGHTS + 1} nights, {counts['refused']} refused: {dict(reasons) or 'none'}"


def page_mistakes(built):
    """What the walk of the page prints otherwise than the page says."""
    found = pages.blocks_of("WAREHOUSE.md", HEADING)
    with tempfile.TemporaryDirectory() as folder:
        ran = pages.run(found["sh"][0], folder, WHVIEW_PROGRAM=built)
    right = (ran.stdout, ran.returncode) == (found[""][0], 0)
    return [] if right else [f"the page: {ran.stdout}{ran.stderr}"], "the walk of docs/WAREHOUSE.md"


def main():
    parser = words(__doc__)
    parser.add_argument("program", nargs="?", help="what is run in place of the repository's own program")
    parser.add_argument("--only", default="", metavar="WORD", help="the constructs that have this in their names")
    parser.add_argument("--drawn", type=int, default=80, metavar="N", help="so many drawn views (%(default)s)")
    parser.add_argument("--seed", type=int, default=20261130, help="from where views are drawn (%(default)s)")
    parser.add_argument("--parts", default=",".join(PARTS), help="what is tried (%(default)s)")
    asked, told, wrong = parser.parse_args(), [], []
    built = os.path.realpath(program(asked.program))
    parts = {
        "cases": lambda: case_mistakes(built, asked.only), "refused": lambda: refused_mistakes(built),
        "drawn": lambda: drawn_mistakes(built, asked.drawn, asked.seed), "ways": lambda: ways_mistakes(built),
        "page": lambda: page_mistakes(built),
    }
    for part in asked.parts.split(","):
        found, said = parts[part]()
        wrong, told = [*wrong, *found], [*told, said]
    print("\n".join([*wrong[:SHOWN], *told, f"{len(wrong)} mistakes" if wrong else "no mistakes"]))
    return 1 if wrong else 0


if __name__ == "__main__":
    sys.exit(main())
