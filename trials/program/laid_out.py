"""Runs `whview night` where many views look one table up by its later columns, and reads each view anew over the new base.

Facts refer to two small tables by their second and third columns, and sixteen views join the three: so the facts are laid out behind
these columns while they do, before their own changes are installed or after. Rows of all three leave and come. By each order of the
tables, for all views or for half of them while the others take all tables at once, and by all tables at once, by one worker and by
three, the views have to read, byte for byte, as a night prints them that has the new tables as its data and no changes.
"""

import random
import subprocess
import sys
from itertools import permutations

from trials.ended import ended
from upkeep.words import words_with_program
from upkeep.words import program as started

SEED = 20261126
FACTS, KEYS, LEAVE, COME = 3000, 60, 30, 30
COLUMNS = {"facts": ["id", "shop", "product", "pieces"], "shops": ["shop", "region"], "products": ["product", "kind"]}
JOIN = {"shops": '["facts.shop", "shops.shop"]', "products": '["facts.product", "products.product"]'}
SUMMARY = 'group = [["region", "shops.region"]]\ncount = "facts"\nsum = [["pieces", "facts.pieces"]]'
KINDS = 'group = [["kind", "products.kind"], ["region", "shops.region"]]\ncount = "facts"\nsum = []'
ROWS = 'keep = [["id", "facts.id"], ["region", "shops.region"]]'


def views():
    """Each view's name, what it is over, and the rest of its definition."""
    for number in range(4):
        yield f"regions{number}", ["facts", "shops"], SUMMARY
        yield f"rows{number}", ["shops", "facts"], ROWS
        yield f"kinds{number}", ["facts", "shops", "products"], KINDS
        yield f"all{number}", ["products", "facts", "shops"], SUMMARY


VIEWS = list(views())


def catalogue():
    lines = ["@catalogue"]
    for name, columns in COLUMNS.items():
        listed = ", ".join(f'"{column}"' for column in columns)
        lines += ["[[view]]", f'name = "{name}"', f"columns = [{listed}]"]
    for name, over, rest in VIEWS:
        listed = ", ".join(f'"{child}"' for child in over)
        joins = ", ".join(JOIN[child] for child in over if child in JOIN)
        lines += ["[[view]]", f'name = "{name}"', f"over = [{listed}]", f"join = [{joins}]", rest]
    return lines


def table(heading, columns, rows):
    """A table's part of a bundle, or that of its changes."""
    return [heading, ",".join(columns)] + [",".join(map(str, row)) for row in rows]


def drawn(draw):
    """The old tables, and the changes of each: rows that leave, and rows that come."""
    old = {
        "facts": [(k, draw.randrange(KEYS), draw.randrange(KEYS), draw.randrange(9)) for k in range(FACTS)],
        "shops": [(k, draw.randrange(5)) for k in range(KEYS)],
        "products": [(k, draw.randrange(5)) for k in range(KEYS)],
    }
    gone = {name: draw.sample(rows, LEAVE if name == "facts" else 3) for name, rows in old.items()}
    come = {
        "facts": [(FACTS + k, draw.randrange(KEYS), draw.randrange(KEYS), 1) for k in range(COME)],
        "shops": [(row[0], 5) for row in gone["shops"]],
        "products": [(row[0], 6) for row in gone["products"]],
    }
    return old, gone, come


def comps(base, views):
    """A Comp from the table of each of these views that is over it."""
    return [f"comp {name} from {base}" for name, over, _ in views if base in over]


def one_after_another(order):
    """The strategy by which each table's changes are brought into all views before the next one's."""
    lines = []
    for base in order:
        lines += comps(base, VIEWS) + [f"inst {base}"]
    return lines + [f"inst {name}" for name, _, _ in VIEWS]


def at_once(views):
    """For each of these views a Comp from all that it is over."""
    return [f"comp {name} from {' '.join(base for base in COLUMNS if base in over)}" for name, over, _ in views]


def half_at_once(order):
    """The strategy by which half of the views take all changes first, and the others those of one table after another."""
    half = len(VIEWS) // 2
    lines = at_once(VIEWS[:half])
    for base in order:
        lines += comps(base, VIEWS[half:]) + [f"inst {base}"]
    return lines + [f"inst {name}" for name, _, _ in VIEWS]


def all_at_once():
    """The strategy by which each view takes all changes in one Comp."""
    return at_once(VIEWS) + [f"inst {name}" for name in [*COLUMNS, *(name for name, _, _ in VIEWS)]]


def printed_views(program, bundle, workers):
    run = subprocess.run([program, "night", "--workers", str(workers)], input="\n".join(bundle) + "\n", capture_output=True, text=True)
    if run.returncode != 0 or "\nview " not in run.stdout:
        sys.exit(f"status {run.returncode}: {run.stdout[:300]}")
    return run.stdout[run.stdout.index("\nview ") :]


def main():
    program = started(words_with_program(__doc__).parse_args().program)
    old, gone, come = drawn(random.Random(SEED))
    head = catalogue()
    new = {name: sorted((set(rows) - set(gone[name])) | set(come[name])) for name, rows in old.items()}
    before = [line for name in COLUMNS for line in table(f"@data {name}", COLUMNS[name], old[name])]
    after = [line for name in COLUMNS for line in table(f"@data {name}", COLUMNS[name], new[name])]
    changed = {name: [(-1, *row) for row in gone[name]] + [(1, *row) for row in come[name]] for name in COLUMNS}
    changes = [line for name in COLUMNS for line in table(f"@changes {name}", ["#", *COLUMNS[name]], changed[name])]
    orders = list(permutations(COLUMNS))
    strategies = [one_after_another(order) for order in orders] + [half_at_once(order) for order in orders] + [all_at_once()]
    wanted = printed_views(program, head + after + ["@strategy"] + strategies[0], 1)
    wrong = 0
    for strategy in strategies:
        for workers in (1, 3):
            views_of = printed_views(program, head + before + changes + ["@strategy"] + strategy, workers)
            if views_of != wanted:
                wrong += 1
                print(f"by {workers} workers other views than anew: {strategy[0]} and so on")
    return ended(f"nights of {len(VIEWS)} views over {FACTS} facts", 2 * len(strategies), wrong)
