"""What is answered to a bundle without a fault that others wrote, by the machine of trials/oracle/machine.py: the replies of a schedule, and the
tables and refusals of a night."""

import csv

from trials.oracle import machine
from trials.oracle.given import Given
from whview.catalogue.parts import line
from whview.strategy.rules import broken

ONE_WORKER = "@schedule\ndesks 1\nworkers 1\nkeys 256\n"
# All combinations of rows are gone over, so a night of more records than this is left out.
MOST_RECORDS = 100
# What a reader of bundles without faults makes of some that have one.
NOT_TAKEN = (ValueError, KeyError, IndexError, TypeError, csv.Error)


def replies(given):
    """The text and the status of `replay`, or None of a bundle that the reader does not take."""
    try:
        bundle = Given(given.decode())
    except NOT_TAKEN:
        return None
    text, status = machine.answer(bundle)
    return text.encode(), status


def shown(bundle, tables):
    """The tables of the derived views, as they are printed."""
    texts = {number: text for text, number in bundle.numbers.items()}
    said = ""
    for view, table in zip(bundle.views, tables):
        if view.over:
            kinds = ["int", *(kind for _, kind in view.columns)]
            said += f"view {view.name}\n" + line(["#", *(name for name, _ in view.columns)])
            rows = [[table[row], *row] for row in sorted(table) if table[row]]
            said += "".join(line([texts[cell] if kind == "text" else cell for cell, kind in zip(row, kinds)]) for row in rows)
    return said


def carried(bundle):
    """The tables after the first night by one worker, or how a refusal of it begins."""
    carrying = machine.Machine(bundle)
    told = carrying.reply("begin")
    while told.partition(" ")[0] != "refused" and (stage := carrying.night.stage) is not None:
        steps = [("take", 0), ("done", 0)] if isinstance(stage, list) else [("page",)]
        told = [carrying.reply(*step) for step in steps][-1]
    if told.startswith("refused"):
        return told.lower() + " "
    carrying.reply("commit")
    return f"version 1\n{shown(bundle, carrying.versions[-1])}"


def night(given):
    """What stands in the answer to `night` from the line of its version on, before its readers, or how its answer begins where it has no
    such line; None of a bundle that the reader does not take, or that is large."""
    if not given.endswith(b"\n"):
        return None
    try:
        bundle = Given(given.decode() + ONE_WORKER)
    except NOT_TAKEN:
        return None
    if told := broken(bundle.views, bundle.nights[0][1]):
        return f"{told}\n".encode()
    if sum(map(len, [*bundle.tables, *filter(None, bundle.nights[0][0])])) > MOST_RECORDS:
        return None
    try:
        return carried(bundle).encode()
    except machine.NoContents as refused:
        return f"refused {refused}\n".encode()
