"""What the parts of a night say that comes later, to a warehouse that stays, or their first fault: by docs/FORMATS.md alone."""

import csv
import io

from whview.bundle import words_of

SINGLE = ("catalogue", "sizes", "strategy", "plan", "schedule")
MOST, LEAST = 2**63 - 1, -(2**63)


class Fault(Exception):
    """The first fault of the parts, in words."""


# ---- headings


def is_heading(heading):
    """Whether a part of some command has this heading. What opens a further night is none here."""
    word, _, name = heading.partition(" ")
    return heading in SINGLE or (word in ("data", "changes") and name != "")


def parts_in(text):
    """The lines of the parts, by their headings, in their order."""
    parts, lines = {}, None
    for line in text.split("\n")[:-1]:
        if line.startswith("@") and not line.startswith("@@"):
            heading = line[1:].removesuffix("\r").rstrip(" \t")
            if not is_heading(heading) or heading in parts:
                raise Fault(f"part {heading.split(' ')[0] or 'text'}")
            lines = parts[heading] = []
        elif lines is not None:
            lines.append(line.removeprefix("@") if line.startswith("@@") else line)
        elif words_of([line]):
            raise Fault("part text")
    return parts


def only_own(parts, views):
    """Refuses parts that no later night has."""
    own = ["strategy", *(f"changes {view.name}" for view in views if not view.over)]
    for heading in parts:
        if heading not in own:
            raise Fault(f"part {heading.split(' ')[0]}")


# ---- changes


def number_in(cell, record):
    """A whole number: digits, perhaps with a sign before them, within 64 bits."""
    digits = cell[1:] if cell[:1] in ("+", "-") else cell
    if not (digits.isascii() and digits.isdecimal() and LEAST <= int(cell) <= MOST):
        raise Fault(f"number {record}")
    return int(cell)


def row_in(view, cells, record, number):
    return tuple(number_in(cell, record) if kind == "int" else number(cell) for cell, (_, kind) in zip(cells, view.columns))


def row_named(cells, view, number):
    """The row that cells name, read as the one record of a table behind the count 1."""
    records = [list(each) for each in csv.reader(io.StringIO("1," + cells.decode(errors="surrogateescape"), newline=""))]
    for record, (*own,) in enumerate(filter(None, records), 2):
        if len(own) != len(view.columns) + 1 or any("\udc80" <= letter <= "\udcff" for cell in own for letter in cell):
            raise Fault(f"csv {record}")
        count = number_in(own[0], record)
        row = row_in(view, own[1:], record, number)
        if count < 1:
            raise Fault(f"number {record}")
        if record > 2:
            raise Fault("csv 3")
    return row


def changes_in(lines, view, number):
    """The rows of a part with their counts that are not zero, record by record. None where there is no such part."""
    found, header = {}, ["#", *(name for name, _ in view.columns)]
    if lines is None:
        return found
    records = list(filter(None, csv.reader(io.StringIO("".join(line + "\n" for line in lines), newline=""))))
    if records[:1] != [header]:
        raise Fault("header")
    for record, (count, *cells) in enumerate(records[1:], 2):
        if len(cells) != len(view.columns):
            raise Fault(f"csv {record}")
        told = number_in(count, record)
        row = row_in(view, cells, record, number)
        found[row] = found.get(row, 0) + told
        if told == 0 or not LEAST <= found[row] <= MOST:
            raise Fault(f"number {record}")
    return {row: count for row, count in found.items() if count}


# ---- strategies


def strategy_in(lines, names):
    """The expressions of these lines over the views of these names."""
    found = []
    for place, line in enumerate(lines, 1):
        match words_of([line]):
            case []:
                pass
            case [["comp", view, "from", source, *more]] if {view, source, *more} <= set(names):
                found.append((names[view], tuple(names[name] for name in (source, *more))))
            case [["inst", view]] if view in names:
                found.append((names[view], None))
            case _:
                raise Fault(f"strategy {place}")
    return found


# ---- all of it


def night_in(text, opening):
    """The changes of the base views, with None for those of the others, and the strategy. Texts get numbers as they appear, also before a
    fault."""
    parts = parts_in(text)
    lines = parts.get("strategy", opening.own)
    if lines is None:
        raise Fault("part strategy")
    only_own(parts, opening.views)
    changes = [None if view.over else changes_in(parts.get(f"changes {view.name}"), view, opening.number) for view in opening.views]
    return changes, strategy_in(lines, opening.names)
