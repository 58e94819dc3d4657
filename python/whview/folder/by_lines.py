"""Tables by their lines: judged, counted, searched and changed without a look at each cell.

A table of the tool's own has `#`, a line for each row, and a line feed alone at a line's end. Rows that were given on several lines, each
with its count, stand on these until they change. A line end within a cell, which quotes allow, takes a table out of this: that one is
read row by row.
"""

from __future__ import annotations

import re
from collections import Counter
from collections.abc import Collection, Iterable, Iterator, Mapping, Sequence
from functools import lru_cache
from itertools import pairwise
from os.path import commonprefix
from typing import TYPE_CHECKING, NamedTuple

from .piece_sums import Spliced

if TYPE_CHECKING:
    from ..catalogue.views import Column, Row

# How much of a table is looked through at a time.
BLOCK = 2**15
# How many lines are looked for each by itself, and how many all together by a form that names them; and of how many bytes a table is worth
# that the form is made.
FEW, NAMED, LARGE = 6, 256, 2**20
# How often such a form parts its lines by what they begin with, and how many bytes of each it has: a longer one takes longer to make.
DEEP, BEGIN = 16, 32
# The counts of a table that are not 1, and lines that do not count 1, of which the last one is what stands behind all lines.
COUNTS, OTHER = re.compile(rb"\n(?!1,)([0-9]{1,19}),"), re.compile(rb"\n(?!1,)")
# What never matches, the last choice within a repetition that gives nothing back: Python before 3.11.5 goes on from where the round that
# fails has come to, and this has it go on from where that round began.
NEVER = rb"|(?!)"
# Lines that each begin with a count; a line without anything; a carriage return that ends no line.
COUNTED = re.compile(rb"(?:[1-9][0-9]{0,17}+,[^\n]*+(?:\n|\Z)" + NEVER + rb")*+")
BLANK, RETURN = re.compile(rb"\n\r?\n"), re.compile(rb"\r(?!\n)")
# Texts in which each quote opens a cell or closes it, and no cell goes over lines.
QUOTES = re.compile(rb'(?:[^"]*+(?<=[,\n])"[^"\n]*+(?:""[^"\n]*+)*+"(?:[,\r\n]|\Z)' + NEVER + rb')*+[^"]*+')
# What a number begins with that is written in another way than the tool's: behind a comma, and at a line's beginning.
OTHERWISE, FIRST_OTHERWISE = re.compile(rb",(?:\+|-?0[0-9]|-0)"), re.compile(rb"\n(?:\+|-?0[0-9]|-0)")
# Counts so long that as many of them as an input can have may leave 64 bits together.
LONG_COUNTS = re.compile(rb"\n-?[0-9]{13,},")
OTHERS = bytes(set(range(256)) - set(b'"\n'))
NUMBER, POSITIVE, CHANGED = rb"[+-]?[0-9]{1,18}+", rb"[1-9][0-9]{0,17}+", rb"-?[1-9][0-9]{0,17}+"
# A number and a text in quotes as the tool writes them: without a plus or zeros before it, and in quotes only where it has need of them.
OWN_NUMBER, OWN_QUOTED = rb"(?:0|-?[1-9][0-9]{0,18}+)", rb'"[^",\r\n\0]*+(?:,|"")(?:[^"\r\n\0]++|"")*+"'
QUOTED, PLAIN = rb'"(?:[^"\0]++|"")*+"', rb'[^",\r\n\0]'


@lru_cache(64)
def form(kinds: tuple[str, ...], count: bytes | None, number: bytes = NUMBER, quoted: bytes = QUOTED) -> re.Pattern[bytes]:
    """What records look like whose cells are of these kinds, behind a count of this form, if they have one."""
    alone = len(kinds) == 1 and not count
    text = b"(?:" + PLAIN + (b"++|" if alone else b"*+|") + quoted + b")"
    cells = [*([count] if count else []), *(number if kind == "int" else text for kind in kinds)]
    record = b",".join(cells)
    return re.compile(b"(?:" + record + b"\r?\n" + NEVER + b")*+(?:" + record + NEVER + b")?+")


def is_all(form: re.Pattern[bytes], content: bytes, start: int = 0) -> bool:
    """Whether all of a content from a place on is of a form."""
    found = form.match(content, start)
    return found is not None and found.end() == len(content)


def is_utf_8(content: bytes) -> bool:
    try:
        return content.isascii() or content.decode() is not None
    except UnicodeDecodeError:
        return False


def is_sound(content: bytes, start: int, columns: Iterable[Column], is_counted: bool, are_changes: bool) -> bool:
    """Whether all records of a table or of changes are seen at once to have no fault. Of one that is not, nothing is said."""
    count = (CHANGED if are_changes else POSITIVE) if is_counted else None
    if is_counted and LONG_COUNTS.search(content, start - 1):
        return False
    return is_all(form(tuple(kind for _, kind in columns), count), content, start) and is_utf_8(content)


def is_in_lines(content: bytes, start: int, is_counted: bool, count_one: bool) -> bool:
    """Whether all records of a table are seen to be lines, none of them empty, each behind its count where there are counts, and whether
    all quotes open cells and close them. What the cells hold is not looked at, nor are counts where it is known that all are 1.
    """
    if is_counted and not count_one and not is_all(COUNTED, content, start):
        return False
    if not is_counted and BLANK.search(content, start - 1):
        return False
    if b"\r" in content and RETURN.search(content, start):
        return False
    return b'"' not in content or is_all(QUOTES, content, start)


def is_own(content: bytes, start: int, columns: Iterable[Column], is_counted: bool) -> bool:
    """Whether the records of a table that are lines are written as the tool writes them, so that equal rows have equal lines. Where there are
    quotes it is said of no others than lines.
    """
    kinds = tuple(kind for _, kind in columns)
    if b'"' not in content:
        is_plain = "int" not in kinds or not OTHERWISE.search(content, start)
        if is_plain and (is_counted or kinds[0] == "text" or not FIRST_OTHERWISE.search(content, start - 1)):
            return True
    return is_all(form(kinds, POSITIVE if is_counted else None, OWN_NUMBER, OWN_QUOTED), content, start)


def counts_one(content: bytes, start: int) -> bool:
    """Whether each line of a table from here on counts 1."""
    other = OTHER.search(content, start - 1)
    return not other or other.end() == len(content)


def is_formed(content: bytes, start: int, columns: int, is_counted: bool) -> bool:
    """Whether it is seen at once that all records have so many columns, whatever these hold."""
    return is_all(form(("text",) * columns, POSITIVE if is_counted else None), content, start)


def has_whole_lines(content: bytes) -> bool:
    """Whether each record is a line: the quotes of each line are even."""
    return b'"' not in content or b'"' not in content.translate(None, OTHERS).replace(b'""', b"")


def row_of(row: Row) -> bytes:
    """A row as a line has it, behind its count."""
    cells = map(str, row)
    marked = ['"' + cell.replace('"', '""') + '"' if set(cell) & set(',"\r\n') else cell for cell in cells]
    return ",".join(marked).encode()


# ---- how many


def counted(table: bytes, count_one: bool = False) -> int:
    """How many rows a table with `#` has: the sum of its counts. All records are lines."""
    lines = table.count(b"\n") - table.endswith(b"\n")
    return lines if count_one else lines + beyond_one(table)


def beyond_one(table: bytes) -> int:
    """How many rows a table has beyond one in each line."""
    return sum(int(count) - 1 for count in COUNTS.findall(table))


def counted_through(table: bytes) -> int:
    """The same, whatever the cells have."""
    inside, total = False, 0
    for number, line in enumerate(table.split(b"\n")):
        if number and line and not inside:
            total += int(line.partition(b",")[0])
        inside ^= line.count(b'"') % 2 == 1
    return total


# ---- the tool's own form


def without_returns(content: bytes, end_lines: bool) -> bytes:
    """Lines without the carriage returns before their ends. Where it is known that all returns stand there, that is soon done."""
    if b"\r" not in content:
        return content
    return content.replace(b"\r", b"") if end_lines else content.replace(b"\r\n", b"\n")


def own_form(content: bytes, header: bytes) -> bytes:
    """The table in the tool's own form, of lines that begin with counts and have no fault. They stay as they are; where it has that form
    already it is the same one.
    """
    if content.startswith(header) and content.endswith(b"\n"):
        return content
    rows = content[content.find(b"\n") + 1 :].removesuffix(b"\n")
    return b"".join([header, rows, b"\n" * bool(rows)])


def with_counts(content: bytes, header: bytes) -> tuple[bytes, set[int] | None]:
    """The same of lines without counts. Equal rows add up, and stay in the order of their first ones. With it what is kept of the lines,
    where no row stood twice.
    """
    start = content.find(b"\n") + 1
    seen, count = kept_of(content, start)
    if not count:
        return header, seen
    rows = content[start:].removesuffix(b"\n")
    if len(seen) == count:
        return b"".join([header, b"1,", rows.replace(b"\n", b"\n1,"), b"\n"]), seen
    return header + b"".join([b"%d,%s\n" % (count, row) for row, count in Counter(rows.split(b"\n")).items()]), None


def kept_of(content: bytes, start: int) -> tuple[set[int], int]:
    """What is kept of each line, and how many there are. It is a number, which takes less memory than the line; two lines could share one."""
    seen: set[int] = set()
    count = 0
    for _, block in blocks(content, start):
        lines = block.removesuffix(b"\n").split(b"\n")
        seen.update(map(hash, lines))
        count += len(lines)
    return seen, count


def blocks(content: bytes, start: int) -> Iterator[tuple[int, bytes]]:
    """A table from a line on, in blocks of whole lines, each with the place where it begins."""
    while start < len(content):
        end = content.rfind(b"\n", start, start + BLOCK) + 1 or content.find(b"\n", start) + 1 or len(content)
        yield start, content[start:end]
        start = end


class Line(NamedTuple):
    """Where the line of a row begins and ends in a table, and how often the row counts there."""

    start: int
    end: int
    times: int


# The line of a row that does not stand in a table.
NOWHERE = Line(0, 0, 0)


class Standing(NamedTuple):
    """The lines of rows that stand in a table, and how many rows it has beyond one in each line."""

    lines: dict[bytes, Line]
    beyond: int


def standing(content: bytes, start: int, lines: Mapping[bytes, bytes]) -> Iterator[tuple[int, bytes]]:
    """Those of these lines that may stand in a table, each with a place before it. Few are soonest looked for one by one."""
    if len(lines) <= FEW:
        yield from ((start, line) for line in lines)
        return
    for at, block in blocks(content, start):
        yield from ((at, line) for line in lines.keys() & block.split(b"\n"))


def named(rows: Iterable[bytes], depth: int = 0) -> bytes:
    """A form of these rows, parted by what they begin with, so that a line is soon seen to be none of them."""
    groups: dict[bytes, list[bytes]] = {}
    parts: list[bytes] = []
    for row in sorted(rows):
        groups.setdefault(row[:1], []).append(row)
    for group in groups.values():
        if len(group) == 1 or depth == DEEP:
            parts += map(re.escape, group)
        else:
            begin = commonprefix(group) or b""
            parts.append(re.escape(begin) + b"(?:" + named([row[len(begin) :] for row in group], depth + 1) + b")")
    return b"|".join(parts)


def scanned(content: bytes, start: int, rows: Collection[bytes]) -> Standing:
    """The same as `places`, of rows that are few, and how many rows the table has beyond one in each line: both by one look at each line."""
    begins = named({row[:BEGIN] for row in rows})
    form = re.compile(rb"\n(?:1,(?=" + begins + rb")([^\n]*)|(?!1,)([0-9]{1,19}),([^\n]*))")
    found: dict[bytes, Line] = {}
    beyond = 0
    for line in form.finditer(content, start - 1):
        row, count, other = line.groups()
        if row in rows:
            found.setdefault(row, Line(line.start() + 1, line.end() + 1, 1))
        elif count:
            beyond += int(count) - 1
            if other in rows:
                found[other] = Line(line.start() + 1, line.end() + 1, int(count))
    return Standing(found, beyond)


def places(content: bytes, start: int, rows: Collection[bytes], count_one: bool = False) -> dict[bytes, Line]:
    """Where the lines of these rows, as lines have them, begin and end in a table of the tool's own, and how often each counts; where it
    is known that all count 1, no others are looked for.
    """
    if FEW < len(rows) <= NAMED and len(content) >= LARGE:
        return scanned(content, start, rows).lines
    once = {b"1," + row: row for row in rows}
    found: dict[bytes, Line] = {}
    for at, line in standing(content, start, once):
        place = content.find(b"\n" + line + b"\n", at - 1) + 1
        if place:
            found[once[line]] = Line(place, place + len(line) + 1, 1)
    for other in () if count_one else COUNTS.finditer(content, start - 1):
        end = content.find(b"\n", other.end())
        row = content[other.end() : end]
        if row in rows:
            found[row] = Line(other.start() + 1, end + 1, int(other[1]))
    return found


class Splice(NamedTuple):
    """A text in the place of what stands in a table from its start to its end."""

    start: int
    end: int
    text: bytes


def spliced(content: bytes, edits: Iterable[Splice], coming: Iterable[bytes]) -> Spliced:
    """A table in pieces, with these texts in their places, and behind them what comes."""
    found, last = Spliced(content), 0
    for start, end, text in sorted(edits):
        found.keep(last, start)
        found.add(text)
        last = end
    found.keep(last, len(content))
    for text in coming:
        found.add(text)
    return found


def changed(content: bytes, found: Mapping[bytes, Line], changes: Mapping[bytes, int]) -> Spliced | None:
    """The table with these changes of rows, in pieces: what is left of a row stands where it stood, and a new one at the end. `found` has
    the places of the rows that are there. None where more of a row leave than there are.
    """
    edits: list[Splice] = []
    coming: list[bytes] = []
    for row, count in changes.items():
        start, end, there = found.get(row, NOWHERE)
        total = there + count
        if total < 0:
            return None
        text = b"%d,%s\n" % (total, row) if total else b""
        if there:
            edits.append(Splice(start, end, text))
        else:
            coming.append(text)
    return spliced(content, edits, coming)


def coming(change: bytes) -> list[tuple[bytes, int]]:
    """The lines of a change as rows with their counts, in the order in which they stand."""
    return [(row, int(count)) for count, _, row in (line.partition(b",") for line in change.split(b"\n")[1:-1])]


def sum_of(change: bytes) -> int:
    """How many more rows a table has with a change."""
    return sum(count for _, count in coming(change))


class Edit:
    """A row of a change: where it stands in the table, if it does, and how often it stands there afterwards."""

    def __init__(self, row: bytes, place: tuple[int, int] | None, total: int) -> None:
        self.row, self.place, self.total = row, place, total

    @property
    def leaves(self) -> bool:
        return self.place is not None and not self.total

    @property
    def comes(self) -> bool:
        return self.place is None and self.total > 0

    @property
    def text(self) -> bytes:
        return b"%d,%s\n" % (self.total, self.row) if self.total else b""


def replace(edits: Sequence[Edit]) -> None:
    """Has a row that comes take the place of one beside it that leaves, where both begin with the same cell."""
    for one, other in pairwise(edits):
        old, new = (one, other) if one.leaves else (other, one)
        if old.leaves and new.comes and old.row.partition(b",")[0] == new.row.partition(b",")[0]:
            old.place, new.place = None, old.place


def found_and_beyond(content: bytes, rows: Collection[bytes]) -> Standing:
    """Where these rows stand in a table of the tool's own, and how many rows it has beyond one in each line."""
    start = content.find(b"\n") + 1
    if len(rows) <= NAMED and len(content) >= LARGE:
        return scanned(content, start, rows)
    beyond = beyond_one(content)
    return Standing(places(content, start, rows, not beyond), beyond)


def merged(content: bytes, change: bytes, total: int | None = None) -> Spliced | None:
    """A table with a change as the program prints it, in pieces. A row that comes stands in the place of one beside it that leaves, or at the
    end. None where the table has not as many rows as it is told to have, or more of a row leave than there are.
    """
    rows = coming(change)
    edits: list[Edit] = []
    found, beyond = found_and_beyond(content, {row for row, _ in rows})
    if total is not None and total != content.count(b"\n") - 1 + beyond:
        return None
    for row, count in rows:
        start, end, there = found.get(row, NOWHERE)
        if there + count < 0:
            return None
        edits.append(Edit(row, (start, end) if there else None, there + count))
    replace(edits)
    return spliced(content, [Splice(*edit.place, edit.text) for edit in edits if edit.place], [edit.text for edit in edits if not edit.place])
