"""Doubles, one at a time, each thing that an input can have any number of, and sees that the program's time and memory grow no
faster than the input.

Inputs are right or at fault; a fault that is known early may come early. Twice as many take at most 2.6 times as long, or 0.26 s
where half as many take less than 0.1 s, and memory is at most 12 times the input and 8 MB, or a greater multiple that is said
with what is repeated. Time is the processor time of a run. Where it seems too long, it is the least of some, and counts as too
long only where two doublings take more than 6.8 times as long too: a load beside it is no growth. Without `--full` an input grows
up to 2 MB or to a run of half a second; with it up to the limit of input, or to a run of five seconds or of a gigabyte. What
cannot be proportional is left out: the rows of a join, since their combinations are gone over, and the nodes of a search, which
have a budget. So are events that go over a whole table or change each time: a read past rows that its version does not show, a
`begin` that is refused, and a `giveup`.
"""

import os
import resource
import subprocess
import tempfile
from concurrent.futures import ThreadPoolExecutor
from itertools import islice
from pathlib import Path
from typing import Callable, NamedTuple

from trials.ended import ended
from upkeep.words import program, words_with_program

LIMIT = 67108864
BEGIN = 1 << 16
GROWTH, MARKED, TURNS = 2.6, 0.1, 4
SECONDS = 120

# How many times the input memory may be, beside 8 MB. A catalogue is held as the tree that the crate for TOML makes of it, in
# which a table takes 1,200 bytes however short it is; a row that a bag has is an entry of an ordered map, of 320 bytes or more.
# An event of five bytes is held as one of 40 with a reply of 40, and printed by a line of 20. Of a row that comes there are, while
# its night is gone through, the change, the page, and the tables of the version being written, by the night and by the store.
BYTES, AS_LIST, AS_EVENTS, AS_TREE, AS_ROWS, AS_PAGES, BESIDE = 12, 20, 56, 72, 72, 160, 8 << 20


class Mode(NamedTuple):
    """How far an input grows: in bytes, or to a run of so many seconds or bytes of memory."""

    most: int
    seconds: float
    memory: int


QUICK, FULL = Mode(2 << 20, 0.5, 1 << 28), Mode(LIMIT, 5.0, 1 << 30)


class Case(NamedTuple):
    """What is repeated, the words, the bundle with this many of it as pieces of text, how each answer begins, and how many times
    the input memory may be."""

    name: str
    words: str
    pieces: Callable
    answer: str
    times: int = BYTES


# ---- pieces of text


def listed(form, count, between=""):
    """The texts of `form` from 0 on, this many, put together by the thousand."""
    numbers = iter(range(count))
    first = True
    while block := list(islice(numbers, 1000)):
        yield ("" if first else between) + between.join(map(form, block))
        first = False


def repeated(text, count, between=""):
    """A text this many times."""
    for begun in range(0, count, 1000):
        times = min(1000, count - begun)
        yield (between if begun else "") + between.join([text] * times)


def array(key, items):
    """A key of a view's table whose value is an array."""
    yield f"{key} = ["
    yield from items
    yield "]\n"


# ---- what stands round what is repeated

CATALOGUE = '@catalogue\n[[view]]\nname = "a"\n[[view]]\nname = "b"\n[[view]]\nname = "v"\nover = ["a", "b"]\n'
SIZES = "@sizes\nview,pre,post,change\na,10,12,4\nb,100,70,30\nv,50,44,6\n"
LIST = "comp v from b\ninst b\ncomp v from a\ninst a\ninst v\n"
WEIGHED = f"{CATALOGUE}@strategy\n{LIST}@sizes\nview,pre,post,change,weight\na,10,12,4,1\nb,100,70,30,1\nv,50,44,6,1\n"
PLAN = f"scope all\nwork 154\n{LIST}pair v b a 80\n"
TREE = '@catalogue\n[[view]]\nname = "b"\n[[view]]\nname = "c"\n[[view]]\nname = "v"\nover = ["b", "c"]\n[[view]]\nname = "w"\nover = ["b", "v"]\n'
TREE_SIZES = "@sizes\nview,pre,post,change\nb,60,50,10\nc,50,45,15\nv,70,60,20\nw,80,80,10\n"
TREE_LIST = "comp v from b\ncomp w from b\ninst b\ncomp v from c\ninst c\ncomp w from v\ninst v\ninst w\n"
BASE = '@catalogue\n[[view]]\nname = "a"\ncolumns = ["x", "y", "t:text"]\n'
OVER = f'{BASE}[[view]]\nname = "v"\nover = ["a"]\n'
KEPT = 'keep = [["x", "a.x"], ["t", "a.t"]]\n'
CARRIED = "@strategy\ncomp v from a\ninst a\ninst v\n"
SUMMED = 'group = [["x", "a.x"]]\ncount = "n"\nsum = [["y", "a.y"]]\n'
ONE_COLUMN = '@catalogue\n[[view]]\nname = "a"\ncolumns = ["x"]\n@strategy\ninst a\n'
SCHEDULE = "@schedule\ndesks 1\nworkers 1\nkeys 256\n"
FOUR_KEPT = f"{SCHEDULE}versions 4\n"
REPLAYED = f"{ONE_COLUMN}@data a\nx\n7\n{SCHEDULE}"
CROWDED = REPLAYED.replace(" 1\n", " 16\n")
NEXT_NIGHT = "@night\n@strategy\ninst a\n"
WIDE = ", ".join(f'"c{place}"' for place in range(64))
WIDE_HEADER = ",".join(f"c{place}" for place in range(64))
WIDE_ROW = "1," * 63


def bundle(*pieces):
    """What makes a bundle of these pieces: texts, and what makes some of a number."""
    return lambda count: (text for piece in pieces for text in (piece(count) if callable(piece) else [piece]))


def catalogue(*pieces):
    """A bundle for `check` with these pieces in the last view's table."""
    return bundle(CATALOGUE, *pieces, f"@strategy\n{LIST}{SIZES}")


def derived(*pieces, also=""):
    """A bundle for `night` with these pieces in the table of a view over `a`."""
    return bundle(OVER, *pieces, also + "@data a\nx,y,t\n1,2,one\n" + CARRIED)


def between(head, form, tail="", comma=""):
    """A bundle with a text for each number."""
    return bundle(head, lambda count: listed(form, count, comma), tail)


def over_and_over(head, text, tail="", comma=""):
    """A bundle with one text over and over."""
    return bundle(head, lambda count: repeated(text, count, comma), tail)


def as_deep(head, begin, inner, tail):
    """A bundle with an expression that is so deep."""
    return bundle(head, lambda depth: repeated(begin, depth), inner, lambda depth: repeated("]", depth), tail)


def full_tree(count):
    """A certificate's tree of `branch` lines over `bound`, as many levels as give about this many lines."""
    yield f"{TREE}{TREE_SIZES}@plan\nscope one-way\nwork 490\n{TREE_LIST}"
    levels = max(count.bit_length() - 1, 1)
    lines = lambda level: "bound\n" if level == 0 else "branch b c\n" + 2 * lines(level - 1)
    below = lines(min(levels, 10))
    pending = [levels]
    while pending:
        level = pending.pop()
        if level <= 10:
            yield below
        else:
            yield "branch b c\n"
            pending += [level - 1, level - 1]


NESTED = as_deep(f"{OVER}{KEPT}where = ", '["not", ', "true", f"\n{CARRIED}")
SUM = as_deep(f'{OVER}keep = [["x", ', '["+", 1, ', "1", f"]]\n{CARRIED}")
# A table of so many rows, and reads of 256 rows until it is read.
PAGES_READ = bundle(f"{ONE_COLUMN}@data a\nx\n", lambda count: listed(lambda r: f"{r}\n", count), f"{SCHEDULE}open 0\n",
                    lambda count: repeated("read 0 a 256\n", count // 256 + 1))


def pages_put(keys):
    """A change of so many rows, and pages of `keys` keys until it is put."""
    return bundle(f"{ONE_COLUMN}@changes a\n#,x\n", lambda count: listed(lambda r: f"1,{r}\n", count),
                  f"@schedule\ndesks 1\nworkers 1\nkeys {keys}\nbegin\n", lambda count: repeated("page\n", -(-count // keys)), "commit\n")


def changed_night(number):
    """A night in which the one row becomes another."""
    return f"@night\n@changes a\n#,x\n-1,{number + 7}\n1,{number + 8}\n@strategy\ninst a\n"


def nights(night, events, head=SCHEDULE):
    """So many nights of one form, and these events for each."""
    return bundle(f"{ONE_COLUMN}@data a\nx\n7\n", lambda count: listed(night, count), head, lambda count: repeated(events, count + 1))


CASES = [
    # the catalogue, as TOML and as a shape
    Case("views", "check", between("@catalogue\n", lambda v: f'[[view]]\nname = "v{v}"\n', f"@strategy\n{SIZES}"), "", AS_TREE),
    Case("views of one name", "check", over_and_over(CATALOGUE, '[[view]]\nname = "a"\n', f"@strategy\n{SIZES}"), "fault shape duplicate a", AS_TREE),
    Case("children", "check", catalogue('[[view]]\nname = "w"\n', lambda n: array("over", listed(lambda u: f'"u{u}"', n, ", "))), "", AS_TREE),
    Case("one child", "check", catalogue('[[view]]\nname = "w"\n', lambda n: array("over", repeated('"a"', n, ", "))), "", AS_TREE),
    Case("keys of a view", "check", catalogue(lambda n: listed(lambda k: f"k{k} = 1\n", n)), "correct", AS_TREE),
    Case("keys of a dotted table", "check", catalogue(lambda n: listed(lambda k: f"k.k{k} = 1\n", n)), "correct", AS_TREE),
    Case("a key of many parts", "check", catalogue(lambda n: (yield from ["k"] + list(repeated(".k", n)) + [" = 1\n"])), ""),
    Case("keys of an inline table", "check", catalogue("k = {", lambda n: listed(lambda k: f"k{k} = 1", n, ", "), "}\n"), "correct", AS_TREE),
    Case("tables", "check", catalogue(lambda n: listed(lambda k: f"[k{k}]\n", n)), "correct", AS_TREE),
    Case("tables in a table", "check", catalogue(lambda n: listed(lambda k: f"[k.k{k}]\n", n)), "correct", AS_TREE),
    Case("a header of many parts", "check", catalogue(lambda n: (yield from ["[k"] + list(repeated(".k", n)) + ["]\n"])), ""),
    Case("tables of an array", "check", catalogue(lambda n: repeated("[[k]]\n", n)), "correct"),
    Case("members of an array", "check", catalogue("k = [", lambda n: repeated("1", n, ", "), "]\n"), "correct", AS_TREE),
    Case("arrays in arrays", "check", catalogue("k = ", lambda n: repeated("[", n), lambda n: repeated("]", n), "\n"), ""),
    Case("tables in tables", "check", catalogue("k = ", lambda n: repeated("{k = ", n), "1", lambda n: repeated("}", n), "\n"), ""),
    Case("comments", "check", catalogue(lambda n: repeated("# a comment\n", n)), "correct"),
    Case("blank lines of a catalogue", "check", catalogue(lambda n: repeated("\n", n)), "correct"),
    Case("line ends of two bytes", "check", catalogue(lambda n: repeated("\r\n", n)), "correct"),
    Case("lines with two @", "check", catalogue('k = """\n', lambda n: repeated("@@\n", n), '"""\n'), "correct"),
    Case("a long string", "check", catalogue('k = "', lambda n: repeated("long ", n), '"\n'), "correct"),
    Case("escapes in a string", "check", catalogue('k = "', lambda n: repeated("\\n", n), '"\n'), "correct"),
    Case("digits of a number", "check", catalogue("k = ", lambda n: repeated("1", n), "\n"), ""),
    Case("a long name", "check", catalogue('[[view]]\nname = "', lambda n: repeated("n", n), '"\n'), "fault key name"),
    # columns and formulas
    Case("columns", "night", between('@catalogue\n[[view]]\nname = "a"\ncolumns = [', lambda c: f'"c{c}"', "]\n@strategy\ninst a\n", ", "), "", AS_TREE),
    Case("pairs of join", "night", derived(lambda n: array("join", repeated('["a.x", "a.y"]', n, ", ")), KEPT), "comp v from a", AS_TREE),
    Case("pairs of keep", "night", derived(lambda n: array("keep", listed(lambda c: f'["c{c}", "a.x"]', n, ", "))), "", AS_TREE),
    Case("pairs of group", "night", derived('count = "n"\n', lambda n: array("group", listed(lambda c: f'["c{c}", "a.x"]', n, ", "))), "", AS_TREE),
    Case("pairs of sum", "night", derived('count = "n"\ngroup = []\n', lambda n: array("sum", listed(lambda c: f'["c{c}", "a.x"]', n, ", "))), "", AS_TREE),
    Case("members of all", "night", derived(KEPT, lambda n: array("where", ['"all", ', *repeated('["=", "a.x", 1]', n, ", ")])), "comp v from a", AS_TREE),
    Case("members of any", "night", derived(KEPT, lambda n: array("where", ['"any", ', *repeated('["=", "a.x", 2]', n, ", ")])), "comp v from a", AS_TREE),
    Case("members without a member", "night", derived(KEPT, lambda n: array("where", ['"all", ', *repeated('["all"]', n, ", ")])), "comp v from a", AS_TREE),
    Case("a deep predicate", "night", NESTED, ""),
    Case("a deep expression", "night", SUM, ""),
    Case("text literals", "night", derived(KEPT, lambda n: array("where", ['"any", ', *listed(lambda t: f'["=", "a.t", {{ text = "t{t}" }}]', n, ", ")])), "comp v from a", AS_TREE),
    Case("one text literal", "night", derived(KEPT, lambda n: array("where", ['"any", ', *repeated('["=", "a.t", { text = "t" }]', n, ", ")])), "comp v from a", AS_TREE),
    Case("a long text literal", "night", derived(KEPT, 'where = ["=", "a.t", { text = "', lambda n: repeated("long ", n), '" }]\n'), "comp v from a"),
    # tables, changes and sizes
    Case("equal rows", "night", over_and_over(f"{ONE_COLUMN}@data a\nx\n", "1\n"), "inst a: 0", AS_ROWS),
    Case("distinct rows", "night", between(f"{ONE_COLUMN}@data a\nx\n", lambda r: f"{r}\n"), "inst a: 0", AS_ROWS),
    Case("rows in no order", "night", between(f"{ONE_COLUMN}@data a\nx\n", lambda r: f"{r * 2654435761 % 4294967291}\n"), "inst a: 0", AS_ROWS),
    Case("rows with a count", "night", between(f"{ONE_COLUMN}@data a\n#,x\n", lambda r: f"1,{r}\n"), "inst a: 0", AS_ROWS),
    Case("a table shown", "night", between(f"{OVER}{KEPT}{CARRIED}@data a\nx,y,t\n", lambda r: f"{r},1,t{r}\n"), "comp v from a: 0", AS_ROWS),
    Case("texts", "night", between(f"{OVER}{KEPT}{CARRIED}@data a\nx,y,t\n", lambda r: f"1,1,t{r}\n"), "comp v from a: 0", AS_ROWS),
    Case("groups", "night", between(f"{OVER}{SUMMED}{CARRIED}@data a\nx,y,t\n", lambda r: f"{r},1,t\n"), "comp v from a: 0", AS_ROWS),
    Case("rows of a group", "night", between(f"{OVER}{SUMMED}{CARRIED}@data a\nx,y,t\n", lambda r: f"1,{r},t\n"), "comp v from a: 0", AS_ROWS),
    Case("rows that come", "night", between(f"{OVER}{KEPT}{CARRIED}@changes a\n#,x,y,t\n", lambda r: f"1,{r},1,t{r}\n"), "comp v from a", AS_ROWS),
    Case("rows that come to groups", "night", between(f"{OVER}{SUMMED}{CARRIED}@changes a\n#,x,y,t\n", lambda r: f"1,{r},1,t\n"), "comp v from a", AS_ROWS),
    Case("rows that leave", "night", between(f"{OVER}{KEPT}{CARRIED}@data a\n#,x,y,t\n9000000000,1,1,t\n@changes a\n#,x,y,t\n", lambda r: "-1,1,1,t\n"), "comp v from a", AS_ROWS),
    Case("counts that cancel", "night", between(f"{OVER}{KEPT}{CARRIED}@changes a\n#,x,y,t\n", lambda r: f"1,{r},1,t\n-1,{r},1,t\n"), "comp v from a: 0", AS_ROWS),
    Case("wide rows", "night", between(f'@catalogue\n[[view]]\nname = "a"\ncolumns = [{WIDE}]\n@strategy\ninst a\n@data a\n{WIDE_HEADER}\n', lambda r: f"{WIDE_ROW}{r}\n"), "inst a: 0", AS_ROWS),
    Case("empty records", "night", over_and_over(f"{ONE_COLUMN}@data a\nx\n", "\n"), "inst a: 0"),
    Case("cells of a record", "night", over_and_over(f"{ONE_COLUMN}@data a\nx\n", "1,"), "fault csv 2"),
    Case("cells of a header", "night", over_and_over(f"{ONE_COLUMN}@data a\nx\n", "x,"), "fault csv 2"),
    Case("a long cell", "night", over_and_over(f"{OVER}{KEPT}{CARRIED}@data a\nx,y,t\n1,1,", "long ", "\n"), "comp v from a: 0"),
    Case("quotes in a cell", "night", over_and_over(f'{OVER}{KEPT}{CARRIED}@data a\nx,y,t\n1,1,"', '""', '"\n'), "comp v from a: 0"),
    Case("a quote that stays open", "night", over_and_over(f'{OVER}{KEPT}{CARRIED}@data a\nx,y,t\n1,1,"', "1,1,t\n"), ""),
    Case("digits of a cell", "night", over_and_over(f"{ONE_COLUMN}@data a\nx\n", "0", "1\n"), ""),
    Case("records of sizes", "check", between(f"{CATALOGUE}@strategy\n{LIST}{SIZES}", lambda r: f"u{r},1,1,0\n"), "fault sizes u0"),
    Case("empty records of sizes", "check", over_and_over(f"{CATALOGUE}@strategy\n{LIST}{SIZES}", "\n"), "correct"),
    Case("digits of a size", "check", over_and_over(f"{CATALOGUE}@strategy\n{LIST}@sizes\nview,pre,post,change\na,", "0", "10,12,4\nb,100,70,30\nv,50,44,6\n"), ""),
    Case("digits of a weight", "check", over_and_over(f"{CATALOGUE}@strategy\n{LIST}@sizes\nview,pre,post,change,weight\na,10,12,4,", "0", "1\nb,100,70,30,1\nv,50,44,6,1\n"), ""),
    Case("records of sizes with weights", "check", between(WEIGHED, lambda r: f"u{r},1,1,0,1\n"), "fault sizes u0"),
    Case("empty records of sizes with weights", "check", over_and_over(WEIGHED, "\n"), "correct"),
    Case("one view's weights", "check", over_and_over(WEIGHED, "a,10,12,4,1000\n"), "fault sizes a"),
    # strategies and plans
    Case("installs", "check", over_and_over(f"{CATALOGUE}{SIZES}@strategy\n", "inst a\n"), "broken"),
    Case("computes", "check", over_and_over(f"{CATALOGUE}{SIZES}@strategy\n", "comp v from a\n"), "broken"),
    Case("expressions of a night", "night", over_and_over(f"{OVER}{KEPT}{CARRIED}", "comp v from a\n"), "broken"),
    Case("sources", "check", over_and_over(f"{CATALOGUE}{SIZES}@strategy\ncomp v from", " a", "\n"), "broken", AS_LIST),
    Case("blanks between words", "check", over_and_over(f"{CATALOGUE}{SIZES}@strategy\ncomp v from", " ", "a\n"), "broken"),
    Case("a long word", "check", over_and_over(f"{CATALOGUE}{SIZES}@strategy\ninst ", "a", "\n"), ""),
    Case("blank lines of a strategy", "check", over_and_over(f"{CATALOGUE}{SIZES}@strategy\n", "\n", LIST), "correct"),
    Case("blanks on a line", "check", over_and_over(f"{CATALOGUE}{SIZES}@strategy\n", " ", f"\n{LIST}"), "correct"),
    Case("pairs of a plan", "certify", over_and_over(f"{CATALOGUE}{SIZES}@plan\n{PLAN}", "pair v b a 80\n"), "rejected at 2", AS_LIST),
    Case("expressions of a plan", "certify", over_and_over(f"{CATALOGUE}{SIZES}@plan\nscope all\nwork 154\n", "inst a\n"), "broken", AS_LIST),
    Case("sources of a plan", "certify", over_and_over(f"{CATALOGUE}{SIZES}@plan\nscope all\nwork 154\ncomp v from", " a", "\n"), "broken", AS_LIST),
    Case("digits of a work", "certify", over_and_over(f"{CATALOGUE}{SIZES}@plan\nscope all\nwork ", "0", f"154\n{LIST}pair v b a 80\n"), "certified"),
    Case("blank lines of a plan", "certify", over_and_over(f"{CATALOGUE}{SIZES}@plan\n", "\n", PLAN), "certified"),
    Case("nodes of a tree", "certify", full_tree, ""),
    Case("branches, one below another", "certify", over_and_over(f"{TREE}{TREE_SIZES}@plan\nscope one-way\nwork 490\n{TREE_LIST}", "branch b c\n"), "fault plan"),
    Case("bounds after a tree", "certify", over_and_over(f"{TREE}{TREE_SIZES}@plan\nscope one-way\nwork 490\n{TREE_LIST}bound\n", "bound\n"), "fault plan"),
    Case("expressions of a cycle", "certify", over_and_over(f"{TREE}{TREE_SIZES}@plan\nscope one-way\nwork 490\n{TREE_LIST}cycle ", "inst v", "\n", "; "), "", AS_LIST),
    # schedules and nights
    Case("events", "replay", over_and_over(REPLAYED, "page\n"), "refused NoNight", AS_EVENTS),
    Case("sessions", "replay", over_and_over(REPLAYED, "open 0\nclose 0\n"), "session 0", AS_EVENTS),
    Case("events of 16 desks and workers", "replay", between(CROWDED, lambda e: f"open {e % 16}\ntake {e % 16}\n"), "session 0", AS_EVENTS),
    Case("reads of a row", "replay", over_and_over(f"{REPLAYED}open 0\n", "read 0 a 1\n"), "session 0", AS_EVENTS),
    Case("reads of no view", "replay", between(f"{REPLAYED}open 0\n", lambda v: f"read 0 v{v} 1\n"), "session 0", AS_EVENTS),
    Case("pages read", "replay", PAGES_READ, "session 0", AS_ROWS),
    Case("pages put", "replay", pages_put(256), "begun", AS_PAGES),
    Case("pages of a key", "replay", pages_put(1), "begun", AS_PAGES),
    Case("nights to come", "replay", nights(lambda _: NEXT_NIGHT, ""), "", AS_TREE),
    Case("nights gone through", "replay", nights(lambda _: NEXT_NIGHT, "begin\ncommit\n"), "begun", AS_TREE),
    Case("nights given up", "replay", nights(lambda _: NEXT_NIGHT, "begin\ngiveup\n"), "begun", AS_TREE),
    Case("nights with a change", "replay", nights(changed_night, "begin\npage\ncommit\n"), "begun", AS_TREE),
    Case("versions beside sessions", "replay", nights(changed_night, "open 0\nbegin\npage\ncommit\nread 0 a 1\nclose 0\n", FOUR_KEPT), "session 0", AS_TREE),
    Case("versions of growing tables", "replay", nights(lambda n: f"@night\n@changes a\n#,x\n1,{n + 8}\n@strategy\ninst a\n", "begin\npage\ncommit\n", FOUR_KEPT), "begun", AS_TREE),
    Case("blank lines of a schedule", "replay", over_and_over(REPLAYED, "\n", "open 0\n"), "session 0"),
    Case("blanks of an event", "replay", over_and_over(f"{REPLAYED}open ", " ", "0\n"), "session 0"),
    Case("words of an event", "replay", over_and_over(f"{REPLAYED}open ", "0 ", "\n"), "fault schedule 4", AS_LIST),
    Case("digits of a desk", "replay", over_and_over(f"{REPLAYED}open ", "0", "0\n"), "session 0"),
    Case("a long view", "replay", over_and_over(f"{REPLAYED}open 0\nread 0 ", "a", " 1\n"), "session 0\nrefused NoView"),
    Case("lines of no event", "replay", over_and_over(REPLAYED, "x\n"), "fault schedule 4"),
    Case("lines below a night", "replay", over_and_over(f"{REPLAYED}{NEXT_NIGHT}@night\n", "x\n"), "fault part night"),
    Case("nights without a strategy", "replay", over_and_over(REPLAYED, "@night\n"), "fault part strategy"),
    # parts, and the words
    Case("nights", "plan", over_and_over(f"{CATALOGUE}{SIZES}", "@night\n"), "scope"),
    Case("changes of nights", "plan", over_and_over(f"{CATALOGUE}{SIZES}", "@night\n@changes a\n@strategy\n"), "scope"),
    Case("tables that are not read", "plan", between(f"{CATALOGUE}{SIZES}", lambda p: f"@data p{p}\n"), "scope"),
    Case("changes that are not read", "plan", between(f"{CATALOGUE}{SIZES}", lambda p: f"@changes p{p}\n"), "scope"),
    Case("tables of no base view", "night", between(f"{OVER}{KEPT}{CARRIED}", lambda p: f"@data p{p}\n"), "fault part data"),
    Case("parts of no heading", "plan", over_and_over(f"{CATALOGUE}{SIZES}", "@\n"), "fault part text"),
    Case("nights where one is read", "check", over_and_over(f"{CATALOGUE}{SIZES}@strategy\n{LIST}", "@night\n"), "fault part night"),
    Case("a long heading", "plan", over_and_over(f"{CATALOGUE}{SIZES}@data ", "p", "\n"), "scope"),
    Case("blanks after a heading", "plan", over_and_over(f"{CATALOGUE}{SIZES}@night", " ", "\n"), "scope"),
    Case("blank lines before the first part", "plan", over_and_over("", "\n", f"{CATALOGUE}{SIZES}"), "scope"),
    Case("blanks before the first part", "plan", over_and_over("", " ", f"\n{CATALOGUE}{SIZES}"), "scope"),
    Case("words", "", over_and_over("check", " check", f"\n{CATALOGUE}{SIZES}@strategy\n{LIST}"), ""),
    Case("words of costs", "", over_and_over("check", " --comp-cost 1", f"\n{CATALOGUE}{SIZES}@strategy\n{LIST}"), ""),
    Case("a word", "", over_and_over("check --comp-cost ", "1", f"\n{CATALOGUE}{SIZES}@strategy\n{LIST}"), ""),
    Case("an option", "", over_and_over("check --", "o", f"\n{CATALOGUE}{SIZES}@strategy\n{LIST}"), ""),
    Case("blanks between the words", "", over_and_over("check", " ", f"\n{CATALOGUE}{SIZES}@strategy\n{LIST}"), "correct"),
]


# ---- runs


class Ran(NamedTuple):
    """What a run took: processor seconds and bytes of memory, and how its answer begins."""

    seconds: float
    memory: int
    answer: str


def run(started, words, path):
    """Runs the program on a file, for two minutes at most."""
    with open(path, "rb") as given, tempfile.TemporaryFile() as shown:
        child = subprocess.Popen([started, *words.split()], stdin=given, stdout=shown, stderr=subprocess.DEVNULL)
        resource.prlimit(child.pid, resource.RLIMIT_CPU, (SECONDS, SECONDS))
        _, status, used = os.wait4(child.pid, 0)
        child.returncode = os.waitstatus_to_exitcode(status)
        shown.seek(0)
        answer = shown.read(200).decode(errors="replace")
        if child.returncode < 0:
            answer = f"(ended by signal {-child.returncode}) {answer}"
    return Ran(used.ru_utime + used.ru_stime, used.ru_maxrss * 1024, answer)


def own_memory():
    """What this program took so far: a child's memory is counted from that on."""
    return resource.getrusage(resource.RUSAGE_SELF).ru_maxrss * 1024


class Judge:
    """The program, the case, and the file that its bundles are written to."""

    def __init__(self, started, case, mode, folder):
        self.started, self.case, self.mode = started, case, mode
        self.path = Path(folder) / f"{CASES.index(case)}"

    def write(self, count):
        """Writes the bundle with this many, and answers its bytes: none past the limit."""
        size = 0
        with open(self.path, "wb") as file:
            for piece in self.case.pieces(count):
                size += file.write(piece.encode())
                if size > self.mode.most:
                    return None
        return size

    def run(self):
        return run(self.started, self.case.words, self.path)

    def wrong(self, count, size, ran, before):
        """What is wrong with a run, after one with half as many, or nothing."""
        if ran.answer.startswith("(") or not ran.answer.startswith(self.case.answer):
            return f"{count}: answered {ran.answer!r}"
        if ran.memory > max(self.case.times * size + BESIDE, own_memory()):
            return f"{count}, {size} bytes: took {ran.memory} bytes of memory, {ran.memory / size:.1f} times the input"
        if before is not None and ran.seconds > GROWTH * max(before, MARKED):
            return f"{count}, {size} bytes: took {ran.seconds:.2f} s, and half as many {before:.2f} s"
        return None

    def least(self, counts):
        """The least time of some runs with each of these numbers, taken in turn, so that another load weighs on all alike."""
        seconds = dict.fromkeys(counts, float("inf"))
        for count in list(counts) * TURNS:
            self.write(count)
            seconds[count] = min(seconds[count], self.run().seconds)
        return seconds

    def again(self, count, size, ran, before):
        """Judges a run that seemed too long by more runs: with this many, half as many and a quarter of it. What is more than
        proportional is so over both doublings; a run that another load made longer is not."""
        seconds = self.least((count, count // 2, count // 4))
        self.write(count)
        least = ran._replace(seconds=min(ran.seconds, seconds[count]))
        if least.seconds <= GROWTH**2 * max(seconds[count // 4], MARKED):
            return self.wrong(count, size, least, None)
        return self.wrong(count, size, least, max(before, seconds[count // 2]))

    def judge(self):
        """What is wrong, and what the last run took."""
        count, before, last = 1, None, "nothing run"
        while (size := self.write(count)) is not None:
            if size < min(BEGIN, self.mode.most):
                count *= 2
                continue
            ran = self.run()
            last = f"{count} in {size / 1e6:.1f} MB: {ran.seconds:.2f} s, {ran.memory / 1e6:.0f} MB, {ran.answer.partition(chr(10))[0][:40]}"
            wrong = self.wrong(count, size, ran, before)
            if wrong and before is not None and ran.seconds > GROWTH * max(before, MARKED):
                wrong = self.again(count, size, ran, before)
            if wrong:
                return wrong, last
            if ran.seconds > self.mode.seconds or ran.memory > self.mode.memory:
                break
            count, before = 2 * count, ran.seconds
        return None, last


def main():
    given = words_with_program(__doc__)
    given.add_argument("--full", action="store_true", help="up to the limit of input")
    asked = given.parse_args()
    mode, started = FULL if asked.full else QUICK, program(asked.program)
    failed = 0
    with tempfile.TemporaryDirectory() as folder, ThreadPoolExecutor(2) as pool:
        judged = pool.map(lambda case: Judge(started, case, mode, folder).judge(), CASES)
        for case, (wrong, last) in zip(CASES, judged):
            failed += wrong is not None
            print(f"{case.name}: {wrong or last}", flush=True)
    return ended("growth", len(CASES), failed)
