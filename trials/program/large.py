"""Runs nights of tens of thousands of rows, which several threads share, by 1, 2, 3, 4 and 16 workers.

Each night answers one text and one status, whoever does how much of it: joined rows and summaries of rows in no order, of texts, of rows
that begin alike, nights that are refused at one of the last rows, and tables with faults in several of the pieces that threads read, of
which the first is told. Under limits on memory each answer is that text, or `memory` with
status 4. What a text has to say is told without the program: how often all rows of the joined view count, or the refusal.
"""

import csv
import io
import random
import resource
import subprocess
from typing import NamedTuple

from trials.ended import ended, told
from upkeep.words import program, words_with_program

WORKERS = [1, 2, 3, 4, 16]
ROWS, KEYS, SEED = 40_000, 400, 20261128
MEGABYTES = [8, 12, 16, 24, 32, 48, 64]
JOIN = """@catalogue
[[view]]
name = "a"
columns = ["x", "y"]
[[view]]
name = "b"
columns = ["y", "z"]
[[view]]
name = "v"
over = ["a", "b"]
join = [["a.y", "b.y"]]
keep = [["x", KEPT], ["z", "b.z"]]
[[view]]
name = "s"
over = ["v"]
group = [["z", "v.z"]]
count = "n"
sum = [["t", "v.x"]]
"""
STEPS = "@strategy\ncomp v from a\ninst a\ncomp v from b\ninst b\ncomp s from v\ninst v\ninst s\n"
WORDS = ["é", "a,b", 'say "so"', "", "long " * 9, "two\nlines", 'a "\r\n', "\r"]


class Case(NamedTuple):
    """A night by its name, its bundle, and what it says: how often the rows of `v` count together, its refusal, or its fault."""

    name: str
    bundle: str
    says: int | str


def rows(source, first=lambda number: number):
    """Rows of `a` in no order: each number once, with the key that it meets."""
    numbers = list(range(ROWS))
    source.shuffle(numbers)
    return [(first(number), number % KEYS, number) for number in numbers]


def night(a, changes, kept='"a.x"', names=lambda cell: cell):
    """The bundle of a night over `a` with these rows and changes."""
    lines = [JOIN.replace("KEPT", kept), "@data a\nx,y\n"]
    lines += [f"{names(x)},{y}\n" for x, y, _ in a]
    lines += ["@data b\ny,z\n", *(f"{key},{key + 1000}\n" for key in range(KEYS)), "@changes a\n#,x,y\n"]
    lines += [f"{count},{names(x)},{y}\n" for x, y, count in changes]
    return "".join([*lines, STEPS])


def quoted(number):
    """A text that has to be put in quotes, and is another for each number."""
    return '"' + f"{WORDS[number % len(WORDS)]}{number}".replace('"', '""') + '"'


def cases():
    """The nights. As many rows come as leave, and each meets one row of `b`."""
    source = random.Random(SEED)
    plain = rows(source)
    leaving = [(x, y, -1) for x, y, _ in plain[: ROWS // 8]]
    coming = [(ROWS + number, number % KEYS, 1) for number in range(ROWS // 8)]
    yield Case("rows in no order", night(plain, leaving + coming), ROWS)
    alike = rows(source, lambda number: 7 if number % 10 else number)
    yield Case("rows that begin alike", night(alike, []), ROWS)
    texts = night(plain, leaving + coming, names=quoted).replace('columns = ["x", "y"]', 'columns = ["x:text", "y"]', 1)
    counted = texts.replace('sum = [["t", "v.x"]]\n', "")
    yield Case("texts", counted, ROWS)
    large = plain[:-3] + [(2**62, 1, 0), (2**62 + 1, 2, 0), plain[-1]]
    yield Case("a value that leaves 64 bits, among the last rows", night(large, [], '["+", "a.x", "a.x"]'), "refused range v")
    late = coming[:-1] + [(2**62, 5, 1)]
    yield Case("a value that leaves 64 bits, in a change", night(plain, late, '["+", "a.x", "a.x"]'), "refused range v")
    yield Case("a row that is not there", night(plain, coming + [(-5, 5, -1)]), "refused absent a")
    yield from faulty(plain, texts)


def with_lines(bundle, places, line):
    """The bundle with another line in place of these records of `a`, the header being record 1."""
    before, data, after = bundle.partition("@data a\n")
    lines = after.split("\n")
    for place in places:
        lines[place - 1] = line
    return before + data + "\n".join(lines)


def faulty(plain, texts):
    """Nights over tables with faults: the first one is told, by the number of its record."""
    numbers = night(plain, [])
    for places in ([ROWS], [30_000, ROWS], [20, 15_000, 39_000]):
        said = f"fault number {places[0]}\n"
        yield Case(f"no number in records {places}", with_lines(numbers, places, "1,one"), said)
        yield Case(f"another length in records {places}", with_lines(numbers, places, "1"), said.replace("number", "csv"))
    yield Case("a text that is not closed", with_lines(numbers, [25_000], '"1,1'), "fault csv 25000\n")
    most = numbers.partition("@data a\n")
    rows_of_a, _, rest = most[2].partition("@data b\n")
    counted = "\n".join(["#,x,y", *(f"1,{row}" for row in rows_of_a.splitlines()[1:]), f"{2**63 - 1},{plain[5][0]},{plain[5][1]}", ""])
    yield Case("a sum that leaves 64 bits at the last record", most[0] + most[1] + counted + "@data b\n" + rest, f"fault number {ROWS + 2}\n")
    yield Case("a byte order mark", texts.replace("@data a\n", "@data a\n\ufeff", 1).replace('sum = [["t", "v.x"]]\n', ""), ROWS)


def answer(built, workers, bundle, megabytes=None):
    """What is printed, and the status, under a limit on memory where one is given."""

    def limit():
        if megabytes:
            resource.setrlimit(resource.RLIMIT_AS, (megabytes << 20, megabytes << 20))

    words = [str(built), "night", "--workers", str(workers)]
    ran = subprocess.run(words, input=bundle.encode(), capture_output=True, timeout=120, preexec_fn=limit)
    return ran.stdout.decode(errors="replace"), ran.returncode


def said(text):
    """How often the rows of `v` count together, or the refusal."""
    if "\nview v\n" not in text:
        return next((line for line in text.splitlines() if line.startswith("refused ")), text)
    table = text.partition("\nview v\n")[2].partition("\nview s\n")[0]
    return sum(int(row[0]) for row in list(csv.reader(io.StringIO(table, newline="")))[1:])


def mistakes(built, case):
    """What is wrong with the answers of a night, a line each; an empty one for what is right."""
    wanted = answer(built, 1, case.bundle)
    yield "" if said(wanted[0]) == case.says else f"{case.name}: answers {wanted[0][:200]!r} with status {wanted[1]}"
    for workers in WORKERS[1:]:
        yield "" if answer(built, workers, case.bundle) == wanted else f"{case.name}: another answer by {workers} workers than by one"
    for megabytes in MEGABYTES:
        found = answer(built, 4, case.bundle, megabytes)
        yield "" if found in (wanted, ("memory\n", 4)) else f"{case.name}: within {megabytes} MB {found[0][:200]!r} with status {found[1]}"


def main():
    built = program(words_with_program(__doc__).parse_args().program)
    found = [line for case in cases() for line in mistakes(built, case)]
    wrong = [line for line in found if line]
    told(wrong)
    return ended("large", len(found), len(wrong))
