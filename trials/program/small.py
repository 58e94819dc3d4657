"""Runs the program where there is little stack and little memory: it answers, or says `memory`, and no signal ends it.

By a stack of 256 KB, in the main thread and in each worker's, it is given what is deepest and longest: all cases of
trials/program/case_groups/bounds.py, nights whose workers compute formulas 64 deep and predicates of very many members, and TOML nested as deep as
the limit of input lets it. By less memory step by step, from too little for the program to start to ample, it runs an example of each
command and a night with workers and readers: the answer is the example's own, or `memory` with status 4; and so is that of an input of
kilobytes whose answer would have hundreds of megabytes.
"""

import resource
import subprocess
from concurrent.futures import ThreadPoolExecutor
from itertools import chain

from trials.bundles import examples
from trials.ended import ended, told
from trials.oracle import by_the_rules
from trials.program.case_groups import Case, bounds
from upkeep.words import program, words_with_program

STACK, PAGE, MOST, SECONDS = 256 << 10, 4096, 1 << 30, 120
SEATS = ["--workers", "3", "--readers", "2"]
LIMIT = 67108864
# What is enough for an input of some kilobytes, and too little for an answer of hundreds of megabytes.
ENOUGH_TO_READ = 64 << 20
# How much more memory there is at first where it grows in longer steps, and how these grow.
STEP, GROWTH = 16 * PAGE, 1.25
NAMED = ["one_way_check", "plan_all", "plan_one_way", "certify_tree", "night_two_tables", "night_with_workers_and_readers", "replay_two_nights"]
NAMED += ["night_star"]


# ---- little stack


def little_stack():
    resource.setrlimit(resource.RLIMIT_STACK, (STACK, STACK))
    resource.setrlimit(resource.RLIMIT_AS, (MOST, MOST))


class Shallow(Case):
    """A case by little stack."""

    def ran(self, started):
        given = self.given() if callable(self.given) else self.given
        return subprocess.run([started, *self.words], input=given, capture_output=True, timeout=SECONDS, preexec_fn=little_stack)


class Seated(Shallow):
    """A night by little stack, whose workers compute: its tables stand in the answer."""

    def is_right(self, text):
        return "\n" + self.text in "\n" + text


def known():
    for case in bounds.cases():
        yield Shallow(case.words, case.given, case.text, case.status, case.what, case.is_beginning)


def computed():
    """The formulas of the bounds where a row comes, so that workers compute them, and predicates that go to and fro."""
    members = ", ".join(f'["<>", "a.x", {number}]' for number in range(10, 200000))
    to_and_fro = '["all", true, ["any", ' * 30 + '["not", ["=", "a.x", 7]]' + "]]" * 30
    longer = [(what, bounds.night(f"where = {where}\n{bounds.KEPT}")) for what, where in (("all", f'["all", {members}]'), ("to and fro", to_and_fro))]
    for what, bundle in chain(((what, bundle) for what, _, bundle, (_, status) in bounds.formulas() if status == 0), longer):
        given = bundle.replace("@strategy", "@changes a\n#,x\n1,5\n1,7\n@strategy").encode()
        yield Seated(["night", *SEATS], given, by_the_rules.night(given).decode(), 0, f"{what}, computed by workers")


def nested(what, begin, open_, middle, close=""):
    """A catalogue with so much of what opens and closes as the limit lets it."""
    head = f'@strategy\n@sizes\nview,pre,post,change\na,1,1,0\n@catalogue\n[[view]]\nname = "a"\n{begin}'.encode()

    def given():
        times = (LIMIT - len(head) - len(middle) - 1) // len(open_ + close)
        return head + open_.encode() * times + middle.encode() + close.encode() * times + b"\n"

    return Shallow(["check"], given, "fault toml\n", 3, what)


def deep():
    """TOML as deep as the limit of input lets it."""
    yield nested("arrays in arrays", "k = ", "[", "", "]")
    yield nested("arrays that do not end", "k = ", "[", "")
    yield nested("tables in tables", "k = ", "{k=", "1", "}")
    yield nested("arrays and tables by turns", "k = ", "[{k=", "1", "}]")
    yield nested("a key of many parts", "", "k.", "k = 1")
    yield nested("a header of many parts", "[", "k.", "k]")
    yield nested("nots", "where = ", '["not", ', "true", "]")


# ---- little memory


def greedy():
    """Inputs whose answers are much larger than they are: each read prints 64 long cells of 256 rows, and a join has all pairs of rows."""
    header = ",".join(f"c{place}" for place in range(64))
    columns = ", ".join(f'"{name}"' for name in header.split(","))
    table = "".join(",".join(str(9 * 10**18 + row * 64 + place) for place in range(64)) + "\n" for row in range(256))
    events = "desks 1\nworkers 1\nkeys 256\nopen 0\n" + "read 0 a 256\n" * 10000
    wide = f'@catalogue\n[[view]]\nname = "a"\ncolumns = [{columns}]\n@strategy\ninst a\n@data a\n{header}\n{table}@schedule\n{events}'
    yield "reads of wide rows", ["replay"], wide.encode()
    bases = "".join(f'[[view]]\nname = "{name}"\ncolumns = ["x"]\n' for name in "ab")
    rows = "".join(f"{row}\n" for row in range(2000))
    tables = "".join(f"@data {name}\nx\n{rows}" for name in "ab")
    steps = "comp v from a\ninst a\ncomp v from b\ninst b\ninst v\n"
    joined = f'@catalogue\n{bases}[[view]]\nname = "v"\nover = ["a", "b"]\nkeep = [["x", "a.x"], ["y", "b.x"]]\n{tables}@strategy\n{steps}'
    for words in (["night"], ["night", *SEATS]):
        yield f"all pairs of rows, {' '.join(words)}", words, joined.encode()


def sated(started):
    """What is wrong where such an input has too little memory."""
    for what, words, given in greedy():
        answer = limited(started, words, given, ENOUGH_TO_READ)
        yield None if answer == (b"memory\n", 4) else f"{what} with {ENOUGH_TO_READ} bytes: {answer[0][:100]}, status {answer[1]}"


def limited(started, words, given, memory):
    """What is answered where there is so much memory for all that the program maps."""
    limit = lambda: resource.setrlimit(resource.RLIMIT_AS, (memory, memory))
    try:
        ran = subprocess.run([started, *words], input=given, capture_output=True, timeout=SECONDS, preexec_fn=limit)
    except OSError:
        return b"", "not begun"
    return ran.stdout, ran.returncode


def begins(started):
    """The least memory, in pages, by which the program begins: it prints its help or `memory`."""
    least, most = 0, MOST // PAGE
    while most - least > 1:
        middle = (least + most) // 2
        if limited(started, ["--help"], b"", middle * PAGE)[1] in (0, 4):
            most = middle
        else:
            least = middle
    return most * PAGE


def steps(begun):
    """Memory from where the program begins: a page more each time, then in longer steps, and at last ample."""
    yield from range(begun, begun + 64 * PAGE, 2 * PAGE)
    step, memory = STEP, begun + 64 * PAGE
    while memory < MOST:
        yield memory
        memory, step = memory + step, int(step * GROWTH) // PAGE * PAGE
    yield MOST


def starved(started, begun, example):
    """What is wrong where an example has little memory, and with which memory it was answered first."""
    own, status = example.answer.rsplit(b"status ", 1)
    right, answered = (own, int(status)), None
    for memory in steps(begun):
        answer = limited(started, example.words, example.bundle, memory)
        if answer not in (right, (b"memory\n", 4)):
            yield f"{example.name} with {memory} bytes: {answer}"
        answered = answered or (memory if answer == right else None)
    if answer != right:
        yield f"{example.name} is not answered with {MOST} bytes"


def main():
    started = program(words_with_program(__doc__).parse_args().program)
    with ThreadPoolExecutor(2) as runners:
        stacked = list(runners.map(lambda case: case.mistake(started), [*known(), *computed()]))
    stacked += [case.mistake(started) for case in deep()]
    begun = begins(started)
    named = [example for example in examples() if example.name in NAMED]
    with ThreadPoolExecutor(2) as runners:
        fed = list(runners.map(lambda example: list(starved(started, begun, example)), named))
    fed.append([wrong for wrong in sated(started) if wrong])
    told([wrong for wrong in [*stacked, *sum(fed, [])] if wrong], 20)
    status = ended("little stack", len(stacked), sum(wrong is not None for wrong in stacked))
    tried = len(list(steps(begun))) * len(named) + len(list(greedy()))
    return status | ended("little memory", tried, sum(map(len, fed)), f"; the program begins with {begun >> 10} KB")
