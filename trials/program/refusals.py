"""Runs the program on each worked example and refuses its calls in turn: each allocation, all allocations from one on, each
read, each write, each start of a thread, all starts from one on, and each read and write as one that a signal comes between; and the
disk is full after so many bytes.

A refused allocation or start ends in the run's own answer or in `memory` and 4, a failed read in `fault read` and 3, a failed write
in 5, and one of these that is interrupted in that or in the run's own answer. Where reads and writes go by a few bytes at a time
the answer is the run's own, and what a full disk takes is its beginning. Where parts stand in files of their own, a failed read of one
ends in `fault read` and its name, and each file is told so by some refusal. Of a run with very many allocations only some, evenly spread,
are refused, and fewer of the schedules, but for the examples of each command, of which all are.

So is each call for memory and each start of a thread of some tests, which then try again: a refused night leaves what a desk reads beside
it, a Comp what it was given, and the program's call answers over the readers and writers of a test.
"""

import subprocess
import sys
import tempfile
from collections import Counter
from concurrent.futures import ProcessPoolExecutor
from pathlib import Path

from trials.bundles import examples
from trials.ended import ended, told
from trials.program.refusing import built_library, refusing
from upkeep.words import ROOT, program, words_with_program
from whview.bundle import pieces

MOST = {"malloc": 600, "memory": 60}
# Examples of which every call is refused, and what is enough of other schedules.
WHOLE = ["one_way_check", "plan_all", "plan_one_way", "certify_pairs", "certify_tree", "night_two_tables", "night_with_workers_and_readers"]
WHOLE += ["night_two_comps_at_a_time", "replay_two_nights", "replay_give_up", "replay_one_key_a_page", "replay_refusals"]
FEW = {"malloc": 90, "memory": 15}
SHORT = [1, 2, 3, 7, 64]
# The kinds of refusals, and the letters of the calls that each goes through.
KINDS = {"malloc": "m", "memory": "m", "read": "r", "write": "w", "interrupt": "rw", "thread": "t", "threads": "t"}
# Tests that may lack memory anywhere, by their crates, and what such a test says.
TESTS = {
    "test_carry": ["nights::refused::refused_allocation_in_comp"],
    "test_workers": [f"nights::refused::{name}_where_memory_may_be_refused" for name in ("two_table_night", "two_comps_of_a_wave")],
    "test_program": ["runs::each_command_where_memory_may_be_refused"],
}
WANTS = [f"error: {cause}\nthe test failed: its result gives status 1\n" for cause in ('"want of memory"', "Memory", "AllocError", "AllocFailed { .. }")]
FROM_ONE_ON = ("memory", "threads", "full")


class Run:
    """A run of the program: its words, the file on its standard input, its own answer and calls, and how many of these to refuse
    at most, kind by kind."""

    def __init__(self, program, library, words, given, most=MOST):
        self.most = most
        self.program, self.library, self.words, self.given = str(program), library, list(words), given
        self.answer, calls = self.refused("count", 0)
        self.calls = Counter(calls)

    def __str__(self):
        return f"whview {' '.join(self.words)} < {self.given}"

    def refused(self, kind, number):
        """The text and the status where this call is refused, and the letters of the library."""
        with open(self.given, "rb") as bundle:
            ran = subprocess.run([self.program, *self.words], stdin=bundle, capture_output=True, timeout=60, env=refusing(self.library, kind, number))
        return (ran.stdout, ran.returncode), ran.stderr.decode(errors="replace")

    def refusals(self):
        """The calls to refuse, each a kind and a number."""
        for kind, letters in KINDS.items():
            count = sum(self.calls[letter] for letter in letters)
            step = max(1, -(-count // self.most.get(kind, count or 1)))
            yield from ((kind, number) for number in range(1, count + 1, step))
        yield from (("short", size) for size in SHORT)
        size = len(self.answer[0])
        yield from (("full", room) for room in sorted({0, 1, size // 2, size - 1} & set(range(size))))

    def silent(self):
        """The files that should have been told of by some refusal and were not: a run without parts in files has none."""
        return []

    def is_allowed(self, kind, answer):
        """Whether there may be this answer where a call of this kind is refused."""
        match kind:
            case "malloc" | "memory" | "thread" | "threads":
                return answer in (self.answer, (b"memory\n", 4))
            case "read":
                return answer == (b"fault read\n", 3)
            case "interrupt":
                return answer in (self.answer, (b"fault read\n", 3), (b"", 5))
            case "short":
                return answer == self.answer
        return answer[1] == 5 and self.answer[0].startswith(answer[0])

    def may_not_come(self, kind, number):
        """Whether it is one of the last calls of threads that share the work: they do not make equally many in each run."""
        is_shared = "--workers" in self.words or "--readers" in self.words
        return is_shared and number * 10 > 9 * sum(self.calls[letter] for letter in KINDS.get(kind, ""))

    def mistake(self, kind, number):
        """What is wrong with the answer where this call is refused, or None."""
        answer, letters = self.refused(kind, number)
        marked = letters != "" if kind in FROM_ONE_ON else letters == ("" if kind == "short" else "x")
        if not letters and self.may_not_come(kind, number) and answer == self.answer:
            return None
        if not marked or letters.strip("x"):
            return f"{kind} {number} of {self}: standard error has {letters!r}"
        return None if self.is_allowed(kind, answer) else f"{kind} {number} of {self}: {answer}"


class FiledRun(Run):
    """A run over a bundle whose rows stand in files: a failed read tells the file that it is of."""

    def __init__(self, program, library, words, given, files):
        self.files = files
        super().__init__(program, library, words, given)

    def is_allowed(self, kind, answer):
        reads = [(f"fault read {file}\n".encode(), 3) for file in self.files]
        return super().is_allowed(kind, answer) or kind in ("read", "interrupt") and answer in reads

    def silent(self):
        """The files that no failed read is told of."""
        told = [self.refused("read", number)[0][0] for number in range(1, self.calls["r"] + 1)]
        return [file for file in self.files if f"fault read {file}\n".encode() not in told]


def filed_runs(program, library, folder):
    """Runs over bundles whose tables and changes stand in files of their own, which are put into the folder."""
    for name in ("night_two_tables", "replay_two_nights"):
        example = next(example for example in examples() if example.name == name)
        room, bundle, files = folder / name, [], []
        room.mkdir()
        for part in pieces(example.bundle):
            heading, _, lines = part.partition(b"\n")
            if heading.startswith((b"@data ", b"@changes ")):
                files.append(f"{len(files)}.csv")
                (room / files[-1]).write_bytes(lines)
                part = heading + f" < {files[-1]}\n".encode()
            bundle.append(part)
        (room / "bundle").write_bytes(b"".join(bundle))
        run = FiledRun(program, library, [*example.words, "--input", str(room / "bundle")], folder / "nothing", files)
        if run.answer != Run(program, library, example.words, example.path).answer:
            raise AssertionError(f"{run} is answered otherwise than with its rows in place: {run.answer}")
        yield run


class TestRun(Run):
    """A run of a test that goes through wherever memory or a thread is refused: it ends as without, or says that it lacks memory."""

    def refusals(self):
        kept = {kind: letters for kind, letters in KINDS.items() if letters in "mt"}
        return [(kind, number) for kind, letters in kept.items() for number in range(1, self.calls[letters] + 1)]

    def mistake(self, kind, number):
        (text, status), said = self.refused(kind, number)
        said = said.lstrip("x")
        is_whole = ((text, status), said) == (self.answer, "")
        return None if is_whole or (text, status) == (b"", 101) and said in WANTS else f"{kind} {number} of {self}: {text} {said!r}, status {status}"


def mistakes(run, refusals):
    return [wrong for kind, number in refusals if (wrong := run.mistake(kind, number))]


def runs(program, library, folder):
    """All bundles on standard input, and some runs of other words."""
    for example in examples():
        most = {} if example.name in WHOLE else FEW if example.words == ["replay"] else MOST
        yield Run(program, library, example.words, example.path, most)
    stored, bundle = ROOT / "crates/whview_main/stdin", ROOT / "examples/one_way_check.bundle"
    nothing = folder / "nothing"
    nothing.touch()
    for crate, names in TESTS.items():
        # The gate has built them; a program in place of the repository's own has no tests.
        tests = ROOT / f"crates/{crate}/out/{crate}_tests"
        if tests.is_file():
            yield from (TestRun(tests, library, [name], nothing) for name in names)
        else:
            print(f"{tests.name} is not built, and left out", file=sys.stderr)
    yield Run(program, library, [], stored)
    yield Run(program, library, ["night", "--workers", "16", "--readers", "16"], ROOT / "examples/night_shop.bundle", FEW)
    yield Run(program, library, ["check", "--comp-cost", "1"], bundle)
    yield Run(program, library, ["check", "--comp-cost", "0"], bundle)
    yield from filed_runs(program, library, folder)
    yield Run(program, library, ["--help"], bundle)
    yield Run(program, library, ["night", "--help"], bundle)
    for command in ("check", "plan", "certify", "night", "replay"):
        named = next(example.path for example in examples() if example.words[0] == command)
        yield Run(program, library, [command, "--input", str(named)], nothing)


def main():
    started = program(words_with_program(__doc__).parse_args().program)
    with tempfile.TemporaryDirectory() as name:
        library = built_library(Path(name))
        tried, found, jobs = Counter(), [], []
        with ProcessPoolExecutor() as workers:
            for run in runs(started, library, Path(name)):
                refusals = list(run.refusals())
                tried.update(kind for kind, _ in refusals)
                found += [f"no failed read of {run} tells of {file}" for file in run.silent()]
                jobs += [workers.submit(mistakes, run, refusals[part : part + 50]) for part in range(0, len(refusals), 50)]
            for job in jobs:
                found += job.result()
    told(found, 20)
    return ended("refusals", tried.total(), len(found), "; " + ", ".join(f"{tried[kind]} of {kind}" for kind in tried))
