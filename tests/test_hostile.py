"""Tests of what judges findings of the fuzzer, of how bundles are changed, of what refuses calls and tells the most memory, and of how
valgrind is told of atomic accesses."""

import random
import shutil
import subprocess
import tempfile
from pathlib import Path
from unittest.mock import patch

import pytest

from trials.bundles import examples
from trials.drawn.mutations import changed
from trials.program.fuzzed import mutator, targets
from trials.program.fuzzed.targets import TARGETS, asked_in
from trials.program.sanitized import watched
from upkeep.unproved import NotBuilt
from upkeep.words import ROOT

NIGHT = next(example for example in examples() if example.name == "night_two_tables")


@pytest.fixture
def program(tmp_path, script):
    """A program that answers everything so."""

    def answering(text, status=0, more=""):
        (tmp_path / "answer").write_bytes(text)
        return script(f"cat >/dev/null\n{more}\ncat '{tmp_path}/answer'\nexit {status}")

    return answering


OWN = NIGHT.answer.rsplit(b"status ", 1)[0]


def test_an_answer_that_is_right(program):
    assert TARGETS["night"].mistake(program(OWN), NIGHT.bundle) is None
    assert TARGETS["words"].mistake(program(OWN), b"night\n" + NIGHT.bundle) is None
    assert TARGETS["words"].mistake(program(b"error: what?\n", 2), b"nights\n") is None


def test_an_answer_with_another_row_is_noticed(program):
    another_row = program(OWN.replace(b"1,1,6", b"1,1,7"))
    assert "not by the rules" in TARGETS["night"].mistake(another_row, NIGHT.bundle)


WRONG = {
    "cut": (OWN[:-3], 0, ""), "with another status": (OWN, 1, ""), "with a word on standard error": (OWN, 0, "echo trap >&2"),
    "killed": (b"", 0, "kill -SEGV $$"), "a fault of no form": (b"fault what\n", 3, ""),
}


@pytest.mark.parametrize("text, status, more", WRONG.values(), ids=WRONG)
def test_wrong_answers_are_noticed(program, text, status, more):
    assert TARGETS["night"].mistake(program(text, status, more), NIGHT.bundle) is not None


def test_a_run_that_works_for_too_long_is_noticed(program):
    with patch.object(targets, "SECONDS", 1):
        said = TARGETS["night"].mistake(program(b"", 0, "exec sh -c 'while :; do :; done'"), NIGHT.bundle)
    assert said == "no answer in 1 seconds of a processor"


def test_the_command_of_a_first_line():
    for line, command in ((b"night --workers 2\n@", "night"), (b"  plan\n", "plan"), (b"", ""), (b"\n", "")):
        assert asked_in(line) == command


def test_what_is_drawn_is_the_same_again():
    drawn = [[changed(random.Random(seed), NIGHT.bundle) for seed in range(50)] for _ in range(2)]
    assert drawn[0] == drawn[1]
    assert len(set(drawn[0])) > 40


def test_the_fuzzer_gets_something_within_its_bounds():
    mutator.init(1)
    for given in (b"", b"x", NIGHT.bundle):
        for most in (1, 100, 10000):
            found = mutator.fuzz(bytearray(given), None, most)
            assert 0 < len(found) <= most


def test_a_call_stands_in_the_place_of_each_atomic_access():
    for access, call in (
        ("%r1 = load atomic i64, ptr %a0 seq_cst, align 8", "%r1 = call i64 @watched_load(ptr %a0)"),
        ("store atomic i64 7, ptr %a0 seq_cst, align 8", "call void @watched_store(ptr %a0, i64 7)"),
        ("%r1 = atomicrmw sub ptr %a0, i64 %a1 seq_cst, align 8", "%r1 = call i64 @watched_sub(ptr %a0, i64 %a1)"),
        ("%r1 = cmpxchg ptr %a0, i64 0, i64 %a2 seq_cst seq_cst, align 8", "%r1 = call { i64, i1 } @watched_cas(ptr %a0, i64 0, i64 %a2)"),
    ):
        assert watched(f"  {access}\n").splitlines()[0] == f"  {call}"


@pytest.mark.parametrize("access", ("%r1 = load atomic i32, ptr %a0 seq_cst, align 4", "fence seq_cst", "%r1 = atomicrmw or ptr %a0, i64 1 seq_cst, align 8"))
def test_an_access_of_another_form_is_refused(access):
    with pytest.raises(NotBuilt):
        watched(f"  {access}\n")


@pytest.mark.skipif(not shutil.which("cc"), reason="there is no C compiler")
def test_the_most_memory_and_the_status_of_a_run():
    with tempfile.TemporaryDirectory() as name:
        peak = Path(name) / "peak"
        subprocess.run(["cc", "-O1", "-Wall", "-Werror", "-o", peak, ROOT / "trials/program/peak.c"], check=True)
        for script, status, most in (
            ("exit 3", 3, 1 << 14), ("kill -9 $$", 137, 1 << 14), ("exec head -c 50000000 /dev/zero | tail -n 1 >/dev/null; :", 0, 1 << 17),
        ):
            ran = subprocess.run([peak, "/bin/sh", "-c", script], capture_output=True, text=True)
            assert ran.returncode == status
            assert 0 < int(ran.stderr.splitlines()[-1]) < most


def test_calls_are_counted_and_refused():
    with tempfile.TemporaryDirectory() as name:
        library = Path(name) / "refuse.so"
        subprocess.run(["cc", "-O1", "-Wall", "-Werror", "-shared", "-fPIC", "-o", library, ROOT / "trials/program/refuse.c"], check=True)
        for kind, number, text, status in (("count", 0, b"x\n", 0), ("full", 1, b"x", 1), ("write", 1, b"", 1), ("short", 1, b"x\n", 0)):
            setting = {"LD_PRELOAD": str(library), "REFUSE": kind, "AT": str(number)}
            ran = subprocess.run(["/bin/cat"], input=b"x\n", capture_output=True, env=setting)
            assert (ran.stdout, min(ran.returncode, 1)) == (text, status)
