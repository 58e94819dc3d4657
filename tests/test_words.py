"""Tests of what all tools share: their words and how they end."""

import contextlib
import io
import subprocess
from pathlib import Path

import pytest

from trials.ended import ended, told
from upkeep.words import BUILT, ROOT, program, words_with_program

TOOLS = sorted(path for path in (ROOT / "tools").iterdir() if path.is_file() and path.read_bytes().startswith(b"#!/usr/bin/env python3"))
RUN = ROOT / "trials/run"
TRIALS = [line.split()[0] for line in subprocess.run([RUN], capture_output=True, text=True, check=True).stdout.split("\n\n")[-1].splitlines()]


def commands():
    """The words of each tool and trial, and its file."""
    found = [pytest.param([tool], tool, id=tool.name) for tool in TOOLS]
    for trial in TRIALS:
        file = ROOT / "trials" / f"{trial}.py"
        found.append(pytest.param([RUN, trial], file if "/" in trial else file.with_suffix("") / "__main__.py", id=trial))
    return found


def test_there_are_trials():
    assert len(TRIALS) > 25


@pytest.mark.parametrize("words, file", commands())
def test_each_tool_says_what_it_takes_and_refuses_other_words(words, file):
    ran = subprocess.run([*words, "-h"], capture_output=True, text=True)
    assert (ran.returncode, ran.stderr) == (0, "")
    assert file.read_text().partition('"""')[2].splitlines()[0][:60] in ran.stdout
    assert subprocess.run([*words, "--no-such-word"], capture_output=True).returncode == 2


def test_a_program_a_count_and_a_seed():
    given = words_with_program("", 40, 7)
    asked = given.parse_args(["./whview", "3"])
    assert (program(asked.program), asked.count, asked.seed) == (Path("./whview").resolve(), 3, 7)
    assert BUILT.name == "whview_main"


def said(call):
    with contextlib.redirect_stdout(io.StringIO()) as output:
        status = call()
    return status, output.getvalue()


def test_the_last_line_has_what_passed_and_failed():
    assert said(lambda: ended("cases", 5, 0)) == (0, "cases: 5 passed, 0 failed\n")
    assert said(lambda: ended("cases", 5, 2, "; more")) == (1, "cases: 3 passed, 2 failed; more\n")
    assert said(lambda: ended("cases", 0, 0))[0] == 1


def test_no_more_is_told_than_is_asked_for():
    assert said(lambda: told(["a", "b", "c"], 2)) == (None, "a\nb\n")
