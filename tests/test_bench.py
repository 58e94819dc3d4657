"""Tests of upkeep.bench: what runs took, and what programs print of their steps."""

import os
from pathlib import Path

import pytest

from upkeep.bench import Steps, best, in_turn, one_text
from upkeep.bench.checks import inputs


def test_commands_run_in_turn_on_their_files(tmp_path, script):
    told = tmp_path / "told"
    told.write_text("so\n")
    one, other = script(f"echo one >>{told}.order; cat", tmp_path / "one"), script(f"echo other >>{told}.order; sleep 0.2", tmp_path / "other")
    runs = in_turn({"one": ([one], told), "other": ([other], os.devnull)}, 2)
    assert Path(f"{told}.order").read_text().split() == ["one", "other"] * 2
    assert [ran.text for ran in runs["one"]] == ["so\n"] * 2
    assert best(runs["other"]) > 0.2
    assert all(ran.kilobytes > 100 for ran in runs["one"])
    one_text([runs["one"], runs["one"]])
    with pytest.raises(SystemExit):
        one_text(runs.values())


def test_steps_are_told_by_least_median_and_ratio(tmp_path, script):
    (tmp_path / "next").write_text("20")
    text = 'cd "$(dirname "$0")"; echo step $(cat next) 2 bounds, 7; echo plain 10 text; echo 30 >next'
    counted = script(text, tmp_path / "counted")
    steps = Steps([counted], 3)
    assert (steps.found["step"], steps.least("step"), steps.median("step")) == ([10, 15, 15], 10, 15)
    assert (steps.ratio("step", "plain"), steps.ratio_of_rounds("step", "plain")) == (1.5, 1.5)


def test_the_inputs_of_checks_have_their_lists_last():
    for name, pieces in inputs():
        head = "".join(piece for piece, _ in zip(pieces, range(400)))
        assert head.startswith("@catalogue\n")
        assert ("@data A\n" if name == "60 MB" else "@strategy\n") in head
