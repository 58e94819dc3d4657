"""Tests of tools/try_edits: which edits have their turn in the gate, and that all are where they were after it."""

import pytest

from upkeep import edits

COUNTS = {"low": 6, "middle": 20, "high": 14}
COSTS = {"low": 10.0, "middle": 20.0}


@pytest.fixture
def root(tmp_path, monkeypatch):
    """A repository of three crates, the last of which no table of costs knows (it costs 30)."""
    monkeypatch.setattr(edits, "ROOT", tmp_path)
    monkeypatch.setattr(edits, "APART", tmp_path / "tools/edits")
    monkeypatch.setattr(edits, "ASIDE", tmp_path / "out/edits")
    monkeypatch.setattr(edits, "seconds_of_edits", lambda: (COSTS, 30.0))
    (tmp_path / "crates.txt").write_text("# crates\nlow:\nmiddle: low std\nhigh: middle low\nbare:\n")
    for crate, count in COUNTS.items():
        (tmp_path / "tools" / "edits" / crate).mkdir(parents=True)
        (tmp_path / "crates" / crate / "must-fail").mkdir(parents=True)
        (tmp_path / "crates" / crate / "must-fail" / "kept.edit").write_text("kept")
        for number in range(count):
            (tmp_path / "tools" / "edits" / crate / f"e{number:02}.edit").write_text(f"{crate} {number}")
    return tmp_path


@pytest.fixture
def turn(root, monkeypatch):
    def found(seconds, lanes=2, changed=(), at=0):
        monkeypatch.setattr(edits, "changed_crates", lambda: set(changed))
        monkeypatch.setattr(edits, "turn", lambda: at)
        return edits.Turn(seconds, lanes)

    return found


@pytest.fixture
def drawn(turn):
    return lambda *given, **named: turn(*given, **named).drawn(edits.apart)


def files(root):
    return {path: path.read_bytes() for path in root.rglob("*") if path.is_file()}


def test_what_is_lent_is_given_back_and_nothing_else_is_taken(root, drawn):
    before = files(root)
    lent = drawn(100)
    edits.lend(lent)
    assert len(files(root)) == len(before) + len(lent)
    # as the run after one that was killed does
    edits.give_back()
    assert files(root) == before


def test_what_is_set_aside_is_put_back(root):
    before = files(root)
    edits.set_aside(edits.standing("low") + edits.standing("high"))
    assert [bool(edits.standing(crate)) for crate in COUNTS] == [False, True, False]
    # as the run after one that was killed does
    edits.give_back()
    assert files(root) == before


def test_what_stands_comes_before_what_is_apart(turn):
    taken = turn(35, lanes=2)
    assert len(taken.drawn(edits.standing)) == 3
    assert len(taken.drawn(edits.apart)) == 1
    assert len(turn(5, lanes=2).drawn(edits.standing)) == 1


def test_a_folder_that_was_made_for_lent_edits_goes_with_them(root):
    (root / "crates/low/must-fail/kept.edit").unlink()
    (root / "crates/low/must-fail").rmdir()
    edits.lend(edits.apart("low"))
    edits.give_back()
    assert not (root / "crates/low/must-fail").exists()


def test_no_edit_twice_and_no_more_than_the_time(drawn):
    for at in range(50):
        found = drawn(100, at=at)
        assert len(set(found)) == len(found)
        costs = {crate: sum(COSTS.get(crate, 30.0) for edit in found if edit.parent.name == crate) for crate in COUNTS}
        # the last one of a crate, and the last one of all, may go over
        assert all(cost < 100 + COSTS.get(crate, 30.0) for crate, cost in costs.items())
        assert sum(costs.values()) < 200 + 30


def test_all_are_tried_where_there_is_time(drawn):
    assert len(drawn(1_000)) == sum(COUNTS.values())


def test_changed_crates_come_first_and_leave_a_third_to_the_others(drawn):
    crates = [edit.parent.name for edit in drawn(90, lanes=3, changed=["high"])]
    assert crates.count("high") == 3
    crates = [edit.parent.name for edit in drawn(300, lanes=1, changed=["high"])]
    assert (crates[:7], crates.count("high")) == (["high"] * 7, 7)
    assert len(crates) >= 12


def test_each_edit_has_its_turn_whatever_a_landing_has(drawn):
    for commits in (1, 2, 3, 5, 7, 10):
        tried = {edit for landing in range(40) for edit in drawn(60, at=100 + commits * landing)}
        assert len(tried) == sum(COUNTS.values())


def test_crates_and_the_libraries_below(root):
    assert edits.crates() == ["low", "middle", "high"]
    assert edits.libraries_below(["high"]) == ["low", "middle"]
