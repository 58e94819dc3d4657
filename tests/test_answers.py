"""Tests of what judges answers: the answers of all bundles are of the forms and by the rules, and spoilt ones are not."""

import pytest

from trials.bundles import examples
from trials.oracle import by_the_rules
from trials.oracle.answer_forms import is_an_answer


def answered():
    """Each bundle with its text and its status."""
    for example in examples():
        text, status = example.answer.rsplit(b"status ", 1)
        yield example, text, int(status)


@pytest.mark.parametrize("example, text, status", [pytest.param(*each, id=each[0].name) for each in answered()])
def test_the_answers_of_all_bundles_are_of_the_forms(example, text, status):
    assert is_an_answer(example.words[0], text, status, b"")
    assert not is_an_answer(example.words[0], text, status, b"x")


SPOILT = {
    "check": [(b"correct\nwork 154", 0), (b"correct\n", 0), (b"correct\nwork 154\n", 1), (b"memory\n", 3)],
    "plan": [(b"scope all\n", 0)],
    "certify": [(b"rejected at\n", 1)],
    "night": [(b"version 1\n", 0), (b"fault key over\nx", 3), (b"", -11)],
    "replay": [(b"begun", 0), (b"refused NoSuch\n", 0)],
}


@pytest.mark.parametrize("command, text, status", [(command, *spoilt) for command, all_spoilt in SPOILT.items() for spoilt in all_spoilt])
def test_a_text_that_is_cut_or_has_another_status_is_none(command, text, status):
    assert not is_an_answer(command, text, status, b"")


def test_nights_and_replays_without_a_fault():
    nights = 0
    for example, text, status in answered():
        if example.words[0] == "night" and status < 3 and (told := by_the_rules.night(example.bundle)) is not None:
            assert b"\n" + told in b"\n" + text
            nights += 1
    assert nights > 15


def test_another_row_is_noticed():
    example = next(example for example in examples() if example.name == "night_two_tables")
    assert by_the_rules.night(example.bundle) != by_the_rules.night(example.bundle.replace(b"1,10,6", b"1,10,7"))
    assert by_the_rules.night(b"@catalogue\n") is None
