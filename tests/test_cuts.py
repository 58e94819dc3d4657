"""Tests of trials.oracle.cut_inputs: what a beginning of an input is answered, by the formats."""

import pytest

from trials.oracle.cut_inputs import Carried, CarriedBesideReaders, Certified, Checked, Replayed
from upkeep.words import ROOT

CHECKED = """@catalogue
[[view]]
name = "A"
@strategy
inst A
@sizes
view,pre,post,change
A,10,12,4
"""
PLANNED = CHECKED.partition("@strategy")[0] + CHECKED[CHECKED.index("@sizes") :] + "@plan\nscope all\nwork 4\ninst A\n"
REPLAYED = '@catalogue\n[[view]]\nname = "a"\ncolumns = ["x"]\n@strategy\ninst a\n@schedule\ndesks 1\nworkers 1\nkeys 1\nopen 0\n'


def judge(given, ends):
    """The beginning that ends with a text is answered so."""
    answers = {end: given.expected(given.given[: given.given.index(end) + len(end)]) for end in ends}
    assert answers == ends


def test_a_check():
    given = Checked("a check", CHECKED, ["A"], "correct\nwork 4\n")
    judge(given, {
        "chec": ("", 2), "check": ("fault part catalogue\n", 3), "check\n@": ("fault part text\n", 3), "@cat": ("fault part cat\n", 3),
        "@catalogue": ("fault part sizes\n", 3), "@sizes\nview,pr": ("fault header\n", 3), "post,change\n": ("fault sizes A\n", 3),
        "A,10,12": ("fault csv 2\n", 3), "A,10,12,": ("fault number 2\n", 3), "A,10,12,4": ("correct\nwork 4\n", 0),
    })
    assert given.expected(given.given.replace(",12,4", ",12,1")) == ("fault sizes A\n", 3)


def test_sizes_with_weights():
    given = Checked("a check", CHECKED.replace("change", "change,weight").replace(",12,4", ",12,4,10"), ["A"], "correct\nwork 40\n")
    judge(given, {
        "post,change": ("fault sizes A\n", 3), "change,": ("fault header\n", 3), "change,weigh": ("fault header\n", 3),
        "weight\n": ("fault sizes A\n", 3), "A,10,12,4": ("fault csv 2\n", 3), "A,10,12,4,": ("fault number 2\n", 3),
        "A,10,12,4,10": ("correct\nwork 40\n", 0),
    })
    for wrong in ("0", "1001", "-1"):
        assert given.expected(given.given.replace(",4,10", f",4,{wrong}")) == ("fault sizes A\n", 3)


def test_a_plan_that_is_certified():
    given = Certified("a plan", PLANNED, ["A"], [[]], [(10, 12, 4)], [])
    judge(given, {
        "A,10,12,4\n": ("fault part plan\n", 3), "scope al": ("fault plan 1\n", 3), "scope all\nwor": ("fault plan 2\n", 3),
        "work 4\n": ("broken S2 at 1\n", 1), "work 4\ninst": ("fault plan 3\n", 3), "inst A\n": ("certified all work 4\n", 0),
    })
    assert given.expected(given.given.replace("work 4", "work 5")) == ("rejected work\n", 1)


WORDS = ["night", "night ", "night --", "night --workers 2", "night --workers 2 --", "night --workers 2 --readers 2"]
NO_WORDS = ["", "nigh", "night -", "night --w", "night --workers", "night --workers ", "night --workers 2 --readers"]


@pytest.mark.parametrize("words, taken", [(words, words in WORDS) for words in WORDS + NO_WORDS])
def test_words_with_options(words, taken):
    given = CarriedBesideReaders("a night", "")
    assert given.expected(words) == (("fault part catalogue\n", 3) if taken else ("", 2))


def test_a_night_whose_strategy_stands_last():
    given = Carried("a night", (ROOT / "examples/night_two_tables.bundle").read_text())
    judge(given, {
        "\n1,10,6": ("fault part strategy\n", 3), "@strategy": ("broken S1 at 1\n", 1), "comp v from": ("fault strategy 1\n", 3),
        "comp v from a": ("broken S1 at 2\n", 1), "comp v from b": ("broken S2 at 4\n", 1), "inst b": ("broken S2 at 5\n", 1),
    })


def test_a_replay():
    given = Replayed("a replay", REPLAYED, ["a"])
    judge(given, {
        "@strategy": ("fault part schedule\n", 3), "inst a\n@": ("fault part text\n", 3), "workers 1\n": ("fault schedule 3\n", 3),
        "keys 1\n": ("", 0), "keys 1\nop": ("fault schedule 4\n", 3), "open 0": ("session 0\n", 0),
    })


def test_a_replay_with_a_line_of_versions():
    given = Replayed("a replay", REPLAYED.replace("open 0", "versions 3\nopen 0"), ["a"])
    judge(given, {
        "keys 1\n": ("", 0), "keys 1\nversions": ("fault schedule 4\n", 3), "versions ": ("fault schedule 4\n", 3),
        "versions 3": ("", 0), "versions 3\nopen": ("fault schedule 5\n", 3), "open 0": ("session 0\n", 0),
    })
    for wrong in ("versions 1", "versions 5", "versions 3 3", "versions 3\nversions 3", "open 0\nversions 3"):
        told = given.expected(given.given.replace("versions 3", wrong))
        assert told == (f"fault schedule {4 + wrong.count(chr(10))}\n", 3)
