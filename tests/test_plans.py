"""Tests of the model of plans: sizes and weights as they are read, and what the bundles are answered, whose answers are worked out by
hand; and the kinds of shapes."""

import re
import tomllib

import pytest

from trials.bundles import examples
from trials.oracle.planner import Planner
from trials.program.case_groups.sizes import texts
from whview.bundle import parts_of
from whview.strategy import kinds
from whview.strategy.plans import Plan
from whview.strategy.sizes import BadSizes, part_of, sizes_in

EXAMPLES = {example.name: example for example in examples()}
SHAPES = {
    "one_way_check": ([[], [], [0, 1]], True, True),
    "plan_one_way": ([[], [], [0, 1], [0, 2]], False, False),
    "each of two joined views over both bases": ([[], [], [0, 1], [0, 1]], False, True),
    "P, S, Q over P, R over Q and S": ([[], [], [0], [2, 1]], True, False),
}


def names_and_over(catalogue):
    views = tomllib.loads("\n".join(catalogue))["view"]
    names = [view["name"] for view in views]
    return names, [[names.index(name) for name in view.get("over", [])] for view in views]


def numbered(text, names):
    """A text with v0, v1 and so on for the names of views."""
    return re.sub(r"\w+", lambda word: f"v{names.index(word[0])}" if word[0] in names else word[0], text)


def planner_of(name):
    """The catalogue and sizes of a bundle, and its other parts and its answer with the views' numbers for their names."""
    once, nights = parts_of(EXAMPLES[name].bundle.decode())
    names, over = names_and_over(once["catalogue"])
    lines = {part: numbered("\n".join(once.get(part, nights[0].get(part, []))) + "\n", names) for part in ("strategy", "plan")}
    return Planner(over, sizes_in(once["sizes"], names), 1, 1), lines, numbered(EXAMPLES[name].answer.decode(), names)


@pytest.mark.parametrize("name", ("one_way_check", "both_children_at_once", "weighted_work", "six_children", "the_largest_sizes_and_weights"))
def test_work_by_hand(name):
    planner, lines, answer = planner_of(name)
    steps = Plan(f"scope all\nwork 0\n{lines['strategy']}").steps
    assert f"correct\nwork {planner.work_of(steps)}\nstatus 0\n" == answer


PLANNED = [name for name, example in EXAMPLES.items() if example.words == ["plan"] and example.answer.startswith(b"scope")]


def test_there_are_plans():
    assert len(PLANNED) > 6


@pytest.mark.parametrize("name", PLANNED)
def test_plans_by_hand(name):
    planner, _, answer = planner_of(name)
    text, status = planner.planned(2**20)
    ours, wanted = Plan(text), Plan(answer.partition("status")[0])
    assert (ours.scope, ours.work, status) == (wanted.scope, wanted.work, 0)
    assert planner.verdict(wanted)[1] == 0


@pytest.mark.parametrize("name", ("plan_weights_change_the_order", "plan_the_order_without_weights", "plan_weights_of_one"))
def test_the_order_that_weights_change(name):
    planner, _, answer = planner_of(name)
    text, status = planner.planned(1)
    assert f"{text}status {status}\n" == answer


CERTIFIED = "pairs another_minimum another_work with_weights under_other_weights weights_of_these_pairs weights_of_other_pairs tree full_tree"


@pytest.mark.parametrize("name", [*CERTIFIED.split(), "bound_alone", "a_cycle_alone", "a_branch_twice"])
def test_verdicts_by_hand(name):
    planner, lines, answer = planner_of(f"certify_{name}")
    text, status = planner.verdict(Plan(lines["plan"]))
    assert f"{text}status {status}\n" == answer


@pytest.mark.parametrize("name", SHAPES)
def test_kinds_by_hand(name):
    over, is_tree, is_uniform = SHAPES[name]
    assert (kinds.is_tree(over), kinds.is_uniform(over)) == (is_tree, is_uniform)
    assert name not in EXAMPLES or planner_of(name)[0].over == over


@pytest.mark.parametrize("bundle, text, status", [pytest.param(*each, id=what) for what, *each in texts()])
def test_each_case_as_it_is_told(bundle, text, status):
    lines = parts_of(bundle)[0]["sizes"]
    try:
        sizes = sizes_in(lines, ["A", "B"])
        planner = Planner([[], []], sizes, 1, 1)
        assert (f"correct\nwork {planner.work_of([(0, None), (1, None)])}\n", 0) == (text, status)
    except BadSizes as fault:
        assert (f"{fault}\n", 3) == (text, status)


def test_the_bundles_with_a_fault():
    told = 0
    for example in EXAMPLES.values():
        once = parts_of(example.bundle.decode(errors="replace"))[0] if b"\n@sizes\n" in example.bundle else {}
        is_of_sizes = re.match(rb"fault (header|csv|number|sizes)", example.answer) and example.words[0] in ("check", "plan")
        if is_of_sizes and "catalogue" in once:
            told += 1
            with pytest.raises(BadSizes) as fault:
                sizes_in(once["sizes"], names_and_over(once["catalogue"])[0])
            assert f"{fault.value}\nstatus 3\n" == example.answer.decode()
    assert told > 15


def test_what_is_written_is_read():
    for sizes in ([(1, 2, 3), (0, 0, 0)], [(1, 2, 3, 1), (0, 0, 0, 1000)]):
        assert sizes_in(part_of("AB", sizes).splitlines()[1:], "AB") == sizes
