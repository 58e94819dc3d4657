"""Tests of trials.program.case_groups: what is wrong with a program is told, whatever it is."""

from trials.program.case_groups import AByteAtATime, BesideAFile, Case, Endless, FromAFolder, TakenByNobody, bounds, filed, limits, words


def test_the_text_the_status_and_standard_error_are_judged(script):
    right = Case([], b"", "correct\n", 0)
    assert right.mistake(script("echo correct")) is None
    for wrong in ("echo correct; exit 1", "echo incorrect", "true", "echo correct; echo so >&2", "echo correct; echo correct"):
        assert right.mistake(script(wrong)) is not None


def test_a_beginning_and_an_unknown_text(script):
    assert Case([], b"", "cor", 0, is_beginning=True).mistake(script("echo correct")) is None
    assert Case([], b"", "cor", 0).mistake(script("echo correct")) is not None
    assert Case([], b"", None, 2).mistake(script("echo any; exit 2")) is None
    assert Case([], b"", None, 2).mistake(script("exit 2")) is not None


def test_each_way_in_which_input_comes(script):
    echo = script("cat")
    assert Case([], b"so\n", "so\n", 0).mistake(echo) is None
    assert AByteAtATime([], b"so\n", "so\n", 0).mistake(echo) is None
    assert Endless([], b"", "\n", 0).mistake(script("head -n 1")) is None
    assert FromAFolder([], b"", "so\n", 0).mistake(echo) is not None
    assert TakenByNobody([], b"so\n", None, 5).mistake(script("true")) is not None
    assert TakenByNobody([], b"so\n", None, 5).mistake(script("exec 2>/dev/null; echo so || exit 5")) is None
    assert BesideAFile(["{room}/night.txt"], b"", "so\n", 0).mistake(script('echo so; cat "$1" "$1x"')) is not None


def test_a_program_that_knows_one_answer_is_noticed_in_each_group(script):
    known = script("echo memory; exit 4")
    for group in (words, bounds, limits, filed):
        cases = [case for case in group.cases() if not callable(case.given) and not isinstance(case, filed.AsFilled)][::10]
        assert all(case.mistake(known) for case in cases)


def test_what_a_bundle_is_with_its_files():
    files = {"t": b"x\n@y"}
    assert filed.filled(b"@data a<t\n\n@strategy\n", files) == (b"@data a\nx\n@@y\n@strategy\n", None)
    assert filed.filled(b"@data a < t\nx\n@sizes < t\n", files) == (b"@data a < t\nx\n@sizes < t\n", None)
    assert filed.filled(b"@data a < u\n@data b < v\n", files) == (None, b"u")


def test_answers_that_are_not_those_of_the_filled_bundle_are_noticed(script):
    case = filed.AsFilled(["cat", "night.bundle"], b"", None, 0, files={"night.bundle": b"@data a < t\n", "t": b"x\n"})
    assert case.mistake(script('[ "$2" ] && printf "@data a\\nx\\n" || cat')) is None
    assert case.mistake(script('[ "$2" ] && cat "$2" || cat')) is not None
