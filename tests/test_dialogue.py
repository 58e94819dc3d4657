"""Tests of trials.oracle.dialogue: what a warehouse that stays answers to lines, as worked by hand, and the first fault of a night's parts."""

import pytest

from trials.drawn.dialogues import WORKED, Talk, Worked
from trials.oracle.dialogue import Dialogue

HOW = {"desks": 1, "keys": 256, "kept": 2}
WITHOUT = WORKED.partition("@strategy")[0]
FAULTS = [
    ("oak\n", "part text"),
    ("@\n", "part text"),
    ("@Changes a\n", "part Changes"),
    ("@night\n", "part night"),
    ("@changes a\n#,x\n@changes a\n#,x\n", "part changes"),
    ("@strategy\n@zz oak\n", "part zz"),
    ("@changes v\n#,x,n\n", "part changes"),
    ("@catalogue\n", "part catalogue"),
    ("@changes a\nx\n", "header"),
    ("@changes a\n", "header"),
    ("@changes a\n#,x\n1,oak,1\n", "csv 2"),
    ("@changes a\n#,x\n\n1,oak\n0,oak\n", "number 3"),
    ("@changes a\n#,x\n9223372036854775807,oak\n1,oak\n", "number 3"),
    ("@changes a\n#,x\nx,oak\n@strategy\ninst\n", "number 2"),
    ("@strategy\n\ncomp v from\n", "strategy 2"),
    ("@strategy\ninst a\ninst w\n", "strategy 2"),
]


def told(opening, commands):
    return Dialogue(opening, HOW).answer(commands.encode())


def test_a_stream_as_worked_by_hand():
    worked = Worked()
    dialogue = Dialogue(worked.opening.decode(), worked.how)
    assert [dialogue.answer(command) for command in worked.commands] == worked.answers
    assert dialogue.answer(worked.behind) == ""


@pytest.mark.parametrize("parts, fault", FAULTS)
def test_a_fault_is_told_and_the_night_does_not_begin(parts, fault):
    assert told(WORKED, f"night\n{parts}@end\ncommit\n") == f"fault {fault}\nrefused NoNight\n"


def test_a_night_has_the_strategy_of_the_opening_or_none():
    assert told(WORKED, "night\n@end\n") == "begun\njob 0\ndone\nready\n"
    assert told(WITHOUT, "night\n@end\n") == "fault part strategy\n"
    assert told(WITHOUT, "night\n@data a\n@end\n") == "fault part strategy\n"


def test_lines_in_quotes_end_no_night():
    night = 'night\n@changes a\n#,x\n1,"elm\n@@end\nquit"\n@end\n'
    assert told(WORKED, f"{night}commit\nopen 0\nread 0 a 9\n").endswith('#,x\n1,oak\n1,"elm\n@end\nquit"\nend\n')


def test_the_same_seed_draws_the_same():
    one, other = Talk("1 3"), Talk("1 3")
    assert (one.opening, one.bytes, one.answer, one.words) == (other.opening, other.bytes, other.answer, other.words)
