"""Tests of trials.oracle.machine: which versions can be read, where two to four are kept."""

from trials.bundles import examples
from trials.oracle.given import Given
from trials.oracle.machine import answer

THREE = next(example for example in examples() if example.name == "replay_three_versions")
LINE = "versions 3\n"


def told_of(line):
    """The replies to the reads of the worked schedule, with another line of versions."""
    bundle = THREE.bundle.decode()
    assert bundle.count(LINE) == 1
    text, status = answer(Given(bundle.replace(LINE, line)))
    assert status == 0
    return [told for told in text.splitlines() if told.startswith(("page ", "expired "))]


def test_three_versions_as_worked_by_hand():
    text, status = answer(Given(THREE.bundle.decode()))
    assert f"{text}status {status}\n" == THREE.answer.decode()


def test_two_versions_with_or_without_the_line():
    expired = ["expired 0 current 1 active", "expired 0 current 2 idle", "expired 0 current 2 active"]
    expired += ["expired 1 current 2 active", "expired 1 current 3 idle", "page [1 3] end"]
    assert told_of("") == expired
    assert told_of("versions 2\n") == expired


def test_four_versions():
    first, second = "page [1 1] end", "page [1 2] end"
    assert told_of("versions 4\n") == [first, first, first, second, second, "page [1 3] end"]


def test_blanks_and_zeros_in_the_line():
    assert Given(THREE.bundle.decode().replace(LINE, "\n versions\t004 \r\n")).kept == 4
