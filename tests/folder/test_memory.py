"""`serve` with a program that stays: the same answers as from files, whatever becomes of the program."""

import errno
import random
import re
import socket
import subprocess
from contextlib import contextmanager
from pathlib import Path
from unittest import mock

import pytest

from whview.folder import keeping, line_edits, memory, places
from whview.folder.line_edits import Edit, Place, edits
from whview.folder.places import Places

from .remembering import Remembered
from .serving import LONG, until
from .shop import WHVIEW
from .stand_in import spoil


@pytest.fixture
def remembered(tmp_path):
    found = Remembered(tmp_path)
    yield found
    found.memory.drop()


def drawn_lines(source, lines):
    """Lines of which some left and others came, in the place of these or anywhere."""
    found = []
    for line in lines:
        drawn = source.random()
        found += [line] if drawn > 0.1 else [b"%d,new\n" % source.randrange(50)] * source.randrange(3)
    return found + [b"%d,last\n" % source.randrange(50) for _ in range(source.randrange(4))]


def carried_out(lines, found):
    """The lines after these edits; each has to name the line that it takes."""
    kept, behind = dict(enumerate(lines, 1)), []
    for number, old, new in found:
        if not number:
            behind.append(new)
            continue
        assert kept[number] == old
        kept[number] = new
    return [line for line in kept.values() if line] + behind


def test_edits_make_the_one_file_of_the_other(tmp_path):
    source = random.Random(5)
    with mock.patch.object(line_edits, "BLOCK", 64):
        for _ in range(300):
            old = [b"%d,%s\n" % (source.randrange(50), b"x" * source.randrange(20)) for _ in range(source.randrange(40))]
            new = drawn_lines(source, old)
            for name, lines in (("old", old), ("new", new)):
                (tmp_path / name).write_bytes(b"".join(lines))
            with (tmp_path / "old").open("rb") as one, (tmp_path / "new").open("rb") as other:
                found = list(edits(Place(one.fileno(), 0), Place(other.fileno(), 0)))
            assert carried_out(old, found) == new


def test_few_edits_are_found_where_little_changed(tmp_path):
    lines = [b"1,%d\n" % number for number in range(20_000)]
    (tmp_path / "old").write_bytes(b"".join(lines))
    (tmp_path / "new").write_bytes(b"".join([*lines[:7], *lines[9:15_000], b"1,x\n", *lines[15_001:], b"1,y"]))
    with (tmp_path / "old").open("rb") as one, (tmp_path / "new").open("rb") as other:
        found = list(edits(Place(one.fileno(), 0), Place(other.fileno(), 0)))
    gone = [Edit(8, b"1,7\n", b""), Edit(9, b"1,8\n", b"")]
    assert found == [*gone, Edit(15_001, b"1,15000\n", b"1,x\n"), Edit(0, b"", b"1,y\n")]


def test_a_number_leads_to_its_place_over_those_that_are_empty():
    found = Places(6, [1, 2, 5, 9])
    assert [found.of(number) for number in range(7)] == [0, 3, 4, 6, 7, 8, 10]
    assert (found.behind(1, 4), found.behind(4, 2)) == ([4, 6, 7, 8], [8, 10])
    assert (found.last, Places(3).of(2), Places(0, [1]).of(0)) == (10, 2, 0)


@pytest.mark.parametrize("seed", range(3))
def test_over_drawn_nights_pages_from_memory_are_those_from_files(tmp_path, seed):
    remembered, sessions = Remembered(tmp_path, seed, 2 + seed), []
    remembered.memory.look()
    for _ in range(8):
        sessions = [*sessions, remembered.session()][-4:]
        for number, session in enumerate(reversed(sessions)):
            found = {remembered.is_same(remembered.target(session)) for _ in range(4)}
            assert found == {number < 2 + seed}
        assert {remembered.is_same(remembered.target()) for _ in range(4)} == {True}
        remembered.night(*remembered.source.sample(["orders", "words", "days"], remembered.source.randrange(1, 4)))
        remembered.memory.look()
    assert (remembered.memory.begun, remembered.memory.keeping.number) == (1, 8)
    assert remembered.told == [f"version 1 is in the memory of the program {remembered.program}, and so are those that follow"]
    remembered.memory.drop()


def test_a_version_in_which_nothing_changed_is_the_one_before(remembered):
    remembered.memory.look()
    session = remembered.session()
    for _ in range(4):
        remembered.version()
        remembered.memory.look()
    assert remembered.memory.keeping.number == 0
    assert remembered.is_same(remembered.target())
    assert remembered.is_same(remembered.target(session))


def test_what_is_searched_or_put_in_order_comes_from_files(remembered):
    remembered.memory.look()
    for field in ("where=day=Monday", "order=id", "order=-day"):
        assert not remembered.is_same(f"/orders?{field}&limit=3")


def test_while_a_night_is_under_way_files_answer(remembered):
    remembered.memory.look()
    target = "/days?limit=5"
    assert remembered.is_same(target)
    with mock.patch.object(keeping, "WAIT", 0.01), remembered.memory.keeping.lock:
        assert not remembered.is_same(target)
        remembered.memory.keeping.due = 0.0
        assert not remembered.is_same(target)


SPOILT = {
    "die": "the program has ended",
    "stick": "the program gave no answer in time",
    "#,place\nend": "the program gives other rows than were asked for",
    "#,place\n1,x\nmore": "the program gives a page that is none",
    "refused NoSession": "the program gives other rows than were asked for",
}


@pytest.mark.parametrize("how", SPOILT)
def test_a_page_that_goes_wrong_comes_from_files_and_another_program_begins(remembered, how):
    memory_ = remembered.memory
    memory_.look()
    spoil(remembered.program, "page", how)
    with mock.patch.object(keeping, "PATIENCE", 0.3), mock.patch.object(memory, "FIRST", 0.0):
        assert not remembered.is_same("/orders?limit=5")
        assert not remembered.is_same("/orders?limit=5")
        memory_.look()
        assert remembered.told[1:] == [f"what a program kept is read from files: {SPOILT[how]}; another one begins in 0 seconds"]
        memory_.look()
    assert remembered.is_same("/orders?limit=5")
    assert memory_.begun == 2


@pytest.mark.parametrize("command", ["night", "commit", "open", "close", "tables"])
@pytest.mark.parametrize("how", ["die", "memory", "version 7"])
def test_a_night_that_goes_wrong_has_another_program_begin(remembered, command, how):
    for _ in range(2):
        remembered.memory.look()
        remembered.night()
    spoil(remembered.program, command, how)
    with mock.patch.object(memory, "FIRST", 0.0):
        remembered.memory.look()
        assert not remembered.is_same("/days?limit=5")
        remembered.memory.look()
    assert remembered.is_same(remembered.target())
    assert remembered.memory.begun == 2


def test_a_program_that_has_ended_is_seen_without_a_question(remembered):
    remembered.memory.look()
    remembered.memory.keeping.talk.process.kill()
    until(lambda: remembered.memory.keeping.talk.has_ended)
    remembered.memory.look()
    assert remembered.memory.kept == {}
    remembered.memory.look()
    assert remembered.memory.begun == 1
    assert "another one begins in 1 seconds" in remembered.told[-1]


def test_programs_that_are_lost_soon_begin_ever_more_seldom(remembered):
    now, pauses = [1000.0], []
    with mock.patch.object(memory.time, "monotonic", lambda: now[0]):
        for _ in range(8):
            remembered.memory.lost("it was lost")
            pauses.append(remembered.memory.pause)
            now[0] += remembered.memory.pause
        now[0] += 1000
        remembered.memory.lost("it was lost")
    assert pauses == [1, 2, 4, 8, 16, 32, 60, 60]
    assert remembered.memory.pause == 1


def test_other_columns_much_that_changed_and_records_that_are_no_lines_begin_anew(remembered):
    remembered.rows["orders"] = [[1, number, "x", 2] for number in range(3000)]
    remembered.version()
    remembered.memory.look()
    remembered.rows["orders"].reverse()
    remembered.version()
    remembered.memory.look()
    assert remembered.told[1:] == ["what a program kept is read from files: more than 1,000 rows that changed; the program begins anew"]
    remembered.memory.look()
    assert remembered.is_same("/orders?limit=5&after=2990")
    remembered.rows["words"].append([1, "of two\nlines"])
    remembered.version()
    remembered.memory.look()
    assert "a record that is no line" in remembered.told[-1]
    remembered.memory.look()
    assert remembered.is_same("/orders?limit=5")
    assert not remembered.is_same("/words?limit=1000")
    remembered.rows["words"].append([1, "of one"])
    remembered.version()
    remembered.memory.look()
    assert remembered.memory.begun == 3
    assert not remembered.is_same("/words?limit=1000")


def test_a_file_that_somebody_changed_is_loaded_anew(remembered):
    remembered.memory.look()
    remembered.rows["words"] = [[1, "another"]]
    (remembered.folder / "current/data/words.csv").write_text("#,word\n1,another\n")
    remembered.version()
    remembered.memory.look()
    assert "a file that somebody changed" in remembered.told[-1]
    remembered.memory.look()
    assert remembered.is_same("/words?limit=5")


def test_where_there_is_no_room_for_an_opening_it_is_tried_again_later(remembered):
    with mock.patch.object(keeping, "temporary", side_effect=OSError(errno.ENOSPC, "No space left on device", "/tmp")) as tried:
        for _ in range(3):
            remembered.memory.look()
    assert tried.call_count == 1
    assert remembered.told == ["what a program kept is read from files: /tmp: No space left on device; another one begins in 1 seconds"]


def test_an_older_version_that_counts_again_is_read_as_it_is(remembered):
    remembered.memory.look()
    remembered.night()
    remembered.memory.look()
    remembered.turn(1)
    remembered.memory.look()
    assert remembered.is_same(remembered.target())
    remembered.night()
    remembered.memory.look()
    assert remembered.is_same(remembered.target())


def test_where_many_places_are_empty_the_program_begins_anew(remembered):
    remembered.rows["orders"] = [[1, number, "x", 2] for number in range(20)]
    remembered.version()
    with mock.patch.object(places, "MOST_EMPTY", 15):
        for _ in range(3):
            remembered.memory.look()
            assert remembered.is_same("/orders?limit=8&after=9")
            remembered.rows["orders"] = remembered.rows["orders"][7:] + [[1, number, "y", remembered.number] for number in range(7)]
            remembered.version()
        remembered.memory.look()
        assert "more than 15 places that are empty" in remembered.told[-1]
        remembered.memory.look()
    assert remembered.is_same("/orders?limit=8&after=9")


def test_a_fault_of_the_tool_itself_is_told(remembered):
    with mock.patch.object(remembered.memory, "step", side_effect=ZeroDivisionError):
        remembered.memory.look()
    remembered.memory.look()
    assert remembered.is_same("/orders?limit=8") is False


def test_without_a_program_that_knows_pages_files_answer(remembered, script):
    script("read line; echo 'session 0'; read line; echo unknown; cat >/dev/null", remembered.program)
    for _ in range(2):
        remembered.memory.look()
        assert not remembered.is_same("/days?limit=5")
    assert remembered.told == ["version 1 is read from files: this program knows no pages behind a row that is named"]
    script("echo 'fault number 3'; exit 3", remembered.program)
    remembered.night()
    remembered.memory.look()
    assert remembered.told[1:] == ["version 2 is read from files: the program does not take these tables: fault number 3"]
    remembered.program.unlink()
    remembered.night()
    remembered.memory.look()
    assert "cannot be run: No such file or directory" in remembered.told[-1]


def test_a_folder_whose_catalogue_is_sql_is_read_from_files(remembered):
    (remembered.folder / ".taken").mkdir()
    remembered.memory.look()
    assert remembered.told == ["version 1 is read from files: a catalogue in SQL"]


def asked(port, path):
    """All bytes of an answer but its date."""
    with socket.create_connection(("127.0.0.1", port), timeout=LONG) as connection:
        connection.sendall(f"GET {path} HTTP/1.1\r\nHost: localhost\r\nConnection: close\r\n\r\n".encode())
        found = b"".join(iter(lambda: connection.recv(65536), b""))
    return re.sub(rb"Date: [^\r]*", b"", found)


@contextmanager
def serving(folder, *words):
    """A server in a process of its own, and its port."""
    command = [WHVIEW, "folder", "serve", folder, "--port", "0", *words]
    with subprocess.Popen(command, stdout=subprocess.PIPE, stderr=subprocess.PIPE, text=True) as running:
        try:
            yield running, int(running.stdout.readline().partition("127.0.0.1:")[2].partition("/")[0])
        finally:
            running.terminate()


def test_servers_with_a_program_and_without_answer_the_same_bytes(remembered):
    with serving(remembered.folder, "--program", remembered.program) as (running, port), serving(remembered.folder, "--from-files") as (_, other):
        assert any(line.startswith("version 1 is in the memory of ") for line in running.stderr)
        for _ in range(30):
            path = remembered.target()
            found = asked(port, path)
            assert found.startswith(b"HTTP/1.1 200 OK\r\n")
            assert found == asked(other, path)
        program = next(each for each in Path("/proc").glob("[0-9]*") if is_program(each, remembered.program))
        running.terminate()
        until(lambda: not is_program(program, remembered.program))


def is_program(process, program):
    """Whether a process runs this program."""
    try:
        return str(program).encode() in (process / "cmdline").read_bytes().split(b"\0")[:4] and b"live" in (process / "cmdline").read_bytes()
    except OSError:
        return False
