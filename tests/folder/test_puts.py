"""`put`: files of changes come in whole, each under a free name, all of a call or none, and a batch once, whatever happens meanwhile."""

import os
import re
import shutil
import subprocess
from collections import Counter
from contextlib import suppress
from itertools import count
from pathlib import Path
from types import SimpleNamespace
from unittest import mock

import pytest

from whview.finding import Failure
from whview.folder import claim, gate, puts
from whview.folder.claim import Claim
from whview.folder.commit import take, undo
from whview.folder.inputs import Source

from .disturbed import held_up, hindered, killed
from .shop import NEXT, WHVIEW, Shop, carried_out, contents, rows_in

OTHERS = b"#,id,product,pieces\n1,8,jam,4\n"
LEAST = 20


class Putting(Shop):
    def __init__(self, room):
        super().__init__(room)
        shutil.rmtree(self.folder / "changes")
        self.room = self.folder.parent / "exports"
        self.room.mkdir()

    def export(self, name="orders.csv", content=NEXT):
        """A file that is to be put in."""
        (self.room / name).write_bytes(content)
        return self.room / name

    def puts(self, *words, given=b""):
        """The status of a put, and the lines that it prints and tells."""
        status, printed, told = carried_out(["put", self.folder, *words], given)
        return status, printed.splitlines(), told.splitlines()

    def seen(self):
        return {name: content for name, content in self.files().items() if name.endswith(".csv")}

    def files(self):
        home = self.folder / "changes"
        return {path.name: path.read_bytes() for path in home.iterdir() if path.is_file()} if home.is_dir() else {}


@pytest.fixture
def putting(tmp_path):
    return Putting(tmp_path)


def test_a_file_comes_in_under_the_first_name_that_is_free(putting):
    file = putting.export("orders.7.csv")
    for name in ("orders.csv", "orders.1.csv", "orders.2.csv"):
        assert putting.puts(file) == (0, [f"changes/{name}: 1 row of {file}"], [])
    assert putting.seen() == dict.fromkeys(("orders.csv", "orders.1.csv", "orders.2.csv"), NEXT)
    assert file.read_bytes() == NEXT
    assert os.listdir(putting.folder / "changes/.put") == []


def test_what_was_given_back_meanwhile_stays(putting):
    """A refused night gives its changes back under the name of a file that was to be moved there."""
    putting.put(b"#,id,day,region\n1,9,Friday,south\n")
    putting.answers(b"refused range sales\nleft given-up\n", 1)
    assert putting.ran("night", "--commit")[0] == 1
    assert putting.puts(putting.export())[0] == 0
    assert putting.seen() == {"orders.csv": b"#,id,day,region\n1,9,Friday,south\n", "orders.1.csv": NEXT}


def test_several_files_and_standard_input(putting):
    (putting.room / "other").mkdir()
    files = [putting.export(), putting.export("other/orders.csv"), putting.export("lines.csv", OTHERS)]
    assert putting.puts(*files)[0] == 0
    assert putting.puts("-", "--as", "orders", given=NEXT) == (0, ["changes/orders.2.csv: 1 row of standard input"], [])
    assert putting.puts(putting.export("today.txt"), "--as", "orders.csv")[0] == 0
    assert putting.seen().keys() == {"orders.csv", "orders.1.csv", "orders.2.csv", "orders.3.csv", "lines.csv"}


@pytest.mark.skipif(not os.access("/dev/shm", os.W_OK), reason="there is no other file system")
def test_a_file_of_another_file_system_comes_in(putting):
    file = Path(f"/dev/shm/orders.{os.getpid()}.csv")
    file.write_bytes(NEXT)
    try:
        assert (putting.puts(file)[0], putting.seen()) == (0, {"orders.csv": NEXT})
    finally:
        file.unlink()


def test_a_night_takes_what_was_put(putting):
    putting.puts(putting.export(), "--batch", "one")
    putting.night()
    assert (putting.folder / "versions/1/changes/orders.csv").read_bytes() == NEXT
    assert putting.seen() == {}


def judge_refused(putting, status, told, *words):
    """A put that leaves everything as it is."""
    before = putting.files()
    assert putting.puts(*words) == (status, [], [told])
    assert (putting.files(), left(putting)) == (before, [])


def left(putting):
    room = putting.folder / "changes/.put"
    return os.listdir(room) if room.is_dir() else []


def test_of_files_one_of_which_has_a_fault_none_comes_in(putting):
    wrong = putting.export("lines.csv", b"#,id,product,pieces\n1,8,jam,x\n")
    judge_refused(putting, 3, f'{wrong}:2:9: "x" is not a whole number', putting.export(), wrong)
    header = f"{wrong}:1:1: lines has the header #,id,product,pieces; this is id,product,pieces; # is how many of a row come, or with - leave"
    wrong.write_bytes(b"id,product,pieces\n8,jam,1\n")
    judge_refused(putting, 3, header, putting.export(), wrong)


def test_rows_that_are_not_there_do_not_leave(putting):
    leaving = putting.export("orders.csv", b"#,id,day,region\n-1,8,Thursday,south\n")
    judge_refused(putting, 1, f"{leaving}:2:1: 1 of 8,Thursday,south leave, and data/orders.csv has 0", leaving)
    putting.put()
    assert putting.puts(leaving)[0] == 0
    judge_refused(putting, 1, f"{leaving}:2:1: 1 of 8,Thursday,south leave, and data/orders.csv has 0", leaving)


def test_names_that_are_none_of_a_base_view(putting):
    file = putting.export("order.csv")
    judge_refused(putting, 2, f"{file}: there is no view order; did you mean orders?", file)
    file = putting.export("sales.csv")
    judge_refused(putting, 2, f"{file}: sales is derived; only base views have data and changes", file)
    file = putting.export("today.txt")
    told = f"{file} is named otherwise than NAME.csv or NAME.1.csv, where NAME is its view; name that by --as NAME"
    judge_refused(putting, 2, told, file)
    judge_refused(putting, 2, "there is no file none.csv", "none.csv")
    judge_refused(putting, 2, "- is standard input, which stands once and has its view named by --as NAME", "-")
    judge_refused(putting, 2, "--as names the view of one file; put the others by themselves", putting.export(), putting.export(), "--as", "orders")


def test_a_file_that_is_still_written(putting):
    file = putting.export()
    with file.open("ab"):
        judge_refused(putting, 6, f"{file} is still being written; try again when it is whole", file)


def test_a_name_that_no_batch_has(putting):
    told = "a batch is named by 1 to 128 letters, digits and _ + = @ : . -, the first of them no point, and not '../x'"
    judge_refused(putting, 2, told, putting.export(), "--batch", "../x")


def test_a_link_in_the_place_of_its_own_folder_leads_nowhere(putting):
    (putting.folder / "changes").mkdir()
    (putting.folder / "changes/.put").symlink_to(putting.room)
    status, _, told = putting.puts(putting.export())
    assert (status, told) == (3, [f"{putting.folder / 'changes/.put'} is no folder; move it away"])
    assert os.listdir(putting.room) == ["orders.csv"]


def test_nothing_outside_is_brought_in_or_removed_by_links_that_somebody_puts_there(putting):
    outside = putting.folder.parent / "outside"
    (outside / "decided").mkdir(parents=True)
    (outside / "decided/orders.csv").write_bytes(NEXT)
    before = contents(outside)
    changes = putting.folder / "changes"
    (changes / ".put/planted").mkdir(parents=True)
    (changes / ".put/planted/orders.csv").symlink_to(outside / "decided/orders.csv")
    (changes / ".put/linked").symlink_to(outside / "decided")
    (changes / ".put/linked.part").symlink_to(outside / "decided")
    assert putting.puts(putting.export())[0] == 0
    assert (putting.seen(), contents(outside)) == ({"orders.csv": NEXT}, before)
    shutil.rmtree(changes / ".put")
    (changes / ".put").symlink_to(outside)
    putting.night()
    assert (contents(outside), putting.seen()) == (before, {})
    (changes / "one.batch").symlink_to(outside / "decided/orders.csv")
    told = "changes/one.batch:1:1: this is a link, and a night takes the file itself; put the file in"
    assert putting.ran("night", "--commit") == (3, [told])
    assert contents(outside) == before


def test_what_somebody_puts_in_the_place_of_its_files_is_told(putting):
    decide = puts.Put.decide

    def replaced(put):
        (put.path / "orders.csv").unlink()
        (put.path / "orders.csv").write_bytes(b"#,id,day,region\n1,1,of,another\n")
        decide(put)

    def removed(put):
        (put.path / "orders.csv").unlink()
        decide(put)

    for by, came in ((replaced, "orders.csv"), (removed, "nothing")):
        with mock.patch.object(puts.Put, "decide", by):
            status, printed, told = putting.puts(putting.export())
        assert (status, printed) == (5, [])
        assert re.search(f"orders.csv did not come in: somebody took it away .*; what came in: {came}", told[0])


def test_what_lies_in_the_place_of_the_note_of_a_batch_is_told_before_anything(putting):
    (putting.folder / "changes/one.batch").mkdir(parents=True)
    told = f"{putting.folder}/changes/one.batch is a folder, and in its place the note of this batch would be; move it away"
    assert putting.puts(putting.export(), "--batch", "one") == (3, [], [told])
    assert putting.seen() == {}


def test_a_link_in_the_place_of_a_file_of_its_own_makes_no_file_elsewhere(putting):
    elsewhere = putting.room / "elsewhere"
    (putting.room / ".probe").symlink_to(elsewhere)
    claim.tells_of_writers(putting.room)
    assert not elsewhere.exists()
    assert os.listdir(putting.room) == []


def test_where_nothing_can_be_printed_the_changes_are_in(putting):
    command = [WHVIEW, "folder", "put", putting.folder, putting.export()]
    with open("/dev/full", "wb") as full:
        assert subprocess.run(command, stdout=full, stderr=full).returncode == 0
    assert putting.seen() == {"orders.csv": NEXT}


def test_a_link_that_comes_in_a_files_place_as_it_is_taken_goes_back(putting):
    file, claim = putting.folder / "changes/orders.csv", Claim(putting.folder, putting.folder / "versions/1.part")
    file.parent.mkdir()
    for target in (putting.export(), putting.room / "nowhere"):
        file.symlink_to(target)
        with pytest.raises(Failure) as refused:
            claim.take([("changes", Source(file, "changes/orders.csv"))])
        told = "changes/orders.csv is a link, and a night takes the file itself; put the file in"
        assert (refused.value.status, refused.value.lines) == (3, (told,))
        undo(claim)
        assert (os.readlink(file), claim.part.exists()) == (str(target), False)
        file.unlink()


def again(putting, where, *told):
    before = putting.seen()
    said = f"batch one was put before, and {where}: nothing is changed"
    assert putting.puts(putting.export(), "--batch", "one") == (0, [said], list(told))
    assert putting.seen() == before


def test_a_batch_is_taken_once_before_and_after_its_night(putting):
    assert putting.puts(putting.export(), "--batch", "one")[0] == 0
    again(putting, "waits for the next night")
    putting.night()
    again(putting, "is in versions/1")
    putting.puts(putting.export(), "--batch", "two")
    putting.night("--keep", "1")
    again(putting, "is in a version that is there no more")
    assert [line.split()[0] for line in (putting.folder / "current/batches.txt").read_text().splitlines()] == ["one", "two"]
    other = putting.puts(putting.export(content=NEXT.replace(b"south", b"north")), "--batch", "one")
    assert (other[0], "it had other bytes" in other[2][0]) == (1, True)
    putting.night()
    assert (putting.folder / "current/batches.txt").samefile(putting.folder / "versions/2/batches.txt")


def test_it_is_taken_once_beside_a_night_and_after_one_that_was_undone(putting):
    assert putting.puts(putting.export(), "--batch", "one")[0] == 0
    with putting.under_way("--commit"):
        again(putting, "is taken by the night that is under way, or was stopped")
    again(putting, "is in versions/1")
    assert putting.puts(putting.export(), "--batch", "two")[0] == 0
    putting.answers(b"refused range sales\nleft given-up\n", 1)
    assert putting.ran("night", "--commit")[0] == 1
    assert putting.puts(putting.export(), "--batch", "two")[1] == ["batch two was put before, and waits for the next night: nothing is changed"]
    assert putting.seen() == {"orders.csv": NEXT}


def test_other_bytes_under_its_name_are_refused_and_not_lost_as_if_they_had_come(putting):
    assert putting.puts(putting.export(content=NEXT.replace(b"south", b"north")), "--batch", "one")[0] == 0
    for where in ("waits for the next night", "is in versions/1"):
        told = f"batch one was put before, and {where}; it had other bytes, and those of now are not taken: nothing is changed"
        refused = 1, [], [f"{told}; another batch needs another name"]
        before = putting.seen()
        assert putting.puts(putting.export(), "--batch", "one") == refused
        assert putting.puts("-", "--as", "orders", "--batch", "one", given=NEXT) == refused
        assert putting.seen() == before
        putting.night()
    assert putting.puts("-", "--as", "orders", "--batch", "one", given=NEXT.replace(b"south", b"north"))[0] == 0


def test_a_batch_whose_rows_have_left_already_is_known(putting):
    leaving = putting.export("lines.csv", b"#,id,product,pieces\n-1,4,jam,2\n")
    assert putting.puts(leaving, "--batch", "one")[0] == 0
    said = "batch one was put before, and waits for the next night: nothing is changed"
    assert putting.puts(leaving, "--batch", "one") == (0, [said], [])


def fresh(putting):
    shutil.rmtree(putting.folder / "changes", ignore_errors=True)
    for part in (putting.folder / "versions").glob("*"):
        shutil.rmtree(part)
    return ["put", putting.folder, putting.export(), putting.export("lines.csv", OTHERS), "--batch", "one"]


def given_rows():
    return Counter({("orders", ("8", "Thursday", "south")): 1, ("lines", ("8", "jam", "4")): 1})


def waiting(putting):
    return rows_in(putting.folder / "changes")


def judge_all_or_none(found):
    assert found in (Counter(), given_rows())


def test_killed_at_each_call_it_is_whole_or_not_there_and_comes_once(putting):
    for number in count(1):
        words = fresh(putting)
        if not killed(words, number):
            break
        claim = Claim(putting.folder, putting.folder / "versions/1.part")
        take(SimpleNamespace(folder=putting.folder, options={}), claim)
        judge_all_or_none(rows_in(claim.part / "changes"))
        assert waiting(putting) == Counter()
        undo(claim)
        for _ in range(2):
            assert carried_out(words)[0] == 0
            assert waiting(putting) == given_rows()
        assert os.listdir(putting.folder / "changes/.put") == []
    assert number > LEAST


def test_killed_and_put_again_it_comes_once(putting):
    for number in count(1):
        words = fresh(putting)
        if not killed(words, number):
            break
        assert (carried_out(words)[0], waiting(putting)) == (0, given_rows())
        assert os.listdir(putting.folder / "changes/.put") == []


def test_on_a_disk_that_is_full_at_each_call_it_is_whole_or_not_there(putting):
    """What was taken and could not be brought in is told, and the next put does it."""
    for number in count(1):
        words = fresh(putting)
        status = hindered(words, number)
        if status is None:
            break
        assert status in (0, 5)
        if status == 0:
            assert waiting(putting) == given_rows()
        assert (carried_out(words)[0], waiting(putting)) == (0, given_rows())
        assert os.listdir(putting.folder / "changes/.put") == []
    assert number > LEAST


def test_a_night_that_takes_changes_at_each_call_takes_all_or_none(putting):
    for number in count(1):
        words = fresh(putting)
        claim = Claim(putting.folder, putting.folder / "versions/1.part")
        with held_up(words, number) as put, mock.patch.object(gate, "PATIENCE", 0):
            with suppress(Failure):
                take(SimpleNamespace(folder=putting.folder, options={}), claim)
        assert put.status == 0
        took = rows_in(claim.part / "changes")
        judge_all_or_none(took)
        assert took + waiting(putting) == given_rows()
        if claim.part.is_dir():
            undo(claim)
        assert (carried_out(words)[0], waiting(putting)) == (0, given_rows())
        if not put.stands:
            break
    assert number > LEAST


def test_the_same_batch_at_each_call_comes_once(putting):
    for number in count(1):
        words = fresh(putting)
        with held_up(words, number) as put, mock.patch.object(gate, "PATIENCE", 0):
            status, _, told = carried_out(words)
        assert (put.status, status) in ((0, 0), (0, 6))
        assert waiting(putting) == given_rows()
        if not put.stands:
            break


def test_puts_at_once_all_come_and_each_batch_once(putting):
    files = [putting.export(), putting.export("lines.csv", OTHERS)]
    words = [WHVIEW, "folder", "put", putting.folder, *files, "--batch"]
    running = [subprocess.Popen([*words, batch], stdout=subprocess.DEVNULL) for batch in ("one", "two", "one", "three")]
    assert [each.wait() for each in running] == [0, 0, 0, 0]
    assert waiting(putting) == Counter({row: 3 for row in given_rows()})
