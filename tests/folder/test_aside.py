"""Records of changes that a night puts aside: what is carried out, what is kept of the others, and that neither is lost or doubled."""

import os

from whview.finding import TOLD
from whview.folder.report.facts import told as told_of
from whview.folder.stopped import settle

from .shop import contents

HEAD = b"#,id,day,region\r\n"
GOOD = b'1,30,"Fri,\r\nday",east\r\n', b'1,31,"a ""b""",north'
WRONG = {
    b"1,x7,Monday,north\r\n": '4:3: "x7" is not a whole number',
    b"1,77\n": "5:1: this record has 2 cells and the header has 4",
    b"1,78,\xff,north\n": "6:6: this is not UTF-8",
    b"0,79,Monday,north\n": "7:1: a row counts 0 times; a count is not zero",
    b"-1,1,Nope,x\n": "8:1: 1 of 1,Nope,x leave, and versions/1/data/orders.csv has 0",
    b"9223372036854775808,4,Monday,x\n": '9:1: "9223372036854775808" does not fit into 64 bits',
}
CHANGES = HEAD + GOOD[0] + b"".join(WRONG) + GOOD[1]


def aside(kept, *words):
    return kept.ran("night", "--quarantine", *words)


def given_to(kept):
    """Has the program keep what it is given."""
    kept.program.write_text(kept.program.read_text().replace("/dev/null", f"{kept.program}.given"))
    return kept.program.parent / "program.given"


def test_what_is_wrong_is_put_aside_with_its_reasons_and_the_rest_is_carried_out(kept):
    given = given_to(kept)
    kept.put(CHANGES)
    kept.put(b"#,id,product,pieces\n1,1,jam,5\n", "lines.csv")
    status, told = aside(kept, "--commit")
    assert (status, told) == (0, [f"changes/orders.csv:{reason.replace(': ', ': warning: put aside: ', 1)}" for reason in WRONG.values()])
    assert b"@changes orders\n" + HEAD + b"".join(GOOD) + b"\n" in given.read_bytes()
    version, own = kept.folder / "versions/2", kept.folder / "quarantine/2"
    assert (version / "changes/orders.csv").read_bytes() == HEAD + b"".join(GOOD) + b"\n"
    assert (version / "taken/orders.csv").read_bytes() == CHANGES
    assert contents(own) == {"orders.csv": HEAD + b"".join(WRONG), "reasons.txt": contents(own)["reasons.txt"]}
    assert contents(own)["reasons.txt"].decode().splitlines() == [f"changes/orders.csv:{reason}" for reason in WRONG.values()]
    assert contents(version / "quarantine") == contents(own)
    assert "\nput aside: 6 of changes/orders.csv; they lie in quarantine/2\n" in (version / "report.txt").read_text()
    assert told_of((version / "report.txt").read_text()).aside == "put aside: 6 of changes/orders.csv; they lie in quarantine/2"
    assert (kept.changes(), kept.ran("lint")) == ({}, (0, []))
    assert (kept.folder / "current/data/orders.csv").read_bytes().endswith(b'1,30,"Fri,\r\nday",east\n1,31,"a ""b""",north\n')


def test_a_preview_tells_of_them_and_changes_nothing(kept):
    kept.put(CHANGES)
    before = contents(kept.folder / "changes")
    assert aside(kept)[0] == 0
    assert "\nput aside: 6 of changes/orders.csv\n" in (kept.folder / "new/report.txt").read_text()
    assert contents(kept.folder / "changes") == before
    assert not (kept.folder / "quarantine").exists()


def test_without_it_a_night_is_refused(kept):
    kept.put(CHANGES)
    with kept.unchanged():
        assert kept.ran("night", "--commit")[0] == 3


def test_a_file_that_is_wrong_as_a_whole_ends_the_night(kept):
    for content, told in (
        (b"#,id,day\n1,1,Monday\n", "changes/orders.csv:1:1: orders has the header #,id,day,region; this is #,id,day"),
        (HEAD + b'1,x,"a"b,c\r\n', None),
    ):
        kept.put(content)
        before = contents(kept.folder)
        status, lines = aside(kept, "--commit")
        assert (status, contents(kept.folder)) == (3, before)
        assert told is None or lines[0].startswith(told)


def test_a_refused_night_gives_the_files_back_as_they_were(kept):
    kept.put(CHANGES)
    with kept.unchanged():
        kept.answers(b"refused range sales\nleft given-up\n", 1)
        assert aside(kept, "--commit")[0] == 1


def test_of_many_the_first_ones_are_told_and_all_are_kept(kept):
    kept.put(HEAD + b"1,x,Monday,north\n" * 3000)
    status, told = aside(kept, "--commit")
    assert (status, len(told)) == (0, TOLD + 1)
    assert (kept.folder / "quarantine/2/orders.csv").read_bytes().count(b"\n") == 3001
    assert (kept.folder / "quarantine/2/reasons.txt").read_text().count("\n") == 3000


def test_a_version_that_goes_leaves_them(kept):
    kept.put(CHANGES)
    aside(kept, "--commit")
    own = contents(kept.folder / "quarantine")
    kept.night("--keep", "1")
    assert (kept.versions(), contents(kept.folder / "quarantine")) == (["3"], own)


def test_a_night_that_was_stopped_before_it_laid_them_is_finished(kept):
    kept.put(CHANGES)
    aside(kept, "--commit")
    own = contents(kept.folder / "quarantine")
    for _ in range(2):
        kept.turn_to(1)
        settle(kept.folder)
        assert (kept.current(), contents(kept.folder / "quarantine")) == ("versions/2", own)
        for path in [*sorted((kept.folder / "quarantine").rglob("*"), reverse=True)]:
            path.unlink() if path.is_file() else path.rmdir()


def test_a_file_in_the_place_of_their_folder_is_told_before_anything_is_moved(kept):
    kept.put(CHANGES)
    (kept.folder / "quarantine").write_bytes(b"mine\n")
    before = contents(kept.folder)
    status, told = aside(kept, "--commit")
    assert (status, contents(kept.folder)) == (5, before)
    assert "quarantine is no folder that this user can write" in told[0]


def test_what_lies_there_of_another_version_of_that_number_stays(kept):
    (kept.folder / "quarantine/2").mkdir(parents=True)
    (kept.folder / "quarantine/2/orders.csv").write_bytes(b"mine\n")
    kept.put(CHANGES)
    aside(kept, "--commit")
    assert sorted(os.listdir(kept.folder / "quarantine")) == ["2", "2.1"]
    assert (kept.folder / "quarantine/2/orders.csv").read_bytes() == b"mine\n"
