"""Versions that vouch for themselves: what is none of a folder's versions, files that are not as they were made, tables that would be
dropped, and copies of folders.
"""

import fcntl
import json
import os
import re
import shutil
from pathlib import Path
from unittest import mock

import pytest

from whview.folder import rollback, verify, vouching
from whview.folder.identity import NONE, identity_of, sign
from whview.folder.manifest import read_manifest, sum_of, write_manifest

from .shop import NEXT, contents, held

ALONE = "and is left alone: no night goes on from it or removes it; move it away"
OTHER = NEXT.replace(b"8,Thu", b"9,Thu")
ANSWER_WITHOUT_VIEWS = b"inst orders: 0\ninst lines: 0\nwork 0\n"


def test_a_version_says_its_number_its_parent_its_folder_and_the_sum_of_each_file(kept):
    kept.more()
    one, two = (read_manifest(kept.folder / f"versions/{number}") for number in (1, 2))
    assert (one.version, one.parent, one.kind, two.version, two.parent, two.parent_sum) == (1, 0, "night", 2, 1, one.sum)
    assert {one.folder, two.folder} == {identity_of(kept.folder).name}
    first = read_manifest(kept.folder / "versions/0")
    assert (first.parent, first.kind, one.parent_sum) == (None, "first", first.sum)
    for number, manifest in ((1, one), (2, two)):
        version = kept.folder / f"versions/{number}"
        files = {str(path.relative_to(version)): sum_of(path) for path in version.rglob("*") if path.is_file()}
        del files["manifest.txt"]
        assert {name: entry.pieces[0].sum for name, entry in manifest.files.items()} == files
        assert {len(entry.pieces) for entry in manifest.files.values()} == {1}
    assert (one.work, one.changes["orders"], two.changes["orders"]) == (98, 2, 1)


def test_a_manifest_of_which_one_byte_is_another_is_none(kept):
    file = kept.folder / "versions/1/manifest.txt"
    content = file.read_bytes()
    file.chmod(0o644)
    for at in range(0, len(content), 97):
        file.write_bytes(content[:at] + bytes([content[at] ^ 1]) + content[at + 1 :])
        assert kept.ran("lint")[0] == 3


def test_a_night_that_is_refused_leaves_no_identity_in_a_new_folder(kept):
    shutil.rmtree(kept.folder / "versions")
    for name in ("current", ".identity"):
        (kept.folder / name).unlink()
    (kept.folder / "data").mkdir()
    for name, header in (("orders", "id,day,region"), ("lines", "id,product,pieces"), ("products", "product,price")):
        (kept.folder / f"data/{name}.csv").write_text(f"{header}\n")
    kept.answers(b"refused range sales\n", 1)
    assert kept.ran("night", "--commit")[0] == 1
    assert not (kept.folder / ".identity").exists()
    assert not (kept.folder / "versions").exists()


def judge(kept, name, why, end=f", {ALONE}"):
    """A preview, lint and a night tell the stray and leave it alone; the night takes a number that is free."""
    before = contents(kept.folder / "versions")
    told = f"versions/{name}:1:1: warning: {why}{end}"
    for words in (["night"], ["lint"]):
        status, lines = kept.ran(*words)
        assert (status, told in lines, kept.current()) == (0, True, "versions/1")
    kept.put()
    status, lines = kept.ran("night", "--commit", "--keep", "1")
    assert (status, lines) == (0, [told])
    assert b"1,8,Thursday,south\n" in (kept.folder / "current/data/orders.csv").read_bytes()
    after = contents(kept.folder / "versions")
    left = {file: content for file, content in before.items() if file.partition("/")[0] == name}
    assert {file: after[file] for file in left} == left
    assert os.path.lexists(kept.folder / "versions" / name)


def test_a_copy_of_another_version(kept):
    shutil.copytree(kept.folder / "versions/1", kept.folder / "versions/10")
    judge(kept, "10", "this is version 1")
    assert kept.current() == "versions/2"
    assert kept.said("read", "sales", "--version", "10")[0] == 2
    assert kept.said("read", "sales", "--version", "2")[0] == 0
    assert [each["version"] for each in json.loads("\n".join(kept.said("log", "--format", "json")[1]))] == [2, 1]


NO_MANIFEST = "this does not vouch for itself (it has no manifest.txt)"
# A stray's name, what makes it, what is told of it, and the number of the next version.
STRAYS = {
    "an empty folder": ("9", Path.mkdir, NO_MANIFEST, 2),
    "a file with the next number": ("2", lambda stray: stray.write_text("notes\n"), "this is no version but a file", 3),
    "a folder with the next number": ("2", lambda stray: (stray / "data").mkdir(parents=True), NO_MANIFEST, 3),
}


@pytest.mark.parametrize("name, make, why, number", STRAYS.values(), ids=STRAYS)
def test_what_is_no_version(kept, name, make, why, number):
    make(kept.folder / "versions" / name)
    judge(kept, name, why)
    assert kept.current() == f"versions/{number}"


def test_what_looks_like_a_rest_and_is_another_folders(kept):
    (kept.folder / "versions/2.part/changes").mkdir(parents=True)
    (kept.folder / "versions/2.part/changes/orders.csv").write_bytes(OTHER)
    judge(kept, "2.part", "this is no version of this folder")
    assert b"1,9,Thursday" not in (kept.folder / "current/data/orders.csv").read_bytes()
    (kept.folder / "versions/0.gone").mkdir()
    judge_again(kept, "0.gone")


def judge_again(kept, name):
    kept.night()
    assert (kept.folder / "versions" / name).is_dir()


def test_a_version_of_another_folder_with_the_next_number_and_this_parent(kept):
    other = kept.folder.with_name("other")
    shutil.copytree(kept.folder, other, symlinks=True)
    (other / "changes").mkdir(exist_ok=True)
    (other / "changes/orders.csv").write_bytes(OTHER)
    status, lines = kept.ran("night", "--commit", folder=other)
    assert (status, kept.current(other)) == (0, "versions/2")
    shutil.copytree(other / "versions/2", kept.folder / "versions/2")
    judge(kept, "2", "this is a version of another folder")
    assert kept.current() == "versions/3"


def test_a_version_that_was_not_made_from_the_current_one(kept):
    kept.more()
    kept.more(OTHER)
    (kept.folder / "current").unlink()
    shutil.rmtree(kept.folder / "versions/2")
    (kept.folder / "current").symlink_to("versions/1")
    end = ", and no night goes on from it; `rollback` goes back to it, or move it away"
    with held(kept.folder / "versions/3", fcntl.LOCK_SH):
        judge(kept, "3", "this was not made from version 1", end)
    assert (kept.current(), read_manifest(kept.folder / "current").parent) == ("versions/4", 1)


def test_a_version_that_lies_elsewhere_and_is_linked(kept):
    kept.more()
    elsewhere = kept.folder.with_name("elsewhere")
    (kept.folder / "versions/0").rename(elsewhere)
    (kept.folder / "versions/0").symlink_to(elsewhere)
    assert kept.ran("lint") == (0, [])
    assert kept.said("verify")[0] == 0


def test_names_that_are_no_numbers(kept):
    for number, name in enumerate(("9" * 30, "9" * 240, "01", "-1", "notes"), 1):
        (kept.folder / "versions" / name).mkdir()
        kept.night()
        assert kept.current() == f"versions/{number + 1}"
        told = f"versions/{name}:1:1: warning: this is no version of this folder, {ALONE}"
        assert told in kept.ran("lint")[1]


def test_a_night_that_was_decided_is_finished_by_the_next_that_is_kept_and_turned_to_by_no_preview(kept):
    kept.more()
    kept.turn_to(1)
    status, lines = kept.ran("night")
    assert (status, kept.current()) == (3, "versions/1")
    assert "a night was stopped in" in lines[0]
    assert kept.night() == ["a night that was stopped is finished"]
    assert kept.current() == "versions/3"


def test_a_view_whose_time_was_put_back_is_seen_and_made_anew(kept):
    kept.change("views/daily_by_region.csv")
    file = "versions/1/views/daily_by_region.csv"
    told = f"{file}:1:1: warning: this is not as its night made it: it has other bytes than it had; all derived views are made anew"
    assert kept.ran("lint") == (0, [told])
    was, self_made = (kept.folder / file).read_bytes(), kept.folder / "versions/0/manifest.txt"
    assert self_made.is_file()
    assert kept.ran("night", "--commit") == (0, [told])
    assert kept.current() == "versions/2"
    assert (kept.folder / "current/views/daily_by_region.csv").read_bytes() != was
    status, printed, _ = kept.said("verify")
    assert (status, printed[0]) == (1, f"{file}: it has other bytes than it had")
    assert kept.said("verify", "2")[0] == 0


def test_a_base_table_that_differs_stops_the_night_and_says_what_to_do(kept):
    content = (kept.folder / "current/data/orders.csv").read_bytes()
    file = kept.change("data/orders.csv", b"north", b"south")
    kept.put()
    for words in (["lint"], ["night"], ["night", "--commit"], ["night", "--commit", "--keep", "1"]):
        status, lines = kept.ran(*words)
        assert (status, kept.current(), kept.changes()) == (3, "versions/1", {"orders.csv": NEXT})
        begin = "versions/1/data/orders.csv:1:1: this is not as its night made it: it has other bytes than it had; put it back"
        assert lines[0].startswith(begin)
        assert f"`whview folder rollback {kept.folder} VERSION`" in lines[0]
        assert lines[0].endswith("or `night --accept data/orders.csv` takes it as it is")
    file.chmod(0o644)
    file.write_bytes(content)
    assert kept.ran("night", "--commit") == (0, [])


def test_a_base_table_that_differs_is_taken_as_it_is_by_a_word(kept):
    kept.change("data/orders.csv", b"north", b"south")
    status, lines = kept.ran("night", "--commit", "--accept", "data/lines.csv")
    assert status == 3
    status, lines = kept.ran("night", "--commit", "--accept", "data/orders.csv")
    assert (status, len(lines)) == (0, 1)
    assert "warning: this is not as its night made it: it has other bytes than it had; it is taken as it is" in lines[0]
    assert kept.said("verify", "2")[0] == 0
    assert kept.ran("lint") == (0, [])
    assert kept.ran("night", "--accept", "data/orders.csv", "--commit")[0] == 2


def test_a_base_table_that_is_gone_or_that_somebody_put_into_a_version(kept):
    file = kept.folder / "versions/1/data/orders.csv"
    content = file.read_bytes()
    file.unlink()
    status, lines = kept.ran("night", "--commit")
    assert status == 3
    assert "versions/1/data/orders.csv:1:1: this is not as its night made it: it is not there" in lines[0]
    file.write_bytes(content)
    kept.add_colours()
    (kept.folder / "versions/1/data/colours.csv").write_text("#,name\n1,red\n")
    status, lines = kept.ran("night", "--commit")
    assert status == 3
    assert "versions/1/data/colours.csv:1:1: this is not as its night made it: its manifest does not name it" in lines[0]


def test_a_version_whose_catalogue_or_report_differs_is_not_gone_on_from_as_it_is(kept):
    for number, (name, old, new) in enumerate((("catalogue.toml", b"small", b"large"), ("report.txt", b"work 98", b"work 89")), 1):
        kept.change(name, old, new)
        assert f"versions/{number}/{name}:1:1: warning: this is not as its night made it" in kept.night()[0]
        assert "\nviews: computed anew, since " in (kept.folder / "current/report.txt").read_text()


def test_a_report_that_is_no_report_any_more(kept):
    kept.change("report.txt", b"\norders,5,7,2", b'\norders,x,"y\xff')
    assert kept.ran("lint")[0] == 0
    kept.put()
    assert "versions/1/report.txt:1:1: warning: this is not as its night made it" in kept.night()[0]
    assert kept.ran("lint") == (0, [])


def test_a_manifest_that_is_gone_or_damaged_stops_the_night(kept):
    for why, damage in (("it has no manifest.txt", os.unlink), ("its manifest.txt is damaged", lambda file: kept.change("manifest.txt"))):
        number = kept.current()
        damage(kept.folder / number / "manifest.txt")
        status, lines = kept.ran("night", "--commit")
        told = f"{number}/manifest.txt:1:1: version {number[9:]} does not vouch for itself: {why}; put it back"
        assert (status, lines[-1].startswith(told)) == (3, True)
        status, lines = kept.ran("night", "--commit", "--accept", "manifest.txt")
        assert status == 0
        assert kept.current() != number


def test_verify_reads_all_and_says_which_file_of_which_version_differs(kept):
    kept.more()
    assert kept.said("verify")[0] == 0
    assert re.search("^3 versions, [0-9]+ files, [0-9,]+ bytes: all as they were made$", kept.said("verify")[1][-1])
    kept.change("changes/orders.csv", b"south", b"north")
    (kept.folder / "versions/1/plan.txt").write_text("")
    lines = ["versions/1/plan.txt: its manifest does not name it", "versions/2/changes/orders.csv: it has other bytes than it had"]
    status, printed, _ = kept.said("verify")
    assert (status, printed[:-1]) == (1, lines)
    assert kept.said("verify", "0")[0] == 0
    assert kept.said("verify", "2")[1][0] == lines[1]
    assert kept.said("verify", "7")[0] == 2
    with held(kept.folder / "versions/0", fcntl.LOCK_EX), mock.patch.object(verify, "PATIENCE", 0):
        told = "versions/0: it is held by somebody alone; readers hold it by flock --shared, and is not read"
        assert kept.said("verify", "0") == (1, [told, "0 versions, 0 files, 0 bytes: 1 differ"], [])


def test_a_night_refuses_to_leave_a_table_behind_until_it_is_named(kept):
    views = (kept.folder / "catalogue.toml").read_text().split("\n\n")
    (kept.folder / "catalogue.toml").write_text("\n\n".join(view for view in views if '"products"' not in view and "sales" not in view))
    (kept.folder / "strategy.txt").unlink()
    assert kept.ran("lint")[0] == 0
    before = contents(kept.folder)
    for words in (["night", "--commit"], ["night", "--commit", "--keep", "1"], ["night", "--commit", "--always"]):
        status, lines = kept.ran(*words)
        assert (status, contents(kept.folder)) == (3, before)
        told = "versions/1/data/products.csv:1:1: products is no base view any more, and its table would be in no later version"
        assert lines[-1].startswith(told)
        assert "`--drop products` behind" in lines[-1]
    assert kept.ran("night", "--commit", "--drop", "nothing")[0] == 2
    assert kept.ran("night", "--drop", "products")[0] == 2
    kept.answers(ANSWER_WITHOUT_VIEWS, 0)
    status, lines = kept.ran("night", "--commit", "--drop", "products")
    assert (status, kept.current()) == (0, "versions/2")
    assert not (kept.folder / "current/data/products.csv").exists()
    assert kept.ran("lint") == (0, [])


def test_a_catalogue_without_base_views(kept):
    for text in ("", "# nothing\n"):
        (kept.folder / "catalogue.toml").write_text(text)
        (kept.folder / "strategy.txt").unlink(missing_ok=True)
        status, lines = kept.ran("night", "--commit", "--keep", "1")
        assert (status, kept.current()) == (3, "versions/1")


def test_a_copy_of_a_folder_whose_name_no_version_has(kept):
    identity = sign(kept.folder, identity_of(kept.folder)._replace(before={"a" * 32: NONE}))
    assert identity_of(kept.folder) == identity


def copied(kept, *words):
    other = kept.folder.with_name("other")
    os.system(f"cp -a {' '.join(words)} {kept.folder} {other}")
    return other


def stopped(kept):
    """Lays what a night has that was stopped before it was decided."""
    part = kept.rest(2)
    (part / "changes").mkdir(parents=True)
    (part / "changes/orders.csv").write_bytes(NEXT)


def test_a_copy_gets_a_name_of_its_own_and_its_versions_still_count(kept):
    other = copied(kept)
    (other / "changes/orders.csv").write_bytes(NEXT)
    status, lines = kept.ran("night", "--commit", folder=other)
    told = f"{other} is a copy of another folder, or came from another file system; from now on it goes by a name of its own"
    assert (status, lines, kept.current(other)) == (0, [told], "versions/2")
    assert identity_of(other).name != identity_of(kept.folder).name
    assert kept.said("verify", folder=other)[0] == 0
    assert kept.ran("night", "--commit", "--always", folder=other) == (0, [])
    assert kept.ran("lint") == (0, [])


def test_a_stopped_night_of_the_original_that_comes_later_is_a_stray(kept):
    other = copied(kept)
    assert kept.ran("night", "--commit", "--always", folder=other)[0] == 0
    stopped(kept)
    shutil.copytree(kept.rest(2), other / "versions" / kept.rest(2).name)
    status, lines = kept.ran("night", "--commit", "--always", folder=other)
    told = f"versions/{kept.rest(2).name}:1:1: warning: this is no version of this folder, {ALONE}"
    assert (status, lines) == (0, [told])
    assert b"1,8,Thursday" not in (other / "current/data/orders.csv").read_bytes()


def test_a_folder_that_is_moved_is_no_copy(kept):
    kept.folder.rename(kept.folder.with_name("moved"))
    status, lines = kept.ran("night", "--commit", "--always", folder=kept.folder.with_name("moved"))
    assert (status, lines) == (0, [])


def test_a_copy_without_hidden_files(kept):
    other = kept.folder.with_name("other")
    other.mkdir()
    os.system(f"cp -a {kept.folder}/* {other}/")
    assert kept.ran("night", "--commit", "--always", folder=other)[0] == 0
    assert (kept.current(other), kept.said("verify", folder=other)[0]) == ("versions/2", 0)


@pytest.mark.parametrize("words", [(), ("-l",)], ids=["plain", "hard-linked"])
def test_a_copy_beside_a_stopped_night_takes_nothing_of_the_originals_until_it_is_told(kept, words):
    stopped(kept)
    other = copied(kept, *words)
    for command in (["night"], ["night", "--commit"]):
        before = contents(other)
        status, lines = kept.ran(*command, folder=other)
        assert (status, contents(other)) == (3, before)
        assert f"versions/{kept.rest(2).name} has the changes of a night that was stopped" in lines[1]
        assert "`--adopt` behind `night .. --commit`" in lines[-1]
    assert kept.ran("night", "--commit", "--adopt", folder=other)[0] == 0
    assert b"1,8,Thursday,south\n" in (other / "current/data/orders.csv").read_bytes()
    assert kept.ran("night") == (0, ["a night that was stopped is undone; its changes lie in changes/ again"])
    assert kept.changes() == {"orders.csv": NEXT}


def test_shared_changes_are_given_back_once(kept):
    stopped(kept)
    queue = kept.folder.with_name("queue")
    (kept.folder / "changes").rename(queue)
    (kept.folder / "changes").symlink_to(queue)
    other = copied(kept)
    assert kept.ran("night", "--commit", folder=other)[0] == 3
    assert kept.ran("night")[0] == 0
    shutil.rmtree(other / "versions" / kept.rest(2).name)
    assert kept.ran("night", folder=other)[0] == 0
    assert [path.name for path in queue.iterdir()] == ["orders.csv"]


def test_a_copy_that_lost_its_hard_links_as_a_file_was_given_back(kept):
    stopped(kept)
    kept.put()
    other = copied(kept)
    for words in (["night", "--commit"], ["night", "--commit", "--adopt"]):
        status, lines = kept.ran(*words, folder=other)
        assert (status, len(lines)) == (3, 1)
        assert "have the same bytes in a folder that is a copy: remove the one" in lines[0]
    (other / "changes/orders.csv").unlink()
    assert kept.ran("night", "--commit", "--adopt", folder=other)[0] == 0
    assert (other / "current/data/orders.csv").read_bytes().count(b"8,Thursday") == 1


def test_a_copy_made_while_a_night_was_at_work_has_the_same_changes_twice(kept):
    kept.more()
    other = copied(kept)
    (other / "changes/orders.csv").write_bytes(NEXT)
    status, lines = kept.ran("night", "--commit", folder=other)
    assert status == 3
    assert "changes/orders.csv has the bytes of versions/2/changes/orders.csv, which are carried out" in lines[1]
    assert kept.ran("night", "--commit", "--adopt", folder=other)[0] == 0


def test_a_copy_finishes_a_night_that_was_decided(kept):
    kept.more()
    kept.turn_to(1)
    other = copied(kept)
    assert "a night that was stopped is finished" in kept.ran("night", "--commit", "--always", folder=other)[1]
    assert kept.current(other) == "versions/3"


@pytest.fixture
def older(kept):
    """A folder whose versions are of before there were manifests."""
    kept.more()
    for file in kept.folder.glob("versions/*/manifest.txt"):
        file.unlink()
    (kept.folder / ".identity").unlink()
    return kept


def test_its_current_version_is_taken_over_once_and_told(older):
    # In a process of its own, with which it lets go of the version.
    ran = older.process("lint")
    assert (ran.returncode, ran.stderr) == (0, "")
    taken = "versions/2 is of before versions had manifests: it is taken as it is, and vouches for itself from now on (manifest.txt)"
    assert older.night() == [taken]
    assert older.night() == []
    status, printed, told = older.said("verify")
    assert (status, len(told)) == (0, 2)
    assert older.said("rollback", "2")[0] == 0
    assert older.said("rollback", "1")[0] == 3
    older.night("--keep", "1")
    assert older.versions() == ["6"]


def test_a_manifest_that_was_being_written_as_the_night_was_killed_is_written_again(older):
    (older.folder / "versions/2/.manifest.txt").write_text("manifest 1\n")
    (older.folder / "versions/2/.manifest.txt").chmod(0o444)
    # As long as it is open its inode is no other file's.
    with (older.folder / "versions/2/.manifest.txt").open() as held:
        older.night()
        assert not (older.folder / "versions/2/.manifest.txt").exists()
        assert (older.folder / "versions/2/manifest.txt").stat().st_ino != os.fstat(held.fileno()).st_ino


def test_one_that_is_another_users_gets_no_manifest_and_the_night_goes_on(older):
    def refuses(version, manifest):
        if manifest.kind == "taken over":
            raise PermissionError(13, "Permission denied", "versions/2")
        return write_manifest(version, manifest)

    with mock.patch.object(vouching, "write_manifest", side_effect=refuses):
        status, lines = older.ran("night", "--commit", "--always")
    told = "versions/2 is of before versions had manifests, and gets none: versions/2: Permission denied"
    assert (status, lines, older.current()) == (0, [told], "versions/3")
    assert older.ran("night", "--commit", "--always") == (0, [])


def test_a_newer_version_is_neither_turned_to_nor_passed_over_without_a_word(older):
    shutil.copytree(older.folder / "versions/1", older.folder / "versions/10")
    for words in (["lint"], ["night"], ["night", "--commit"]):
        status, lines = older.ran(*words)
        assert (status, older.current()) == (3, "versions/2")
        assert "versions/10 is newer than current, and was made before versions had manifests" in lines[0]
    shutil.rmtree(older.folder / "versions/10")
    (older.folder / "versions/9").mkdir()
    assert "versions/9:1:1: warning" in older.night()[0]
    assert older.current() == "versions/3"


def test_a_night_that_was_stopped_is_undone(older):
    (older.folder / "versions/3.part/changes").mkdir(parents=True)
    (older.folder / "versions/3.part/changes/orders.csv").write_bytes(OTHER)
    assert older.night()[0] == "a night that was stopped is undone; its changes lie in changes/ again"
    assert b"1,9,Thursday,south\n" in (older.folder / "current/data/orders.csv").read_bytes()


def test_a_view_that_was_written_after_its_night_is_made_anew_and_not_vouched_for(older):
    file = older.folder / "versions/2/views/sales.csv"
    file.chmod(0o644)
    file.write_bytes(file.read_bytes())
    os.utime(file, ns=(2**61, 2**61))
    assert "versions/2/views/sales.csv:1:1: warning: this was written after its night" in older.night()[0]
    assert "views/sales.csv" not in read_manifest(older.folder / "versions/2").files


def test_a_new_version_has_the_files_of_an_older_one(kept):
    kept.more()
    kept.put(OTHER)
    status, printed, told = kept.said("rollback", "1")
    assert (status, told, kept.current(), kept.changes()) == (0, [], "versions/3", {"orders.csv": OTHER})
    one, three = kept.folder / "versions/1", kept.folder / "versions/3"
    for file in [*one.glob("data/*"), *one.glob("views/*"), one / "catalogue.toml"]:
        assert file.samefile(three / file.relative_to(one))
    assert list((three / "changes").iterdir()) == []
    made = read_manifest(three)
    assert (made.kind, made.of, made.parent) == ("rollback", 1, 2)
    assert (three / "report.txt").read_text().startswith("rollback: the tables of version 1 again, after version 2;")
    assert kept.said("verify")[0] == 0
    assert kept.ran("lint") == (0, [])
    assert kept.ran("night", "--commit") == (0, [])
    table = (kept.folder / "current/data/orders.csv").read_bytes()
    assert b"1,9,Thursday" in table and b"1,8,Thursday" not in table
    assert kept.said("report", "3")[0] == 2


def test_a_version_that_does_not_vouch_for_itself_is_not_gone_back_to(kept):
    kept.more()
    with kept.unchanged():
        for number in ("2", "7"):
            assert kept.said("rollback", number)[0] == 2
        (kept.folder / "versions/9").mkdir()
        assert kept.said("rollback", "9")[0] == 2
    file = kept.folder / "versions/1/views/sales.csv"
    file.chmod(0o644)
    with file.open("ab") as opened:
        opened.write(b"1,more\n")
    status, _, lines = kept.said("rollback", "1")
    assert (status, kept.current(), kept.versions()) == (3, "versions/2", ["0", "1", "2", "9"])
    assert "versions/1/views/sales.csv: it has" in lines[1]


def test_one_that_was_decided_and_not_turned_to_is_finished_by_the_next_night(kept):
    kept.more()
    with mock.patch.object(rollback, "turn", side_effect=OSError(5, "Input/output error", "current")):
        status, _, lines = kept.said("rollback", "1")
    assert (status, kept.current()) == (5, "versions/2")
    assert lines == ["the rollback is done and is version 3, but current: Input/output error; the next night sees to it"]
    assert kept.ran("lint")[0] == 3
    assert (kept.night()[0], kept.current()) == ("a night that was stopped is finished", "versions/4")


def test_a_current_version_that_is_damaged_is_left_by_it(kept):
    kept.more()
    kept.change("data/orders.csv", b"south", b"north")
    (kept.folder / "current/manifest.txt").unlink()
    assert kept.said("rollback", "1")[0] == 0
    told = f"versions/2:1:1: warning: {NO_MANIFEST}, {ALONE}"
    assert kept.ran("night", "--commit", "--always") == (0, [told])


def test_the_nights_are_told_newest_first(kept):
    kept.more()
    kept.said("rollback", "1")
    status, printed, _ = kept.said("log")
    assert status == 0
    assert re.search("^version  time +kind +parent  work  who +changes$", printed[0])
    assert re.search(r"^3 \*      [0-9-]{10}T[0-9:]{8}Z  rollback to 1  2       -     \S+@\S+ +-$", printed[1])
    assert re.search(r"^2        .*Z  night          1       98    \S+@\S+ +orders 1, ", printed[2])
    assert re.search("^0 .* first ", printed[4])
    found = json.loads("\n".join(kept.said("log", "--format", "json")[1]))
    assert [each["version"] for each in found] == [3, 2, 1, 0]
    assert (found[0]["of"], found[0]["current"], found[1]["changes"]["orders"], found[3]["parent"]) == (1, True, 1, None)
    assert kept.said("log", "--format", "xml")[0] == 2
