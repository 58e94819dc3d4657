"""How a folder lies before, in and after a night that is kept: its versions, its lock, and what a stopped night left."""

import fcntl
import os
import re
import signal
import subprocess
import time
from threading import Thread
from unittest import mock

import pytest

from whview import disk
from whview.finding import Failure
from whview.folder import lock, stopped

from .shop import NEXT, SHOP, WHVIEW, carried_out, contents


def test_a_night_is_a_version_and_the_tables_before_it_are_the_first(shop):
    before = contents(shop.folder)
    shop.night()
    assert (shop.versions(), shop.current()) == (["0", "1"], "versions/1")
    for file in ("orders.csv", "lines.csv", "products.csv"):
        assert (shop.folder / "versions/0/data" / file).read_bytes() == before[f"data/{file}"]
        assert (shop.folder / "versions/1/changes" / file).read_bytes() == before[f"changes/{file}"]
    assert (shop.changes(), (shop.folder / "data").exists()) == ({}, False)
    made = set(contents(shop.folder / "versions/1"))
    tables = {f"views/{name}.csv" for name in ("sales", "daily_by_product", "daily_by_region")}
    tables |= {f"{kind}/{name}.csv" for kind in ("data", "changes") for name in ("orders", "lines", "products")}
    assert made == tables | {"catalogue.toml", "strategy.txt", "report.txt", "manifest.txt"}
    modes = {path.stat().st_mode & 0o222 for path in (shop.folder / "versions").rglob("*") if path.is_file()}
    assert modes == {0}


def test_a_file_with_the_same_bytes_as_before_is_the_same_file(kept):
    kept.more()
    for name, is_same in (("data/lines.csv", True), ("data/orders.csv", False), ("views/sales.csv", True)):
        assert os.path.samefile(kept.folder / "versions/1" / name, kept.folder / "versions/2" / name) == is_same


def test_a_preview_takes_nothing_and_is_gone_with_the_next_night_that_is_kept(shop):
    assert shop.ran("night") == (0, [])
    assert (shop.folder / "new/report.txt").exists()
    assert shop.changes().keys() == {"lines.csv", "orders.csv", "products.csv"}
    assert not (shop.folder / "versions").exists()
    shop.night()
    assert not (shop.folder / "new").exists()


def test_a_refused_night_changes_no_file(kept):
    kept.put()
    with kept.unchanged():
        kept.answers(b"refused range sales\nleft given-up\n", 1)
        assert kept.ran("night", "--commit") == (1, ["refused range sales", "left given-up"])


def test_a_fault_in_the_first_tables_leaves_them_to_be_mended(shop):
    shop.edit("data/products.csv", "bread,300", "bread,12.50")
    shop.answers(b"fault number 2\n", 3)
    with shop.unchanged():
        told = 'data/products.csv:2:7: "12.50" is not a whole number (keep cents)'
        assert shop.ran("night", "--commit") == (3, [told])
    assert not (shop.folder / "versions").exists()


def test_a_first_night_that_is_refused_changes_no_file_and_names_those_that_there_are(shop):
    before = contents(shop.folder)
    shop.answers(b"refused range sales\nleft given-up\n", 1)
    for words in (["night"], ["night", "--commit"]):
        assert shop.ran(*words) == (1, ["refused range sales", "left given-up"])
        assert contents(shop.folder) == before
        assert not (shop.folder / "versions").exists()


def test_a_fault_of_the_first_tables_is_told_whatever_else_ends_the_night(shop):
    shop.edit("data/products.csv", "bread,300", "bread,12.50")
    shop.edit("catalogue.toml", "join = ", "# join = ")
    without = "catalogue.toml:16:1: warning: sales is over 3 views without a join: every row meets every row"
    told = [without, 'data/products.csv:2:7: "12.50" is not a whole number (keep cents)']
    for answer, status in ((b"fault number 2\n", 3), (b"memory\n", 4), (b"", 70), (b"refused large sales\n", 1)):
        shop.answers(answer, status)
        assert shop.ran("night", "--commit") == (3, told)
    (shop.folder / "strategy.txt").write_text("inst orders\n")
    assert shop.ran("night", "--commit") == (3, told)
    shop.edit("changes/orders.csv", "#,id", "#,no")
    status, lines = shop.ran("night")
    assert (status, len(lines), lines[0], lines[-1]) == (3, 3, *told)


def test_tables_as_nights_write_them_are_linked_and_those_of_a_new_view_are_written(shop):
    (shop.folder / "data/products.csv").write_text("#,product,price\n2,bread,300\n1,jam,450\n")
    (shop.folder / "changes/products.csv").unlink()
    shop.night()
    one, two = (shop.folder / f"versions/{number}/data/products.csv" for number in "01")
    assert one.samefile(two)
    assert "\nproducts,3,3,0\n" in (shop.folder / "current/report.txt").read_text()
    shop.add_colours()
    (shop.folder / "data").mkdir(exist_ok=True)
    (shop.folder / "data/colours.csv").write_text("#,name\n1,red\n")
    shop.night()
    assert (shop.folder / "current/data/colours.csv").read_text() == "#,name\n1,red\n"
    assert one.samefile(shop.folder / "current/data/products.csv")


def test_findings_name_the_files_as_they_lay_before_the_night(kept):
    kept.put(b"#,id,day,region\n-1,77,Thursday,south\n")
    told = "changes/orders.csv:2:1: 1 of 77,Thursday,south leave, and versions/1/data/orders.csv has 0"
    for command, status in (("lint", 3), ("night", 1)):
        assert kept.ran(command) == (status, [told])
    assert kept.ran("night", "--commit") == (1, [told])


def test_a_table_beside_the_versions_is_a_fault_and_one_of_a_new_view_is_taken(kept):
    (kept.folder / "data").mkdir()
    (kept.folder / "data/orders.csv").write_text("id,day,region\n")
    told = "data/orders.csv:1:1: data/orders.csv is not looked at: the table of orders is versions/1/data/orders.csv; move it away"
    for words in (["lint"], ["night"], ["night", "--commit"], ["plan"]):
        assert kept.ran(*words) == (3, [told])
    (kept.folder / "data/orders.csv").unlink()
    kept.add_colours()
    fault = "catalogue.toml:45:8: there is no data/colours.csv; an empty table is a file with its header: name"
    assert kept.ran("night", "--commit") == (3, [fault])
    (kept.folder / "data/colours.csv").write_text("name\nred\n")
    kept.answers(b"refused range sales\n", 1)
    assert kept.ran("night", "--commit")[0] == 1
    assert (kept.folder / "data/colours.csv").read_text() == "name\nred\n"
    kept.answer_as_the_shop()
    kept.night()
    assert (kept.folder / "current/data/colours.csv").read_text() == "#,name\n1,red\n"
    assert (kept.folder / "current/given/colours.csv").read_text() == "name\nred\n"
    assert kept.ran("lint") == (0, [])


def test_the_table_of_a_view_that_is_none_any_more_is_told(kept):
    kept.edit("catalogue.toml", '[[view]]\nname = "orders"\ncolumns = ["id", "day:text", "region:text"]\n', "")
    text = "orders is no base view; its table is not carried on, and no night is kept but with `--drop orders`"
    told = f"versions/1/data/orders.csv:1:1: warning: {text}"
    assert told in kept.ran("lint")[1]


def test_versions_that_are_not_to_stay_go_but_for_one_that_a_reader_holds(shop):
    for count in range(4):
        shop.night()
    shop.night("--keep", "3")
    assert shop.versions() == ["3", "4", "5"]
    held = os.open(shop.folder / "versions/4", os.O_RDONLY)
    fcntl.flock(held, fcntl.LOCK_SH)
    shop.night("--keep", "1")
    assert shop.versions() == ["4", "6"]
    os.close(held)
    shop.night("--keep", "1")
    assert (shop.versions(), shop.current()) == (["7"], "versions/7")


def test_the_bundle_of_a_folder_with_versions_has_the_tables_of_the_current_one(kept):
    status, printed, told = carried_out(["pack", kept.folder])
    assert "@data products\n" + (kept.folder / "versions/1/data/products.csv").read_text() + "@strategy\n" in printed
    assert (status, told) == (0, "")


def test_a_view_whose_columns_change_gets_a_new_name(kept):
    kept.edit("catalogue.toml", 'columns = ["product:text", "price"]', 'columns = ["product:text", "price", "kind:text"]')
    has = "products has the header #,product,price,kind; this is #,product,price"
    rows = 'say what its rows have in the new ones, such as fill = {kind = ""} below the view\'s columns'
    cure = f"a kept table has the columns of its night: {rows}, or name the view anew, such as products_2, with a table in data/"
    assert kept.ran("lint") == (3, [f"versions/1/data/products.csv:1:1: {has}; {cure}"])
    text = (kept.folder / "catalogue.toml").read_text().replace('"products"', '"products_2"').replace("products.", "products_2.")
    (kept.folder / "catalogue.toml").write_text(text)
    (kept.folder / "strategy.txt").unlink()
    (kept.folder / "data").mkdir(exist_ok=True)
    (kept.folder / "data/products_2.csv").write_text("product,price,kind\njam,450,sweet\n")
    text = "products is no base view; its table is not carried on, and no night is kept but with `--drop products`"
    told = f"versions/1/data/products.csv:1:1: warning: {text}"
    assert kept.ran("lint") == (0, [told])


def test_of_two_nights_at_once_one_is_done_and_the_other_says_who_is_at_work(shop):
    with shop.under_way("--commit") as running:
        status, told = shop.ran("night", "--commit")
        assert status == 6
        form = rf"^a night is at work in {shop.folder}: process {running.pid} on host \S+ since [0-9-]+ [0-9:]+"
        assert re.search(f"{form}; try again when it has ended$", "\n".join(told))
        assert shop.ran("night")[0] == 6
        status, told = shop.ran("lint")
        assert (status, len(told)) == (0, 1)
        assert re.search("^a night is at work in .*; what is told here is without the changes that it has taken$", told[0])
    assert (running.returncode, shop.versions()) == (0, ["0", "1"])


def test_what_comes_while_a_night_is_at_work_is_the_next_nights(shop):
    with shop.under_way("--commit") as running:
        shop.put()
        shop.put(b"", "notes.txt")
    os.unlink(shop.folder / "changes/notes.txt")
    assert (running.returncode, shop.changes()) == (0, {"orders.csv": NEXT})
    assert (shop.folder / "versions/1/changes/orders.csv").read_bytes() == (SHOP / "changes/orders.csv").read_bytes()


def test_the_file_that_is_locked_is_there_as_long_as_a_night_is_at_work(shop):
    with shop.under_way():
        assert (shop.folder / ".lock").is_file()
    assert not (shop.folder / ".lock").exists()
    shop.answers(b"refused range sales\nleft given-up\n", 1)
    for words in (["night"], ["night", "--commit"]):
        assert shop.ran(*words)[0] == 1
        assert not (shop.folder / ".lock").exists()


def test_what_somebody_puts_in_its_place_leads_nowhere(shop):
    elsewhere, file = shop.folder.with_name("elsewhere"), shop.folder / ".lock"
    elsewhere.write_text("of somebody else\n")
    for kind, make in (("link", lambda: file.symlink_to(elsewhere)), ("FIFO", lambda: os.mkfifo(file)), ("folder", file.mkdir)):
        make()
        told = f"{file} is a {kind}, and not the file by which a night holds its folder; move it away"
        for words in (["night", "--commit"], ["lint"]):
            assert shop.ran(*words) == (3, [told])
        assert elsewhere.read_text() == "of somebody else\n"
        file.rmdir() if kind == "folder" else file.unlink()


def test_nobody_is_waited_for_who_would_write_what_the_folder_is_known_by(shop):
    for name in (".identity", ".seen"):
        (shop.folder / name).unlink(missing_ok=True)
        os.mkfifo(shop.folder / name)
    assert shop.ran("lint")[0] == 0
    shop.put()
    assert shop.ran("night", "--commit", "--keep", "1")[0] == 0
    assert (shop.folder / ".identity").is_file() and (shop.folder / ".seen").is_file()


def test_no_link_that_stands_in_a_files_place_is_written_through(shop):
    elsewhere, room = shop.folder.with_name("elsewhere"), shop.folder.with_name("room")
    elsewhere.write_text("of somebody else\n")
    room.mkdir()
    (room / "link").symlink_to(elsewhere)
    mode = elsewhere.stat().st_mode
    for work in (lambda: disk.write(room / "link", [b"ours"]), lambda: disk.copy(shop.folder / "catalogue.toml", room / "link"), lambda: disk.keep(room)):
        with pytest.raises(OSError):
            work()
        assert (elsewhere.read_text(), elsewhere.stat().st_mode) == ("of somebody else\n", mode)


def test_whoever_waits_for_a_lock_that_is_removed_takes_the_one_that_is_there(shop):
    with lock.Lock(shop.folder):
        handle = os.open(shop.folder / ".lock", os.O_RDWR)
    assert not (shop.folder / ".lock").exists()
    waiting = lock.Lock(shop.folder)
    waiting.handle = handle
    assert lock.taken(handle, fcntl.LOCK_EX)
    assert not waiting.is_there()
    with lock.Lock(shop.folder) as second:
        assert not waiting.is_there()
        assert second.is_there()
        with pytest.raises(Failure):
            lock.Lock(shop.folder).__enter__()
        assert (shop.folder / ".lock").is_file()
    os.close(handle)


def test_many_nights_that_wait_for_each_other_are_at_work_one_by_one(shop):
    inside, most, done = [], [], []

    def work():
        while len(done) < 60:
            try:
                with lock.Lock(shop.folder):
                    inside.append(1)
                    most.append(len(inside))
                    time.sleep(0.001)
                    inside.pop()
                    done.append(1)
            except Failure:
                pass

    threads = [Thread(target=work) for _ in range(6)]
    for thread in threads:
        thread.start()
    for thread in threads:
        thread.join()
    assert (max(most), (shop.folder / ".lock").exists()) == (1, False)


def test_a_lock_whose_holder_was_killed_is_free(shop):
    with shop.under_way("--commit") as running:
        running.kill()
    assert shop.night() == ["a night that was stopped is undone; its changes lie in changes/ again"]
    assert (shop.versions(), shop.changes()) == (["0", "1"], {})


def test_a_night_that_a_signal_ends_is_undone_at_once(shop):
    before = contents(SHOP / "changes")
    for number, status in ((signal.SIGTERM, 143), (signal.SIGINT, 130)):
        with shop.under_way("--commit") as running:
            running.send_signal(number)
            running.wait()
        assert (running.returncode, running.told) == (status, f"the night was stopped by {number.name}; nothing is changed\n")
        assert contents(shop.folder / "changes") == before
        assert contents(shop.folder / "data") == contents(SHOP / "data")
        assert not (shop.folder / "versions").exists()


def test_a_file_that_is_being_written_is_not_taken(shop):
    with (shop.folder / "changes/orders.csv").open("ab"):
        status, told = shop.ran("night", "--commit")
    assert (status, told) == (6, ["changes/orders.csv is still being written; put a file in by a rename"])
    assert contents(shop.folder / "changes") == contents(SHOP / "changes")
    shop.night()


def test_a_file_that_has_another_name_too_is_copied_and_one_that_comes_back_is_as_it_was(shop):
    os.link(shop.folder / "changes/orders.csv", shop.folder.parent / "export.csv")
    (shop.folder / "changes/lines.csv").chmod(0o664)
    shop.answers(b"refused range sales\n", 1)
    assert shop.ran("night", "--commit")[0] == 1
    assert (shop.folder / "changes/lines.csv").stat().st_mode & 0o777 == 0o664
    assert os.path.samefile(shop.folder / "changes/orders.csv", shop.folder.parent / "export.csv")
    shop.answer_as_the_shop()
    shop.night()
    (shop.folder.parent / "export.csv").write_text("")
    assert contents(shop.folder / "versions/1/changes") == contents(SHOP / "changes")


def test_a_night_that_was_kept_says_so_where_its_report_cannot_be_printed(shop):
    command = [WHVIEW, "folder", "night", shop.folder, "--commit", "--program", shop.program]
    with open("/dev/full", "w") as full:
        ran = subprocess.run(command, stdout=full, stderr=subprocess.PIPE, text=True)
    cause = "its report.txt, which is there, could not be printed: No space left on device"
    assert (ran.returncode, ran.stderr) == (5, f"the night is done, and is versions/1; {cause}\n")


def test_a_night_whose_lock_was_removed_is_undone_where_another_one_may_be_at_work(kept):
    for content in (None, "process 1 on host here since 2026-11-28 02:15:00\n"):
        kept.put()
        with kept.under_way("--commit") as running:
            (kept.folder / ".lock").unlink()
            if content:
                (kept.folder / ".lock").write_text(content)
        assert (running.returncode, kept.versions(), kept.changes()) == (6, ["0", "1"], {"orders.csv": NEXT})
        assert f"{kept.folder}/.lock was removed while this night was at work" in running.told


@pytest.fixture
def first(shop):
    """What a first night left that was stopped before its version, or before that of the tables that it began with."""
    (shop.folder / "versions/1.part/changes").mkdir(parents=True)
    os.rename(shop.folder / "changes/orders.csv", shop.folder / "versions/1.part/changes/orders.csv")
    return shop


def judge(shop):
    """The next night is a first one, or the one after the tables."""
    assert contents(shop.folder / "changes") == contents(SHOP / "changes")
    assert not (shop.folder / "versions.part").exists()
    shop.night()
    assert (shop.versions(), shop.current()) == (["0", "1"], "versions/1")
    assert contents(shop.folder / "versions/0/data") == contents(SHOP / "data")
    assert (shop.changes(), (shop.folder / "data").exists()) == ({}, False)


def test_before_there_was_a_version(first):
    (first.folder / "versions.part/0/data").mkdir(parents=True)
    (first.folder / "versions.part/0/data/orders.csv").write_bytes(b"id\n")
    assert first.ran("lint")[0] == 3
    assert first.ran("night") == (0, [UNDONE])
    judge(first)


def test_once_the_tables_were_a_version(first):
    for name in ("data", "views", "changes"):
        (first.folder / "versions/0" / name).mkdir(parents=True)
    for file in (first.folder / "data").iterdir():
        (first.folder / "versions/0/data" / file.name).write_bytes(file.read_bytes())
    (first.folder / "versions.part").mkdir()
    assert first.ran("night")[0] == 3
    first.answers(b"refused range sales\n", 1)
    assert first.ran("night", "--commit") == (1, [FINISHED, UNDONE, "refused range sales"])
    first.answer_as_the_shop()
    judge(first)


UNDONE = "a night that was stopped is undone; its changes lie in changes/ again"


FINISHED = "a night that was stopped is finished"


def lay_stopped(shop, *files):
    """Makes what a night has that was stopped before it was decided."""
    part = shop.rest(2)
    for file in ("data/orders.csv", *files):
        (part / file).parent.mkdir(parents=True, exist_ok=True)
        (part / file).write_bytes(NEXT)
        (part / file).chmod(0o444)


def test_changes_that_were_taken_come_back_and_are_carried_out(kept):
    lay_stopped(kept, "changes/orders.csv")
    told = f"a night was stopped in {kept.folder}; `whview folder night {kept.folder} --commit` finishes or undoes it"
    assert kept.ran("lint") == (3, [told])
    assert kept.ran("night") == (0, [UNDONE])
    assert kept.changes() == {"orders.csv": NEXT}
    assert (kept.folder / "changes/orders.csv").stat().st_mode & 0o200
    kept.night()
    assert b"1,8,Thursday,south\n" in (kept.folder / "versions/2/data/orders.csv").read_bytes()


def test_what_comes_back_never_lies_over_another_file(kept):
    lay_stopped(kept, "changes/orders.csv", "changes/orders.2.csv")
    newer = {"orders.csv": NEXT.replace(b"8", b"9"), "orders.1.csv": NEXT.replace(b"8", b"10")}
    for name, content in newer.items():
        kept.put(content, name)
    assert kept.ran("night")[0] == 0
    assert kept.changes() == newer | {"orders.2.csv": NEXT, "orders.3.csv": NEXT}


# Names that a file has beside the one under which a stopped night took it, in that night's folder or in changes/, and what lies in changes/ then.
NAMES = {
    "a hidden name in changes": ({"changes": [".orders.csv"]}, {"orders.csv", ".orders.csv"}),
    "two names, one of which came back": ({"rest": ["orders.1.csv"], "changes": ["orders.csv"]}, {"orders.csv", "orders.1.csv"}),
    "its own name, by which it was on its way back": ({"changes": ["orders.csv"]}, {"orders.csv"}),
    "two names": ({"rest": ["orders.1.csv"]}, {"orders.csv", "orders.1.csv"}),
}


@pytest.mark.parametrize("names, wanted", NAMES.values(), ids=NAMES)
def test_a_file_comes_back_once_under_each_name(kept, names, wanted):
    lay_stopped(kept, "changes/orders.csv")
    places = {"rest": kept.rest(2) / "changes", "changes": kept.folder / "changes"}
    for place, listed in names.items():
        for name in listed:
            os.link(places["rest"] / "orders.csv", places[place] / name)
    assert kept.ran("night") == (0, [UNDONE])
    assert kept.changes() == dict.fromkeys(wanted, NEXT)


def test_a_version_that_was_decided_becomes_the_current_one(kept):
    kept.more()
    kept.turn_to(1)
    os.symlink("versions/2", kept.folder / "current.part")
    (kept.folder / "versions/0").rename(kept.rest(0, "gone"))
    for command in ("lint", "night"):
        assert kept.ran(command)[0] == 3
    assert kept.current() == "versions/1"
    assert kept.ran("night", "--commit")[1][0] == FINISHED
    assert (kept.current(), kept.versions()) == ("versions/2", ["1", "2"])
    assert not (kept.folder / "current.part").is_symlink()


def test_a_rest_that_cannot_be_removed_is_told_and_ends_no_night(kept):
    rest = kept.rest(0, "gone")
    (kept.folder / "versions/0").rename(rest)
    with mock.patch.object(stopped, "remove", side_effect=PermissionError(13, "Permission denied", f"{rest}/data")):
        told = stopped.unremoved(rest)
    assert told == [f"{rest} is not wanted any more, and cannot be removed: {rest}/data: Permission denied"]
    assert (stopped.settle(kept.folder), rest.exists()) == ([], False)


def test_without_current_the_newest_version_counts(kept):
    os.unlink(kept.folder / "current")
    assert kept.ran("lint")[0] == 3
    assert kept.night() == [FINISHED]
    assert (kept.current(), kept.versions()) == ("versions/2", ["0", "1", "2"])
