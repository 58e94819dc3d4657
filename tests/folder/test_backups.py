"""`backup` and `restore`: a copy is there whole or not at all, of one moment, and nights go on in what is made of it."""

import fcntl
import os
import random
import shutil
from collections import Counter
from itertools import count
from pathlib import Path
from unittest import mock

import pytest

from trials.oracle.tables import bag_of
from whview.folder import gate
from whview.folder.identity import identity_of
from whview.folder.versions import whole

from .disturbed import held_up, hindered, killed
from .shop import NEXT, Shop, carried_out, contents, rows_in

FIRST = b"#,id,day,region\n1,9,Friday,north\n"
# Each of how many calls a trial with a night is made at, and how many calls there are at least.
EACH, LEAST = 9, 40


class Backed(Shop):
    """A shop with two versions, and changes that wait."""

    def __init__(self, room):
        super().__init__(room)
        self.to, self.new = self.folder.with_name("backup"), self.folder.with_name("new")
        self.night()
        self.more(FIRST)
        self.put()

    def does(self, *words):
        """The status of a command in this process, and the lines that it tells."""
        status, _, told = carried_out(words)
        return status, told.splitlines()

    def backup(self, *words):
        return self.does("backup", self.folder, self.to, *words)

    def restore(self):
        return self.does("restore", self.to, self.new)

    def orders(self, folder):
        """The orders of a folder as its next night makes them."""
        rows = Counter(bag_of((folder / "current/data/orders.csv").read_text()))
        for (view, row), number in rows_in(folder / "changes").items():
            rows[row] += number * (view == "orders")
        return rows

    def made_nothing(self, status, told, words):
        assert self.does(*words) == (status, told)
        assert not (self.to.exists() or self.new.exists())
        assert [path.name for path in self.folder.parent.glob(".*")] == []


@pytest.fixture
def backed(tmp_path):
    return Backed(tmp_path)


def test_the_current_version_with_all_that_its_next_night_reads(backed):
    (backed.folder / "sizes.csv").write_text("view,pre,post,change\n")
    assert backed.backup() == (0, [])
    made = contents(backed.to)
    texts = {"catalogue.toml", "strategy.txt", "sizes.csv", "changes/orders.csv"}
    assert {name for name in made if not name.startswith("versions/")} == {*texts, "backup.txt"} | {name for name in made if name.startswith("current/")}
    for name in [*texts, *(f"versions/2/{name}" for name in contents(backed.folder / "versions/2"))]:
        assert made[name] == (backed.folder / name).read_bytes()
    assert (os.listdir(backed.to / "versions"), os.readlink(backed.to / "current")) == (["2"], "versions/2")


def test_nights_go_on_in_what_is_made_of_it(backed):
    backed.backup()
    assert backed.restore() == (0, [])
    assert identity_of(backed.new).name not in ("", identity_of(backed.folder).name)
    assert (whole(backed.new), backed.orders(backed.new)) == ([2], backed.orders(backed.folder))
    wanted, backed.folder = backed.orders(backed.folder), backed.new
    assert backed.night() == []
    assert (backed.orders(backed.new), backed.versions(), backed.changes()) == (wanted, ["2", "3"], {})
    assert backed.ran("lint") == (0, [])


def test_all_versions_and_what_is_one_file_stays_one(backed):
    assert backed.backup("--all") == (0, [])
    assert backed.restore() == (0, [])
    for folder in (backed.to, backed.new):
        assert sorted(os.listdir(folder / "versions")) == ["0", "1", "2"]
        assert (folder / "versions/1/data/lines.csv").samefile(folder / "versions/2/data/lines.csv")
    assert whole(backed.new) == [0, 1, 2]


def test_all_versions_of_a_folder_that_was_a_copy(backed):
    other = backed.folder.with_name("other")
    shutil.copytree(backed.folder, other, symlinks=True)
    backed.folder = other
    backed.night()
    assert (backed.backup("--all"), backed.restore()) == ((0, []), (0, []))
    assert (whole(backed.new), backed.does("verify", backed.new)[0]) == ([0, 1, 2, 3], 0)


def test_an_older_version_has_its_catalogue_and_no_changes(backed):
    backed.edit("catalogue.toml", "# A small shop", "# A shop")
    assert (backed.backup("--version", "1"), backed.restore()) == ((0, []), (0, []))
    assert (whole(backed.new), rows_in(backed.new / "changes")) == ([1], Counter())
    assert "# A small shop" in (backed.new / "catalogue.toml").read_text()
    backed.folder = backed.new
    assert backed.night() == []


def test_batches_are_known_where_their_changes_are(backed):
    file = backed.folder.with_name("orders.csv")
    file.write_bytes(NEXT)
    for batch in ("one", "two"):
        assert backed.does("put", backed.folder, file, "--batch", batch)[0] == 0
        if batch == "one":
            backed.night()
    backed.backup("--all")
    backed.restore()
    for batch, waits in (("one", False), ("two", True), ("three", None)):
        status, printed, _ = carried_out(["put", backed.new, file, "--batch", batch])
        known = "waits for the next night" if waits else "is in versions/3"
        wanted = f"batch {batch} was put before, and {known}: nothing is changed\n" if waits is not None else f"changes/orders.1.csv: 1 row of {file}\n"
        assert (status, printed) == (0, wanted)


def test_a_batch_of_a_later_night_is_not_known_in_an_older_version(backed):
    file = backed.folder.with_name("orders.csv")
    file.write_bytes(NEXT)
    backed.does("put", backed.folder, file, "--batch", "one")
    backed.night()
    backed.backup("--version", "2")
    backed.restore()
    assert carried_out(["put", backed.new, file, "--batch", "one"])[1] == f"changes/orders.csv: 1 row of {file}\n"


def test_nobody_may_do_more_in_a_copy_than_in_the_folder(backed):
    for mode in (0o700, 0o750, 0o755):
        backed.folder.chmod(mode)
        (backed.folder / "changes").chmod(0o1733)
        assert (backed.backup(), backed.restore()) == ((0, []), (0, []))
        for made in (backed.to, backed.new):
            assert (made.stat().st_mode & 0o7777, (made / "changes").stat().st_mode & 0o7777) == (mode, 0o1733)
            shutil.rmtree(made)


def test_what_others_put_into_changes_by_a_link_is_not_copied(backed):
    secret = backed.folder.with_name("secret")
    secret.write_bytes(b"nobody is to read this\n")
    (backed.folder / "changes/lines.csv").symlink_to(secret)
    os.mkfifo(backed.folder / "changes/products.csv")
    told = [f"{backed.folder}/changes/{name}.csv is a {kind}, and is left out" for name, kind in (("lines", "link"), ("products", "FIFO"))]
    assert backed.backup() == (0, told)
    assert sorted(os.listdir(backed.to / "changes")) == ["orders.csv"]


def test_a_backup_with_links_and_fifos_in_a_version_makes_no_folder(backed):
    backed.backup()
    file = backed.to / "versions/2/data/orders.csv"
    for make in (lambda: file.symlink_to("/etc/passwd"), lambda: os.mkfifo(file)):
        file.unlink()
        make()
        status, told = backed.restore()
        assert (status, backed.new.exists()) == (3, False)


def test_a_version_that_is_gone_makes_nothing(backed):
    backed.night("--keep", "1")
    told = ["there is no version 1 in {}; there are 3".format(backed.folder)]
    backed.made_nothing(2, told, ["backup", backed.folder, backed.to, "--version", "1"])


def test_places_where_nothing_is_made(backed):
    told = f"{backed.folder}/x would be within {backed.folder}; name a folder outside of it"
    backed.made_nothing(2, [told], ["backup", backed.folder, f"{backed.folder}/x"])
    told = f"there is no folder {backed.to}, in which x would be made"
    backed.made_nothing(2, [told], ["backup", backed.folder, f"{backed.to}/x"])
    backed.to.mkdir()
    told = f"{backed.to} is there already, and stays as it is; name a folder that is not there"
    assert backed.backup() == (2, [told])
    assert backed.does("restore", backed.to, backed.new)[0] == 3
    assert os.listdir(backed.to) == []


def test_a_version_that_is_not_as_it_was_made(backed):
    file = backed.folder / "versions/2/data/orders.csv"
    file.chmod(0o644)
    file.write_bytes(file.read_bytes().replace(b"Friday", b"Monday"))
    cure = f"{backed.folder}/versions/2 is not as it was made, so no backup is made of it; `--version N` takes another one"
    backed.made_nothing(3, [f"{file}: it has other bytes than it had", cure], ["backup", backed.folder, backed.to])


def test_a_folder_without_a_version(backed):
    shutil.rmtree(backed.folder / "versions")
    (backed.folder / "current").unlink()
    told = f"{backed.folder} has no version yet; `whview folder night {backed.folder} --commit` makes the first ones"
    backed.made_nothing(3, [told], ["backup", backed.folder, backed.to])


def test_one_at_a_time_is_made(backed):
    part = backed.to.with_name(f".{backed.to.name}.part")
    part.mkdir()
    (part / "left").touch()
    handle = os.open(part, os.O_RDONLY)
    fcntl.flock(handle, fcntl.LOCK_EX)
    told = f"somebody else is making {part}; try again when that has ended"
    assert backed.backup() == (6, [told])
    os.close(handle)
    assert backed.backup() == (0, [])
    assert not (backed.to / "left").exists()


def test_a_backup_in_which_anything_differs_makes_no_folder(backed):
    backed.backup("--all")
    source, files = random.Random(5), sorted(path for path in backed.to.rglob("*") if path.is_file() and not path.is_symlink() and path.stat().st_size)
    for file in files:
        was, place = file.read_bytes(), source.randrange(file.stat().st_size)
        spoilt = [was[:place] + bytes([was[place] ^ 1]) + was[place + 1 :], was[:place], None]
        file.chmod(0o644)
        for content in spoilt:
            file.write_bytes(was if content is None else content)
            file.unlink() if content is None else None
            status, told = backed.restore()
            assert (status, backed.new.exists()) == (3, False)
        file.write_bytes(was)
    assert backed.restore() == (0, [])


def judge(backed):
    """What the backup has is what the folder has, each change once."""
    assert backed.restore() == (0, [])
    assert backed.orders(backed.new) == backed.orders(backed.folder)
    for folder in (backed.to, backed.new):
        shutil.rmtree(folder)


def test_killed_at_each_call_it_is_whole_or_not_there(backed):
    for number in count(1):
        is_killed = killed(["backup", backed.folder, backed.to], number)
        if not backed.to.exists():
            assert backed.backup()[0] == 0
        judge(backed)
        if not is_killed:
            break
    assert number > LEAST


def test_on_a_disk_that_is_full_at_each_call_nothing_is_made(backed):
    backed.backup()
    for words, made in (
        (["backup", backed.folder, backed.to.with_name("other")], backed.to.with_name("other")),
        (["restore", backed.to, backed.new], backed.new),
    ):
        for number in count(1):
            status = hindered(words, number)
            if status is None:
                break
            # That a folder is there already is no error.
            assert (status, made.exists()) in ((5, False), (0, True))
            shutil.rmtree(made, ignore_errors=True)
            assert [path.name for path in backed.folder.parent.glob(".*")] == []
        assert number > LEAST


def test_a_restored_folder_is_whole_or_not_there(backed):
    backed.backup()
    for number in count(1):
        is_killed = killed(["restore", backed.to, backed.new], number)
        if not backed.new.exists():
            assert backed.restore() == (0, [])
        assert backed.orders(backed.new) == backed.orders(backed.folder)
        shutil.rmtree(backed.new)
        if not is_killed:
            break
    assert number > LEAST


def test_beside_a_night_each_change_is_in_it_once(backed):
    for number in count(1, EACH):
        with held_up(["backup", backed.folder, backed.to], number) as made, mock.patch.object(gate, "PATIENCE", 0):
            status, _, told = carried_out(["night", backed.folder, "--commit", "--keep", "2", "--program", backed.program])
            assert status in (0, 6)
        assert made.status == 0
        judge(backed)
        if not made.stands:
            break
        row = f"1,{1000 + number},Thursday,south"
        backed.put(f"#,id,day,region\n{row}\n".encode(), f"orders.{number}.csv")


def test_the_changes_that_a_night_has_in_its_hands_are_in_it(backed):
    with backed.under_way("--commit"):
        backed.put(FIRST, "orders.1.csv")
        assert backed.backup() == (0, [])
    judge(backed)


def test_beside_a_night_that_is_decided_meanwhile_each_change_is_in_it_once(backed):
    for number in range(15, 27, 3):
        backed.put(f"#,id,day,region\n1,{1000 + number},Thursday,south\n".encode(), f"orders.{number}.csv")
        with backed.under_way("--commit") as running, held_up(["backup", backed.folder, backed.to], number) as made:
            Path(f"{backed.program}.go").touch()
            running.wait()
        assert (made.status, running.returncode) == (0, 0)
        judge(backed)


def test_files_of_which_a_night_puts_something_aside_are_in_it_as_they_came(backed):
    part = backed.folder / f"versions/3.{identity_of(backed.folder).name}.part"
    for kind, content in (("taken", FIRST + b"1,x,Friday,north\n"), ("changes", FIRST)):
        (part / kind).mkdir(parents=True)
        (part / kind / "orders.csv").write_bytes(content)
    assert (backed.backup(), backed.restore()) == ((0, []), (0, []))
    assert (backed.new / "changes/orders.1.csv").read_bytes() == FIRST + b"1,x,Friday,north\n"
    assert sorted(os.listdir(backed.new / "changes")) == ["orders.1.csv", "orders.csv"]


def test_a_night_that_was_stopped_as_it_gave_changes_back_doubles_none(backed):
    part = backed.folder / f"versions/3.{identity_of(backed.folder).name}.part/changes"
    part.mkdir(parents=True)
    (part / "orders.csv").hardlink_to(backed.folder / "changes/orders.csv")
    (part / "orders.1.csv").write_bytes(FIRST)
    assert backed.backup() == (0, [])
    assert backed.restore() == (0, [])
    assert rows_in(backed.new / "changes") == rows_in(backed.folder / "changes") + rows_in(part) - rows_in(backed.folder / "changes")
