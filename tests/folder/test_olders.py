"""Folders of before there were versions, taken over by their first night that is kept."""

import os
import re
import shutil

import pytest

from .shop import SHOP, contents

VIEWS = ("sales", "daily_by_product", "daily_by_region")
NEW = {"orders": b"#,id,day,region\n1,9,Friday,north\n", "lines": b"#,id,product,pieces\n1,9,jam,3\n"}


@pytest.fixture
def shop(shop):
    """The tables after the shop's night are those of a preview."""
    assert shop.ran("night") == (0, [])
    made = of(shop, "new")
    del made["catalogue.toml"]
    shop.derived = {name: made.pop(name) for name in [f"{view}.csv" for view in VIEWS]}
    shop.derived["report.txt"] = made.pop("report.txt", b"") or (shop.folder / "report.txt").read_bytes()
    shop.after = made
    shutil.rmtree(shop.folder)
    shutil.copytree(SHOP, shop.folder)
    return shop


def write(shop, place, files):
    (shop.folder / place).mkdir(parents=True, exist_ok=True)
    for name, content in files.items():
        (shop.folder / place / name).write_bytes(content)


def of(shop, place):
    """The files of a folder by their names."""
    folder = shop.folder / place
    return {path.name: path.read_bytes() for path in folder.iterdir() if path.is_file()} if folder.is_dir() else {}


def committed(shop):
    """Lays the folder as the tool left it once its first night was committed."""
    for name in ("data", "changes"):
        shutil.move(shop.folder / name, shop.folder / "before/old" / name) if (shop.folder / "before/old").is_dir() else None
    (shop.folder / "before/old").mkdir(parents=True, exist_ok=True)
    for name in ("data", "changes"):
        if not (shop.folder / "before/old" / name).exists():
            os.rename(shop.folder / name, shop.folder / "before/old" / name)
    write(shop, "data", shop.after)
    write(shop, "views", shop.derived)
    write(shop, "changes", {})
    write(shop, "new", shop.after)
    (shop.folder / "report.txt").write_bytes(shop.derived["report.txt"])


def pending(shop, steps):
    """Lays the folder as a commit left it that was stopped after so many of its renames."""
    write(shop, "commit/data", shop.after)
    write(shop, "commit/views", shop.derived)
    for name in ("changes", "old"):
        write(shop, f"commit/{name}", {})
    moves = []
    for name in ("data", "changes", "views"):
        moves += [(name, f"commit/old/{name}")] * (shop.folder / name).exists() + [(f"commit/{name}", name)]
    for old, new in moves[:steps]:
        os.rename(shop.folder / old, shop.folder / new)
    return len(moves)


def judge_versions(shop, newest):
    """Judges the versions: the tables before the shop's night, those after it with its changes, and those after the next one."""
    assert shop.versions() == [str(number) for number in range(newest + 1)]
    assert of(shop, "versions/0/data") == {path.name: path.read_bytes() for path in (SHOP / "data").iterdir()}
    assert of(shop, "versions/1/data") == shop.after
    assert of(shop, "versions/1/changes") == {path.name: path.read_bytes() for path in (SHOP / "changes").iterdir()}
    made = of(shop, "versions/1/views") | {"report.txt": of(shop, "versions/1")["report.txt"]}
    assert without_seconds(made) == without_seconds(shop.derived)
    assert shop.current() == f"versions/{newest}"
    left = {path.name for path in shop.folder.iterdir()}
    assert left == {".identity", "catalogue.toml", "changes", "current", "strategy.txt", "versions"}


def without_seconds(files):
    """Files by their names, of which a report tells no seconds, which differ each time."""
    return files | {"report.txt": re.sub(rb"(?m)^time: .*\n", b"", files["report.txt"])}


def test_a_folder_whose_nights_were_committed(shop):
    committed(shop)
    shop.put(NEW["orders"])
    assert shop.ran("lint") == (0, ["report.txt:1:1: warning: this file is no part of a warehouse, and is not looked at"])
    assert shop.ran("night", "--commit")[0] == 0
    judge_versions(shop, 2)
    assert of(shop, "versions/2/changes") == {"orders.csv": NEW["orders"]}


def test_what_is_in_no_version_stays_and_is_told(shop):
    committed(shop)
    write(shop, "before/old/data", {"notes.csv": b"mine\n", "notes.txt": b"mine\n"})
    told = shop.night()
    assert f"{shop.folder}/before/old/data/notes.txt is in no version, and stays; it is not looked at" in told
    assert of(shop, "before/old/data") == {"notes.txt": b"mine\n"}


def test_a_commit_that_was_stopped_anywhere_is_finished(shop):
    for steps in range(pending(shop, 0) + 1):
        shutil.rmtree(shop.folder)
        shutil.copytree(SHOP, shop.folder)
        pending(shop, steps)
        told = f"a night was stopped in {shop.folder}; `whview folder night {shop.folder} --commit` finishes or undoes it"
        assert shop.ran("lint") == (3, [told])
        shop.night()
        judge_versions(shop, 2)
        assert of(shop, "versions/2/changes") == {}


def test_the_next_nights_changes_beside_a_commit_that_was_stopped_are_carried_out_once_and_never_lost(shop):
    """Where the stopped commit had not yet moved its own changes away, its changes and the next ones are told apart."""
    count = pending(shop, 0)
    for steps in range(count + 1):
        shutil.rmtree(shop.folder)
        shutil.copytree(SHOP, shop.folder)
        pending(shop, steps)
        moved = (shop.folder / "commit/old/changes").exists()
        shop.put(NEW["orders"])
        write(shop, "changes", {"lines.csv": NEW["lines"]})
        if not moved:
            before = contents(shop.folder)
            status, told = shop.ran("night", "--commit")
            assert (status, len(told)) == (3, 1)
            assert re.search("a commit was stopped in .*, and changes/(orders|lines).csv is not what it carried out; move", told[0])
            after = contents(shop.folder)
            assert {file: after[file] for file in before} == before
            for name in ("orders.csv", "lines.csv"):
                os.unlink(shop.folder / "changes" / name)
            shop.night()
            shop.put(NEW["orders"])
            write(shop, "changes", {"lines.csv": NEW["lines"]})
        shop.night()
        assert b"1,9,Friday,north\n" in (shop.folder / "current/data/orders.csv").read_bytes()
        assert of(shop, "current/changes") == {"orders.csv": NEW["orders"], "lines.csv": NEW["lines"]}
        assert of(shop, "changes") == {}


def test_a_commit_that_was_not_decided_is_undone(shop):
    write(shop, "commit.part/data", shop.after)
    shop.night()
    judge_versions(shop, 1)


def test_versions_that_were_not_decided_are_made_anew_and_what_was_not_removed_is(shop):
    write(shop, "versions.part/0/data", {"orders.csv": b"id\n"})
    shop.night()
    judge_versions(shop, 1)
    write(shop, "data", {path.name: path.read_bytes() for path in (shop.folder / "versions/1/data").iterdir()})
    assert shop.ran("lint") == (0, [])
    shop.night()
    judge_versions(shop, 2)
