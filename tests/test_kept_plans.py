"""Tests of plans that are kept for later nights: when one serves, what is no plan, and that whoever spoils the file gets a new one."""

import json
import os
import sqlite3
import subprocess
from argparse import Namespace
from contextlib import closing

import pytest

from upkeep.words import ROOT
from whview import VERSION
from whview.sql.kept import FILE, FORM, Kept, Wanted, digest, is_near, keep, kept_for

WORDS = Namespace(program=None, unproved=True)
SIZES = "view,pre,post,change\nt,100,110,10\nv,7,7,0\n"
CATALOGUE = """[[view]]
name = "t"
columns = ["a", "b"]
[[view]]
name = "v"
over = ["t"]
group = [["a", "t.a"]]
count = "n"
sum = [["s", "t.b"]]
"""
# A program that notes its calls, and plans one strategy whatever it is given.
PROGRAM = """cat > /dev/null
echo "$1" >> {calls}
case $1 in plan) printf 'scope all\\nwork 3\\ncomp v from t\\ninst t\\ninst v\\n' ;; *) echo 'certified all work 3' ;; esac
"""


def wanted(catalogue=CATALOGUE, sizes=SIZES, costs=(), words=WORDS):
    return Wanted.by(words, catalogue, sizes, costs)


def kept(found=None, **said):
    found = found or wanted()
    return Kept(**{"rests_on": found.rests_on, "sizes": found.sizes, "expressions": ["comp v from t", "inst t", "inst v"], "certified": "certified all work 3", **said})


@pytest.mark.parametrize(("one", "other", "near"), [(0, 16, True), (0, 17, False), (100, 216, True), (217, 100, False), (5, 5, True), (2**40, 2**39, True), (2**40, 2**38, False)])
def test_sizes_that_are_near(one, other, near):
    assert is_near(one, other) is near and is_near(other, one) is near


def test_a_plan_serves_while_nothing_that_it_rests_on_is_another():
    assert kept().serves(wanted()) and kept().serves(wanted(sizes=SIZES.replace("10\n", "30\n")))


@pytest.mark.parametrize("other", [
    {"catalogue": CATALOGUE.replace("t.b", "t.a")}, {"sizes": SIZES.replace("t,100,110,10", "t,100,110,90")}, {"sizes": SIZES.replace("v,", "w,")}, {"costs": ("--inst-cost", "3")},
    {"sizes": "view,pre,post,change,weight\nt,100,110,10,1\nv,7,7,0,2\n"}, {"words": Namespace(program="/nowhere/whview", unproved=False)},
])
def test_a_plan_serves_no_other(other):
    assert not kept().serves(wanted(**other))


def test_a_program_that_was_built_again_is_another(script):
    program = script("echo")
    words = Namespace(program=str(program), unproved=False)
    before = wanted(words=words)
    os.utime(program, (1, 1))
    assert wanted(words=words).rests_on != before.rests_on


def test_a_plan_is_read_as_it_was_kept(tmp_path):
    keep(tmp_path, kept())
    assert kept_for(tmp_path, wanted()) == kept() and [each.name for each in tmp_path.iterdir()] == [FILE]


@pytest.mark.parametrize("spoil", [
    lambda text: text[:-20], lambda text: text.replace("inst t", "inst s"), lambda text: text.replace('"form": 1', '"form": 2'),
    lambda text: "[]", lambda text: "", lambda text: "null",
    lambda text: "[" * 100_000, lambda text: text.replace('"certified"', '"certified_by"'), lambda text: " " * 2**20 + text,
])
def test_a_file_that_is_spoilt_has_no_plan(tmp_path, spoil):
    (tmp_path / FILE).write_text(spoil(kept().text()))
    assert kept_for(tmp_path, wanted()) is None


@pytest.mark.parametrize("said", [
    {"expressions": ["comp v from t\n@catalogue"]}, {"expressions": [7]}, {"sizes": [[1, 2]]}, {"sizes": [[1, 2, -3]]}, {"sizes": [[True, 2, 3]]}, {"certified": "a\nb"},
])
def test_what_is_no_plan_is_not_taken_for_one_whatever_its_sum(tmp_path, said):
    found = {**json.loads(kept().text()), **said}
    found = {name: value for name, value in found.items() if name not in ("form", "sum")}
    (tmp_path / FILE).write_text(json.dumps({"form": FORM, "sum": digest(found), **found}))
    assert kept_for(tmp_path, wanted()) is None


def test_a_folder_that_takes_no_file_is_told_and_goes_on(tmp_path, capsys):
    (tmp_path / FILE).mkdir()
    keep(tmp_path, kept())
    assert "the plan is not kept for later nights" in capsys.readouterr().err and [each.name for each in tmp_path.iterdir()] == [FILE]


def test_where_there_is_no_folder_nothing_is_kept(tmp_path):
    (tmp_path / "bundle").write_text("")
    keep(tmp_path / "bundle", kept())
    assert [each.name for each in tmp_path.iterdir()] == ["bundle"]


# ---- by the command


@pytest.fixture
def warehouse(tmp_path, script):
    """A folder over a table that is captured in SQLite, and a program that notes its calls."""
    (tmp_path / "catalogue.toml").write_text(CATALOGUE)
    program = script(PROGRAM.format(calls=tmp_path / "calls"), tmp_path.parent / f"{tmp_path.name}.program")
    with closing(sqlite3.connect(tmp_path / "own.db", isolation_level=None)) as database:
        database.executescript("CREATE TABLE t (a INT NOT NULL, b INT NOT NULL); INSERT INTO t VALUES (1, 1), (1, 0), (2, 1);")
        database.executescript(ran(tmp_path, "capture", "--open").stdout)
    yield tmp_path, program
    program.unlink()


def ran(folder, command, *words):
    return subprocess.run([ROOT / "whview", "sql", command, "--engine", "sqlite", "--database", folder / "own.db", *words, folder], capture_output=True, text=True)


def planned(warehouse, *words):
    """The script, how often the program was called for it, and whether it is told that a plan was kept."""
    folder, program = warehouse
    (folder / "calls").write_text("")
    found = ran(folder, "plan", "--program", program, *words)
    assert found.returncode == 0, found.stderr
    return found.stdout, (folder / "calls").read_text().split(), "when it was planned" in found.stderr


def test_the_next_night_goes_by_the_plan_that_was_kept(warehouse):
    first = planned(warehouse)
    assert first[1:] == (["plan", "certify"], False) and planned(warehouse) == (first[0], [], True)
    assert planned(warehouse, "--anew")[1:] == (["plan", "certify"], False)


def test_many_rows_and_another_catalogue_are_planned_anew(warehouse):
    folder, _ = warehouse
    planned(warehouse)
    with closing(sqlite3.connect(folder / "own.db", isolation_level=None)) as database:
        database.execute("INSERT INTO t SELECT a, b FROM t, json_each('[1,2,3,4,5,6,7]')")
    assert planned(warehouse)[1] == ["plan", "certify"] and planned(warehouse)[1] == []
    (folder / "catalogue.toml").write_text(CATALOGUE + "least_rows = 0\n")
    assert planned(warehouse)[1] == ["plan", "certify"]


def test_expressions_that_keep_not_all_rules_are_planned_anew(warehouse):
    folder, _ = warehouse
    right = planned(warehouse)[0]
    said = {name: value for name, value in json.loads((folder / FILE).read_text()).items() if name not in ("form", "sum")}
    for expressions in (["inst t", "inst v"], ["comp v from nothing"], [], ["inst v", "comp v from t", "inst t"]):
        (folder / FILE).write_text(Kept(**{**said, "expressions": expressions}).text())
        assert planned(warehouse) == (right, ["plan", "certify"], False)


def test_the_version_is_part_of_what_a_plan_rests_on(monkeypatch):
    before = wanted().rests_on
    monkeypatch.setattr("whview.sql.kept.VERSION", VERSION + ".1")
    assert wanted().rests_on != before
