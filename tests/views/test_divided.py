"""Tests of views that are divided into several warehouses, and read as one."""

import subprocess
import sys
import tomllib
from pathlib import Path

import pytest

import whview

from whview.sql.catalogue import read
from whview.sql.tokens import Unfit
from whview.strategy.rules import broken
from whview.views import written
from whview.views.divided import Divided
from whview.views.record import Decomposition, Kept, Mirror, Read, RowExpression
from whview.views.refused import Refused


def mirror(name, many):
    """A mirror of so many columns, the first of which is its key."""
    return Mirror("public", name, [RowExpression(f"c{at}", "int", f"r.c{at}", (f"c{at}",)) for at in range(many)], ("c0",))


def summary(name, of, column):
    return Kept(name, [of], where=[["=", f"{of}.{column}", 1]], outputs=[("g1", f"{of}.c0")], is_summary=True)


def many_views(views=150, columns=160):
    """More views over two tables, and more columns of one, than a catalogue may have."""
    kept = [summary(f"v{at}", "wide", f"c{1 + at % columns}") for at in range(views)]
    again = Kept("again", ["small"], outputs=[("c1", "small.c1")])
    joined = Kept("joined", ["small", "again"], [("small.c1", "again.c1")], outputs=[("a", "small.c0"), ("b", "again.c1")])
    return Decomposition([mirror("wide", columns + 1), mirror("small", 3)], [*kept, again, joined], [Read("public", "v", "SELECT 1", ())])


def test_each_warehouse_is_one_that_the_program_takes():
    for each in Divided(many_views()).parts():
        assert len(each.mirrors) + len(each.kept) <= 64
        assert all(len(one.columns) <= 64 and one.columns[0].name == "c0" for one in each.mirrors)


def test_each_view_stands_behind_what_it_is_made_from():
    for each in Divided(many_views()).parts():
        there = [one.name for one in each.mirrors]
        for kept in each.kept:
            assert set(kept.over) <= set(there)
            there.append(kept.name)


def test_nights_and_captures_do_without_the_parser():
    named = "import sys; sys.modules['pglast'] = None; import whview.sql.command, whview.views.divided, whview.views.written"
    ran = subprocess.run([sys.executable, "-c", named], cwd=Path(whview.__file__).parents[1], capture_output=True, text=True)
    assert (ran.returncode, ran.stderr) == (0, "")


def test_what_has_room_in_one_stays_whole():
    decomposition = many_views(20, 30)
    assert Divided(decomposition).parts() == [decomposition]


def test_what_no_warehouse_has_room_for_is_refused():
    wide = Kept("wide_one", ["wide"], where=[["=", f"wide.c{at}", 1] for at in range(70)], outputs=[("g1", "wide.c0")], is_summary=True)
    with pytest.raises(Refused, match="wide_one"):
        Divided(Decomposition([mirror("wide", 90)], [wide])).parts()


def test_several_are_read_as_one_with_a_strategy_that_keeps_the_rules(tmp_path):
    decomposition = many_views()
    written.put(tmp_path, decomposition, "wh", [])
    found = read(str(tmp_path))
    assert sorted(view.name for view in found.views) == sorted(each.name for each in (*decomposition.mirrors, *decomposition.kept))
    columns = {view.name: {name for name, _ in view.columns} for view in found.views}
    assert columns["wide"] == {f"c{at}" for at in range(161)} and columns["small"] == {"c0", "c1", "c2"}
    assert broken(found.views, found.correct()) is None
    assert [view["name"] for view in tomllib.loads(found.content)["view"] if view.get("key") == ["c0"]] == ["wide", "small"]


def test_a_folder_becomes_several_and_one_again(tmp_path):
    for decomposition, names in ((many_views(), []), (many_views(9, 9), ["catalogue.toml", "strategy.txt"]), (many_views(), [])):
        written.put(tmp_path, decomposition, "wh", [])
        assert sorted(file.name for file in tmp_path.glob("*t*.t*") if file.is_file()) == names
        assert len(read(str(tmp_path)).views) == len(decomposition.mirrors) + len(decomposition.kept)


def test_warehouses_that_have_other_views_of_a_name_are_refused(tmp_path):
    written.put(tmp_path, many_views(), "wh", [])
    file = tmp_path / "warehouse_3" / "catalogue.toml"
    name = tomllib.loads((tmp_path / "warehouse_1" / "catalogue.toml").read_text())["view"][-1]["name"]
    file.write_text(f'{file.read_text()}[[view]]\nname = "{name}"\nover = ["wide"]\nkeep = [["k", "wide.c0"]]\n')
    with pytest.raises(Unfit, match=name):
        read(str(tmp_path))
