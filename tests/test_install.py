"""`install` and `uninstall`: what is put where, that it runs from any folder without the sources, and that nothing else is touched."""

import os
import shutil
import subprocess

import pytest

from upkeep.words import ROOT
from whview import VERSION


class Installing:
    """A tree with the command and a script in the program's place, a prefix, and a folder of a user."""

    def __init__(self, room, script):
        self.tree, self.prefix, self.elsewhere, self.script = room / "tree", room / "prefix", room / "elsewhere", script
        self.elsewhere.mkdir()
        shutil.copytree(ROOT / "python", self.tree / "python", ignore=shutil.ignore_patterns("__pycache__"))
        shutil.copy(ROOT / "whview", self.tree)
        (self.tree / "tools").mkdir()
        (self.tree / "docs").mkdir()
        (self.tree / "docs/WAREHOUSE.md").write_text("a paper")
        answer = (ROOT / "examples/night_shop.answer").read_bytes().removesuffix(b"status 0\n")
        (self.tree / "answer").write_bytes(answer)
        script(f'[ "$1" = say ] && echo said || {{ cat >/dev/null; cat "{self.tree}/answer"; }}', self.tree / "program")
        self.builds("proved")

    def builds(self, *kinds):
        """Has programs of these kinds be there."""
        text = " ".join(f"[ \"${{1:-}}\" = '{'--unproved' if kind == 'unproved' else ''}' ] && echo {self.tree}/program && exit;" for kind in kinds)
        self.script(f"{text} exit 1", self.tree / "tools/built")

    def ran(self, *words, command=None, **env):
        known = {"PATH": "/usr/bin:/bin:" + os.environ["PATH"], "HOME": str(self.elsewhere), **env}
        command = command or self.tree / "whview"
        found = subprocess.run([command, *words], capture_output=True, text=True, cwd=self.elsewhere, env=known, stdin=subprocess.DEVNULL)
        return found.returncode, found.stdout, found.stderr

    def install(self, **env):
        return self.ran("install", "--prefix", str(self.prefix), **env)

    def files(self):
        """All that lies below the prefix, but what Python keeps beside its modules."""
        return {str(path.relative_to(self.prefix)) for path in self.prefix.rglob("*") if not path.is_dir() and "__pycache__" not in path.parts}


@pytest.fixture
def given(tmp_path, script):
    return Installing(tmp_path, script)


def test_it_runs_from_any_folder_without_the_sources(given):
    status, printed, told = given.install()
    assert (status, printed) == (0, f"whview {VERSION} with the proved program is installed: {given.prefix}/bin/whview\n")
    assert told == f"whview: {given.prefix}/bin is not on the path (PATH)\n"
    answer = (given.tree / "answer").read_text()
    given.script(f"cat >/dev/null; cat <<'END'\n{answer}END", given.prefix / "lib/whview/program/whview")
    shutil.rmtree(given.tree)
    command = given.prefix / "bin/whview"
    assert given.ran("night", command=command) == (0, answer, "")
    assert given.ran("--version", command=command)[1] == f"whview {VERSION}, by the proved program {given.prefix}/lib/whview/program/whview\n"
    shutil.copytree(ROOT / "examples/shop", given.elsewhere / "shop")
    status, _, told = given.ran("folder", "night", "shop", command=command)
    assert status == 0
    assert (given.elsewhere / "shop/new/views/daily_by_region.csv").is_file() or (given.elsewhere / "shop/new").is_dir()
    assert given.ran("sql", "explain", "shop", command=command)[0] == 0
    status, _, told = given.ran("use", "unproved", command=command)
    assert status == 2
    assert "what is installed has one program, the proved one" in told


def test_one_that_is_not_proved_says_so(given):
    given.builds("unproved")
    assert given.install()[0] == 70
    assert not given.prefix.exists()
    assert given.install(WHVIEW_PROGRAM="unproved")[0] == 0
    told = given.ran("night", command=given.prefix / "bin/whview")[2]
    assert "whview: this program is not proved" in told
    assert given.ran("night", command=given.prefix / "bin/whview", WHVIEW_PROGRAM="proved")[0] == 70


def test_it_is_replaced_and_taken_away_whole(given):
    given.prefix.mkdir()
    (given.prefix / "bin").mkdir()
    (given.prefix / "bin/other").write_text("kept")
    before = given.files()
    assert given.install()[0] == 0
    first = given.files()
    (given.prefix / "lib/whview/python/whview/stale.py").write_text("")
    assert given.install()[0] == 0
    assert given.files() == first
    assert (given.prefix / "lib/whview/docs/WAREHOUSE.md").read_text() == "a paper"
    assert {"bin/whview", "share/bash-completion/completions/whview", "share/zsh/site-functions/_whview"} <= first
    assert given.ran("uninstall", command=given.prefix / "bin/whview")[:2] == (0, f"whview is no more below {given.prefix}\n")
    assert given.files() == before
    assert given.ran("uninstall", "--prefix", str(given.prefix))[0] == 2


@pytest.mark.parametrize("name", ("bin/whview", "share/zsh/site-functions/_whview", "lib/whview/mine"))
def test_what_is_somebody_elses_stays(given, name):
    file = given.prefix / name
    file.parent.mkdir(parents=True)
    file.write_text("mine")
    status, _, told = given.install()
    assert (status, file.read_text(), given.files()) == (2, "mine", {name})
    assert "none of ours" in told


def test_the_usual_place_is_the_users_own(given):
    assert given.ran("install")[0] == 0
    assert (given.elsewhere / ".local/bin/whview").is_symlink()
    assert given.ran("uninstall")[0] == 0
    assert not (given.elsewhere / ".local/lib/whview").exists()
