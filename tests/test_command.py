"""The one command: which room a word leads to, that no proof is begun to tell a help, which program is taken, and that old names mean the
same."""

import os
import re
import shlex
import shutil
import subprocess

import pytest

from upkeep.words import ROOT
from whview import VERSION
from whview.cluster import command as cluster, flat as old_cluster
from whview.commands import COMMANDS, OF_PROGRAM, OWN, ROOMS
from whview.sql import command as sql, flat

WHVIEW = ROOT / "whview"


def ran(*words, env=None, cwd=None, command=WHVIEW):
    """The status of the command, what it prints and what it says."""
    found = subprocess.run([command, *words], capture_output=True, text=True, stdin=subprocess.DEVNULL, env={**os.environ, **(env or {})}, cwd=cwd)
    return found.returncode, found.stdout, found.stderr


def test_all_commands_are_told_and_nothing_is_begun():
    for words in ["--help"], ["-h"], ["help"]:
        status, printed, told = ran(*words, env={"PATH": "/usr/bin:/bin"})
        assert (status, told) == (0, "")
        for command in (*ROOMS, *OWN):
            assert f"whview {command} " in printed
    for command in OF_PROGRAM:
        assert re.search(rf"whview [a-z |]*\b{command}\b", printed)


def test_each_room_and_each_of_its_commands_has_a_help():
    for room, commands in (("sql", sql.COMMANDS), ("cluster", cluster.COMMANDS)):
        whole = ran(room, "--help")[1]
        for name in commands:
            assert f"    {name} " in whole
            status, printed, told = ran(room, name, "--help")
            assert (status, told) == (0, "")
            assert f"usage: whview {room} {name} " in printed
    for command in OWN:
        assert f"usage: whview {command} " in ran(command, "--help")[1]


def test_a_word_that_is_none_is_refused_with_the_nearest():
    status, printed, told = ran("foldre")
    assert (status, printed) == (2, "")
    assert "did you mean folder?" in told
    for room in ROOMS:
        assert ran(room, "nihgt", "there")[0] == 2


def test_options_of_the_program_are_those_of_its_sources():
    text = "".join(path.read_text() for path in (ROOT / "crates/whview/src").rglob("*.rt"))
    for options in (options for _, options in OF_PROGRAM.values()):
        for option in options:
            assert f'"{option[2:]}"' in text


@pytest.fixture
def tree(tmp_path, script):
    """A tree with the command, and scripts in the place of the programs."""
    tree = tmp_path / "tree"
    shutil.copytree(ROOT / "python", tree / "python", ignore=shutil.ignore_patterns("__pycache__"))
    shutil.copy(WHVIEW, tree)
    (tree / "tools").mkdir()
    for kind in ("proved", "unproved"):
        script(f'echo {kind} "$@"', tree / kind)
        script(f'echo asked {kind} >&2; echo "{tree}/{kind}"', tree / "tools" / kind)
    script(f'[ -z "$*" ] && echo "{tree}/proved" || echo "{tree}/unproved"', tree / "tools/built")
    return tree


def ran_programs(tree, *words, **more):
    return ran(*words, command=tree / "whview", **more)


def test_the_proved_one_is_taken_where_nothing_is_said(tree):
    assert ran_programs(tree, "night", "--input", "x y") == (0, "proved night --input x y\n", "asked proved\n")


def test_a_help_builds_nothing(tree, script):
    assert ran_programs(tree, "night", "--help") == (0, "proved night --help\n", "")
    script("exit 1", tree / "tools/built")
    status, printed, told = ran_programs(tree, "night", "--help")
    assert (status, told) == (0, "")
    assert "No program is built" in printed


def test_it_is_chosen_once_for_all_for_once_or_by_a_word(tree):
    assert ran_programs(tree, "plan", "--unproved")[:2] == (0, "unproved plan\n")
    assert ran_programs(tree, "plan", env={"WHVIEW_PROGRAM": "unproved"})[:2] == (0, "unproved plan\n")
    assert ran_programs(tree, "plan", env={"WHVIEW_PROGRAM": "/bin/echo"}) == (0, "plan\n", "")
    status, printed, told = ran_programs(tree, "use", "unproved")
    assert (status, printed) == (0, f"whview takes the unproved program from now on: {tree}/unproved\n")
    status, printed, told = ran_programs(tree, "plan")
    assert (status, printed) == (0, "unproved plan\n")
    assert "whview: this program is not proved" in told
    assert ran_programs(tree, "--version")[1] == f"whview {VERSION}, by the unproved program {tree}/unproved\n"
    assert ran_programs(tree, "plan", env={"WHVIEW_PROGRAM": "proved"})[1] == "proved plan\n"
    assert ran_programs(tree, "use", "proved")[0] == 0
    assert ran_programs(tree, "plan")[1] == "proved plan\n"


def test_what_a_folder_is_done_by_is_told(tree, script):
    shop = shutil.copytree(ROOT / "examples/shop", tree / "shop")
    for kind in ("proved", "unproved", "named"):
        script(f"cat >/dev/null; cat '{ROOT}/examples/night_shop.answer'", tree / kind)
    for word, said in (("unproved", "a program that is not proved"), ("proved", ""), (str(tree / "named"), f"the program {tree}/named")):
        told = ran_programs(tree, "folder", "plan", str(shop), env={"WHVIEW_PROGRAM": word})[2]
        assert re.findall("^this is done by (.*)$", told, re.MULTILINE) == ([said] if said else [])


SHOP, LIVE = str(ROOT / "examples/shop"), str(ROOT / "examples/live")
SAME = {
    f"{SHOP}": f"night {SHOP}",
    f"--create --open --plain * {SHOP}": f"create --open --plain '*' {SHOP}",
    f"--engine sqlite --keyed a=b --counted c {SHOP}": f"night --engine sqlite --keyed a=b --counted c {SHOP}",
    f"--engine clickhouse --shard a:b --shard c:d --create {SHOP}": f"create --engine clickhouse --shard a:b --shard c:d {SHOP}",
    f"--explain {SHOP}": f"explain {SHOP}",
    "--catalogue --database d --from s": "catalogue --database d --from s",
    f"--capture --role r --changed --live --open --database d {LIVE} a b": f"capture --role r --changed --open --database d {LIVE} a b",
    f"--capture --from-log --without-role --drop --database d {LIVE}": f"capture --from-log --without-role --drop --database d {LIVE}",
    f"--uncapture --database d {LIVE}": f"uncapture --database d {LIVE}",
    f"--live --open --changed {LIVE} a": f"open --live --changed {LIVE} a",
    f"--plan --measured --inst-cost 2 --unproved --database d {LIVE}": f"plan --measured --inst-cost 2 --unproved --database d {LIVE}",
    f"--plan --dry --database d {LIVE}": f"dry --plan --database d {LIVE}",
    f"--sizes {LIVE}": f"sizes {LIVE}",
    f"--sizes-after {LIVE}": f"sizes --after {LIVE}",
    f"--costs {LIVE}": f"costs {LIVE}",
    f"--check --repair --in-turn {LIVE} a": f"check --repair --in-turn {LIVE} a",
    f"--history --line {LIVE}": f"history --line {LIVE}",
}


@pytest.mark.parametrize("old, new", SAME.items())
def test_of_sql(old, new):
    found, wanted = flat.asked(old.split()), sql.asked(shlex.split(new))
    # That tables are live ones is said by the command itself now, and a night by nothing else.
    for each in (found, wanted):
        each.night = each.night or not any(getattr(each, name.replace("-", "_")) for name in ("create", "open", "explain", *sql.LIVE[1:]))
        each.live = each.live and not each.capture
    assert vars(found) == vars(wanted)
    assert vars(sql.asked(shlex.split(flat.newer(found))[2:])) | {"night": 0, "live": 0} == vars(wanted) | {"night": 0, "live": 0}


def test_of_cluster():
    old = "shop --server a:1 --server b:2 --database w --again night"
    assert old_cluster.newer(old.split()) == "night shop --server a:1 --server b:2 --database w --again".split()
    assert old_cluster.newer("shop --server a:1 read v --version 3".split()) == "read shop v --server a:1 --version 3".split()


def test_each_says_the_new_name_and_does_the_same():
    shop = ROOT / "examples/shop"
    for old, new in (
        (["warehouse", "lint", shop], ["folder", "lint", shop]),
        (["sql", "--explain", shop], ["sql", "explain", shop]),
        (["cluster", shop, "--server", "nowhere", "night"], ["cluster", "night", shop, "--server", "nowhere"]),
    ):
        status, printed, told = ran(*new)
        found = ran(*old[1:], command=ROOT / "tools" / old[0])
        assert found[:2] == (status, printed)
        first, _, rest = found[2].partition("\n")
        assert re.search(rf"^tools/{old[0]}: this is `whview {new[0]}.*` now$", first)
        assert rest == told


def completed(*words):
    script = ran("completion", "bash")[1]
    last = len(words) - 1
    quoted = " ".join(shlex.quote(word) for word in words)
    ask = f"{script}\nCOMP_WORDS=({quoted}); COMP_CWORD={last}; _whview; printf '%s\\n' \"${{COMPREPLY[@]}}\""
    return subprocess.run(["bash", "-c", ask], capture_output=True, text=True, check=True, cwd=ROOT).stdout.split()


def test_in_bash():
    assert completed("whview", "fo") == ["folder"]
    assert sorted(completed("whview", "")) == sorted(COMMANDS)
    assert completed("whview", "sql", "un") == ["uncapture"]
    assert completed("whview", "folder", "night", "shop", "--ke") == ["--keep"]
    assert completed("whview", "folder", "read", "exam") == ["examples"]
    assert sorted(completed("whview", "use", "")) == ["proved", "unproved"]
    assert completed("whview", "cluster", "sweep", "--k") == ["--keep"]


@pytest.mark.skipif(not shutil.which("zsh"), reason="there is no zsh here")
def test_in_zsh():
    script = ran("completion", "zsh")[1]
    subprocess.run(["zsh", "-n"], input=script, text=True, check=True)


def test_zsh_has_all_that_bash_has():
    in_bash = re.findall(r'^    (.*?)\) found="(.*?)" options="(.*?)" ;;$', ran("completion", "bash")[1], re.MULTILINE)
    in_zsh = re.findall(r"^    (.*?)\) found=\((.*?)\) options=\((.*?)\) ;;$", ran("completion", "zsh")[1], re.MULTILINE)
    assert in_bash == in_zsh
    assert len(in_bash) > 50
