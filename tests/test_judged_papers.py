"""Tests of tools/papers: a small tree passes, and each way in which it is spoilt is told at its line."""

import re
import subprocess
import sys
import tempfile
from contextlib import contextmanager
from importlib.machinery import SourceFileLoader
from importlib.util import module_from_spec, spec_from_loader
from pathlib import Path

import pytest

from upkeep.papers.counts import length, number_of

TOOL = Path(__file__).resolve().parents[1] / "tools/papers"
README = """# Shop

It keeps tables, by `put_row` and `Shop::count_of` of [`low`](crates/low/README.md); [ways](docs/WAYS.md#two-ways-on) lead on.
`tools/sell --all 3` sells, `crates/NAME/README.md` has each crate, and `specs/Kept.antt` says `IsKept` of `night_*`.
`rt plant --deep` and `SELECT COUNT(*)` are no names of ours, and neither is ``a ` b``. `tools/` has 12 crates, `fault toml N` is told.

```
tools/sell --all examples/shop.bundle > sold
cp -r nowhere somewhere
```
"""
WAYS = """# Ways

## Two ways on

There are 14 examples, twenty-one bundles, 31 edits in `must-fail/` and 35 edits in all; `low` has 11 calls.
`trials/run capture` tries 66 cases: the planned ones. [Back](../README.md). `low::put_row`: `kept` and `rows`, and `IsKept`: `low`.

| Call | Clauses |
|---|---|
| `put_row` (`low`) | `kept`; of `low` `rows` |
| `IsKept` | `low` |

## Two ways on

See [the second](#two-ways-on-1).

```text
longest chain, in thousands of lines of source, specs and proofs: low 3; together 3
```
"""
PAGE = """# `low`: rows

It has rows. Begin with [`src/lib.rt`](src/lib.rt).

<!-- Above this line by hand; below it by tools/calls --write. -->

11 calls and 2 laws: of each `no_such_word` is not looked at here.
"""
LIB = """// A comment that names gone_call.
pub struct Shop { rows: u8 }
impl Shop {
    pub fn count_of(&self) {}
}
pub fn put_row(row: u8)
    requires { row < 9 }
    ensures kept { True } // ensures gone_clause {
    ensures rows { True }
{ say("fault toml"); }
"""
CASES = "BOTH = {'a': 1, 'b': 2}\n" + f"REST = {{{', '.join(f'{n}: 0' for n in range(62))}}}\nOF = {{'x': {{**BOTH, **REST}}, 'y': {{**BOTH}}}}\n"
FILES = {
    "README.md": README,
    "docs/WAYS.md": WAYS,
    "docs/PLANTED.md": "[Back](WAYS.md).\n",
    "docs/WORDS.md": "| Here | Elsewhere | Note |\n|---|---|---|\n| desk | a reader's connection | a *session* is its stay |\n| bundle, clause | input file, postcondition | |\n",
    "crates/low/README.md": PAGE,
    "crates/low/src/lib.rt": LIB,
    "crates/low/src/long.rt": "\n" * 3000,
    "crates/low/specs/Kept.antt": "-- gone_definition\nIsKept : Set\n",
    "crates/low/proofs/put_row/Answers.antt": "lemma_of_proofs = refl\n",
    "crates.txt": "# rows\nlow:\n\n# high\n" + "".join(f"high{n}:\n" for n in range(11)),
    "tools/sell": "add_argument('--all')\n",
    "trials/run": "",
    "trials/capture/__main__.py": "def main():\n    pass\n",
    "trials/capture/cases.py": CASES,
    "tests/tests.py": "made_up_name = 1\n",
    "tests/bundles/night_a.bundle": "",
    "examples/shop.bundle": "",
    "examples/other.md": "[Back](../README.md)\n",
}
FILES |= {f"crates/low/must-fail/turns{n}.edit": "" for n in range(31)} | {f"tools/edits/low/turns{n}x.edit": "" for n in range(4)}
FILES |= {f"examples/shop{n}.bundle": "" for n in range(13)} | {f"tests/bundles/b{n}.bundle": "" for n in range(6)}
FILES["README.md"] += "[It](docs/PLANTED.md), [others](examples/other.md).\n[Words](docs/WORDS.md): each desk has sessions.\n"
# The file, the text in it, what stands there instead, and what is told.
SPOILT = [
    ("README.md", "crates/low/README.md", "crates/gone/README.md", "README.md:3: leads to crates/gone/README.md, which is not there"),
    ("README.md", "#two-ways-on", "#no-way-on", "README.md:3: leads to docs/WAYS.md#no-way-on, where no heading has that name"),
    ("README.md", "(docs/PLANTED.md)", "(../outside.md)", "README.md:11: leads to ../outside.md, which is outside of the tree"),
    ("README.md", "(examples/other.md)", "(examples)", "examples/other.md:1: no links lead here from README.md"),
    ("docs/WAYS.md", "#two-ways-on-1", "#two-ways-on-2", "docs/WAYS.md:15: leads to #two-ways-on-2, where no heading has that name"),
    ("README.md", "`put_row`", "`gone_call`", "README.md:3: `gone_call`: nothing is named gone_call"),
    ("README.md", "`IsKept`", "`IsKept a gone_definition`", "nothing is named gone_definition"),
    ("README.md", "`IsKept`", "`lemma_of_proofs`", "nothing is named lemma_of_proofs"),
    ("README.md", "`IsKept`", "`made_up_name`", "nothing is named made_up_name"),
    ("README.md", "`night_*`", "`noon_*`", "nothing is named noon_"),
    ("README.md", "Shop::count_of", "Shop::IsKept", "README.md:3: `Shop::IsKept`: Shop has no IsKept"),
    ("README.md", "Shop::count_of", "low::IsKept", "low has no IsKept"),
    ("docs/WAYS.md", "`trials/run capture` tries", "It tries", "trials/capture/__main__.py:1: no paper names this trial"),
    ("README.md", "`tools/sell --all 3`", "`tools/buy --all 3`", "README.md:4: `tools/buy --all 3`: there is no tools/buy"),
    ("README.md", "`tools/sell --all 3`", "`tools/sell --none 3`", "no tool takes --none"),
    ("README.md", "tools/sell --all examples", "tools/buy --all examples", "README.md:8: `tools/buy --all examples/shop.bundle > sold`: there is no tools/buy"),
    ("README.md", "examples/shop.bundle", "examples/gone.bundle", "there is no examples/gone.bundle"),
    ("README.md", "--all examples", "--none examples", "no tool takes --none"),
    ("README.md", "specs/Kept.antt", "specs/Gone.antt", "there is no specs/Gone.antt"),
    ("README.md", "`specs/Kept.antt`", "`src/gone`", "there is no src/gone"),
    ("README.md", "12 crates", "13 crates", "README.md:5: says '13 crates', where 1 or 11 or 12 are counted"),
    ("docs/WAYS.md", "14 examples", "fifteen examples", "docs/WAYS.md:5: says 'fifteen examples', where 14 or 21 are counted"),
    ("docs/WAYS.md", "twenty-one bundles", "twenty-two bundles", "says 'twenty-two bundles', where 7 or 14 or 21 are counted"),
    ("docs/WAYS.md", "31 edits", "32 edits", "says '32 edits', where 4 or 31 or 35 are counted"),
    ("docs/WAYS.md", "11 calls", "1,011 calls", "says '1,011 calls', where 11 are counted"),
    ("docs/WAYS.md", "`kept` and `rows`", "`kept` and `low`", "docs/WAYS.md:6: put_row: no clause is named low"),
    ("docs/WAYS.md", "`kept`; of `low` `rows`", "`kept`, `low`", "docs/WAYS.md:10: put_row: no clause is named low"),
    ("docs/WAYS.md", "low 3", "low 4", "docs/WAYS.md:18: says 4 thousand lines of low, where 3,0"),
    ("docs/WAYS.md", "together 3", "together 2", "docs/WAYS.md:18: says 2 thousand lines of all, where 3,0"),
    ("docs/WAYS.md", "66 cases", "67 cases", "docs/WAYS.md:6: says '67 cases', where 66 are counted"),
    ("README.md", "It keeps tables,", "It keeps tables" + " and more" * 12 + ",", "README.md:3: 'It keeps tables and more and' .. has 36 words"),
    ("README.md", "is told.", "is told, `put_row`" + " or" * 22 + " not.", "README.md:5: '`` has 12 crates, `` is' .. has 31 words"),
    ("docs/PLANTED.md", "[Back](WAYS.md).", f"[Back](WAYS.md){' and on' * 15}.", "docs/PLANTED.md:1: '[Back] and on and on and' .. has 31 words"),
    ("docs/WORDS.md", "| desk |", "| table |", "README.md:12: says 'desk', and no row of docs/WORDS.md says what that is called elsewhere"),
    ("docs/WORDS.md", "*session*", "session", "README.md:12: says 'session', and no row of docs/WORDS.md"),
    ("docs/WORDS.md", "| desk | a", "| table | desk, a", "README.md:12: says 'desk', and no row of docs/WORDS.md"),
    ("docs/WAYS.md", "the planned ones", "the wide forms", "docs/WAYS.md:6: says 'wide forms': of forms"),
    ("docs/WAYS.md", "the planned ones", "to be given later", "says 'to be given later': of what was to come"),
    ("docs/WAYS.md", "the planned ones", "No command uses it yet", "says 'No command uses it yet'"),
    ("docs/WAYS.md", "the planned ones", "| planned |", "says '| planned |': of what was to come"),
    ("docs/WAYS.md", "the planned ones", "see /home/there", "says '/home/t': a place outside of the repository"),
    ("docs/WAYS.md", "the planned ones", "of issue 47", "says 'issue 47': the number of an issue"),
]


def load():
    loader = SourceFileLoader("papers", str(TOOL))
    module = module_from_spec(spec_from_loader("papers", loader))
    loader.exec_module(module)
    return module


@contextmanager
def tree(files):
    """A tree of these files, beside which a paper lies."""
    with tempfile.TemporaryDirectory() as room:
        root = Path(room).resolve() / "tree"
        for name, text in files.items():
            (root / name).parent.mkdir(parents=True, exist_ok=True)
            (root / name).write_text(text)
        (root.parent / "outside.md").write_text("")
        yield root


def told_of(files):
    """What is told of a tree of these files."""
    with tree(files) as root:
        return [str(each) for each in load().judged(root) if each.fault]


def test_the_last_line_and_the_status_say_whether_all_passed():
    for change, last, status in (("", r"\A[1-9]\d+ passed, 0 failed\n\Z", 0), ("`gone_call`", r"gone_call\n[1-9]\d+ passed, 1 failed\n\Z", 1)):
        with tree(FILES | {"docs/PLANTED.md": f"[Back](WAYS.md). {change}\n"}) as root:
            ran = subprocess.run([sys.executable, "-B", TOOL, root], capture_output=True, text=True)
        assert re.search(last, ran.stdout)
        assert (ran.stderr, ran.returncode) == ("", status)


def test_a_tree_that_is_as_its_papers_say_passes():
    assert told_of(FILES) == []


@pytest.mark.parametrize("file, old, new, said", SPOILT)
def test_each_spoilt_paper_is_told(file, old, new, said):
    assert FILES[file].count(old) == 1
    told = told_of(FILES | {file: FILES[file].replace(old, new)})
    assert any(said in line for line in told)


@pytest.mark.parametrize(
    "gone, said",
    (
        ("tools/sell", "README.md:4: `tools/sell --all 3`: there is no tools/sell, no tool takes --all"),
        ("crates/low/specs/Kept.antt", "nothing is named IsKept"),
        ("crates/low/must-fail/turns7.edit", "says '31 edits', where 4 or 30 or 34 are counted"),
        ("tests/bundles/night_a.bundle", "nothing is named night_"),
    ),
)
def test_what_goes_from_the_tree_is_told_of_the_papers(gone, said):
    told = told_of({file: text for file, text in FILES.items() if file != gone})
    assert any(said in line for line in told)


def test_numbers_in_words():
    said = {"ten": 10, "nineteen": 19, "Twenty": 20, "thirty-four": 34, "ninety-nine": 99, "1,234": 1234, "66": 66}
    assert {word: number_of(word) for word in said} == said


def test_lists_within_a_list_are_counted(tmp_path):
    file = tmp_path / "lists.py"
    file.write_text("MORE = [1, 2, 3]\nALL = [4, 5, *MORE]\nTABLE = {'a': ALL, 'b': (6,)}\n")
    assert [length(file, name) for name in ("MORE", "ALL", "TABLE", "none")] == [3, 5, 6, None]
