"""Tests of tools/calls: what it tells of the sources of two small crates, and what it makes of their README.md."""

from contextlib import redirect_stdout
from importlib.machinery import SourceFileLoader
from importlib.util import module_from_spec, spec_from_loader
from io import StringIO
from pathlib import Path
from types import SimpleNamespace

import pytest

from upkeep import sources

HERE = Path(__file__).resolve().parents[1] / "tools"
LIB = """//! Stacks.
#![tactic(auto)]

mod laws;
mod stack;

pub use laws::pushes_add_up;
pub use low::{Low, lower};
pub use stack::{LIMIT, Stack};

#[cfg(test)]
mod tests {
    #[test]
    pub fn a_test_is_no_call() {}
}
"""
LAWS = """/// What is pushed is there. No more is said.
pub fn pushes_add_up()
    ensures { PushesAddUp }
{}
"""
STACK = """ghost use Rattle.std.specs.Prelude.{List, OnOk};

/// The most numbers.
pub const LIMIT: usize = 64;

/// Numbers, the [`Stack::push`]ed last first; a `|` parts them. The rest is not told.
#[derive(Drop)]
pub struct Stack<'a> {
    numbers: &'a [u8],
}

impl<'a> Model for Stack<'a> {
    ghost view = { λ s. s.numbers };
}

impl<'a> Stack<'a> {
    /// Puts a number on top. It takes O(log (rows + 1)) steps,
    /// and O(rows) memory.
    pub fn push<F: Fn(&[u8]) -> bool>(&mut self, keep: &F, mut number: u8) -> Result<(), u8>
        requires { number < 64 }
        ensures ok { OnOk result (λ s. { s } ≡ s) } // of { one
        ensures err { result ≡ Err '}' }

        // No brace { of a comment counts.
        ensures { b'{' ≡ b'{' }
    {
        let text = "}}";
        put(self, number)
    }

    pub(crate) fn hidden(&self) {}

    /// Whether there is no number.
    pub fn is_empty(&self) -> bool
        ensures { result ≡ is_empty self.now }
    {
        self.numbers.is_empty()
    }
}

impl<'a> Lower for Stack<'a> {
    fn lowest(&self) -> u8 {
        self.numbers[0]
    }
}

fn put(stack: &mut Stack<'_>, number: u8)
    ensures { True }
{
    stack.numbers.push(number);
}
"""
LOW = """/// What has a lowest number.
pub trait Lower {
    /// The lowest number.
    fn lowest(&self) -> u8
        ensures low { True };
}
"""
EDITS = {
    "crates/high/must-fail/pushes_nothing.edit": "file: src/stack.rt\n" "old:     stack.numbers.push(number);\nnew:     stack.numbers.push(0);\n",
    "crates/high/must-fail/lent-old.edit": "file: src/stack.rt\nold: put(self\nnew: put(other\n",
    "tools/edits/high/turns_twice.edit": "file: src/stack.rt\nold:         put(self, number)\nnew:         put(self, 1)\n"
    "file: src/stack.rt\nold: put(self, 1)\nnew: put(self, 2)\nfile: specs/Stack.antt\nold: one\nnew: two\n",
}
HIGH_PAGE = [
    "| `push(&mut self, keep, number)` | Puts a number on top. | O(log (rows + 1)), O(rows) | one clause | one clause, `ok`, `err` | *apart* `turns_twice` |",
    "| `is_empty(&self)` | Whether there is no number. |  |  | one clause |  |",
    "| `Lower::lowest(&self)` | The lowest number. |  |  | as `Lower` |  |",
    "| `pushes_add_up()` | What is pushed is there. | one clause |",
    "| `LIMIT` | The most numbers. |",
    "| `src/stack.rt` | `put(stack, number)` | one clause | `pushes_nothing` |",
    "| `specs/Stack.antt` |  |  | *apart* `turns_twice` |",
    "- of [`low`](../low/README.md): `Low`, `lower`",
    "Numbers, the `Stack::push`ed last first; a `|` parts them.",
]


def load():
    loader = SourceFileLoader("calls", str(HERE / "calls"))
    module = module_from_spec(spec_from_loader("calls", loader))
    loader.exec_module(module)
    return module


@pytest.fixture
def given(tmp_path, monkeypatch):
    """Two crates, and the tool that reads them."""
    given = SimpleNamespace(root=tmp_path, calls=load())
    given.calls.ROOT = tmp_path
    monkeypatch.setattr(sources, "ROOT", tmp_path)
    files = {"crates.txt": "low:\nhigh: low toml\n", "crates/low/src/lib.rt": LOW, "crates/high/specs/Stack.antt": "one\n"}
    sources_of_high = {"lib": LIB, "laws": LAWS, "stack": STACK}
    files |= {f"crates/high/src/{name}.rt": text for name, text in sources_of_high.items()}
    for path, text in (files | EDITS).items():
        (given.root / path).parent.mkdir(parents=True, exist_ok=True)
        (given.root / path).write_text(text)
    given.crates = {name: sources.Crate(name) for name in ("low", "high")}
    return given


def test_a_page_has_what_the_sources_say(given):
    lines = given.calls.written(given.crates["high"], given.crates).split("\n")
    for line in HIGH_PAGE:
        assert line in lines
    assert lines[0] == "Stands on [`low`](../low/README.md), `toml` of the toolchain. Used by no other crate."
    assert lines[2].startswith("3 calls and 1 law: ")
    assert "hidden" not in "\n".join(lines)
    assert "a_test_is_no_call" not in "\n".join(lines)
    assert "lent" not in "\n".join(lines)


def test_types_and_traits_are_told_apart(given):
    assert "Types: `Stack`." in given.calls.written(given.crates["high"], given.crates).split("\n")
    assert "Traits: `Lower`." in given.calls.written(given.crates["low"], given.crates).split("\n")


def with_example(given, names):
    """The page of a crate whose head names an example."""
    line = f"An example that is run: {names} of [`stack.rt`](../high/src/stack.rt)."
    (given.root / "crates/low/README.md").write_text(f"# low\n\n{line}\n\n{given.calls.MARK}\n")
    return given.calls.written(given.crates["low"], given.crates)


def test_an_example_is_quoted_as_it_stands(given):
    wanted = "\n\n".join([STACK[STACK.index("fn put(") :].rstrip(), STACK[STACK.index("/// The most") :].partition("\n\n")[0]])
    head = "## An example\n\nFrom [`high/src/stack.rt`](../high/src/stack.rt), as the gate runs it:"
    assert f"{head}\n\n```rust\n{wanted}\n```\n" in with_example(given, "`put`, `LIMIT`")


def test_an_example_that_is_gone_is_told(given):
    with pytest.raises(SystemExit, match="crates/high/src/stack.rt has no gone to be an example"):
        with_example(given, "`put`, `gone`")


def test_a_trait_has_its_own_clauses(given):
    assert "| `lowest(&self)` | The lowest number. | `low` |" in given.calls.written(given.crates["low"], given.crates).split("\n")


def test_a_page_is_renewed_below_its_head(given):
    for name in given.crates:
        (given.root / "crates" / name / "README.md").write_text(f"# {name}\n\nBy hand.\n\n{given.calls.MARK}\nold\n")
    (given.root / "docs").mkdir()
    (given.root / "docs/PROMISES.md").write_text("")
    told = StringIO()
    with redirect_stdout(told):
        found = [given.calls.judge(given.crates), given.calls.write(given.crates), given.calls.judge(given.crates)]
    assert found == [1, 0, 0]
    text = (given.root / "crates/high/README.md").read_text()
    assert text.startswith(f"# high\n\nBy hand.\n\n{given.calls.MARK}\n\nStands on ")
    assert "\nold\n" not in text


def test_a_link_of_a_head_has_to_lead_to_a_file(given):
    for there, ends in (("src/stack.rt", 0), ("src/gone.rt", 1)):
        for name in given.crates:
            link = f"Begin with [it]({there})." if name == "high" else "By hand."
            (given.root / "crates" / name / "README.md").write_text(f"# {name}\n\n{link}\n\n{given.calls.MARK}\n")
        (given.root / "docs").mkdir(exist_ok=True)
        (given.root / "docs/PROMISES.md").write_text("")
        with redirect_stdout(StringIO()):
            given.calls.write(given.crates)
            assert given.calls.judge(given.crates) == ends


def test_a_page_without_a_head_is_refused(given):
    with redirect_stdout(StringIO()):
        assert given.calls.judge(given.crates) == 1
    with pytest.raises(SystemExit):
        given.calls.write(given.crates)
