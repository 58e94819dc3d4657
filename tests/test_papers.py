"""Tests of papers beside what tools/papers judges: walks lead somewhere, maps and lists are whole, and examples have their commands."""

import re

from trials.bundles import FOLDERS, examples
from upkeep.layers import layers, rooms, with_layers
from upkeep.sources import uses
from upkeep.words import ROOT

README, ARCHITECTURE = ((ROOT / name).read_text() for name in ("README.md", "docs/ARCHITECTURE.md"))


def test_readme_leads_to_each_but_those_of_tests_by_its_room():
    found = {room: re.findall(r"\(crates/(\w+)/README\.md\)", line) for room, line in re.findall(r"^- (\w+): (.*)$", README, re.MULTILINE)}
    assert found == {room: crates for room, crates in rooms().items() if room != "tests"}


def test_readme_says_which_libraries_are_trusted():
    libraries = {library for used in uses().values() for library in used} - set(uses())
    said = README.partition("\n## What is trusted\n")[2].partition("\n## ")[0]
    assert libraries - set(re.findall(r"`(\w+)`", said)) == set()


def test_each_file_of_a_crate_stands_in_the_one_section_of_it():
    sections = re.split(r"^## `(\w+)`\n", (ROOT / "docs/DEFINITIONS.md").read_text(), flags=re.MULTILINE)[1:]
    said, ordered = dict(zip(sections[::2], sections[1::2])), sections[::2]
    assert ordered == [crate for crate in uses() if crate in said], "one section a crate, in the order of crates.txt"
    for crate in uses():
        files = {path.name for path in (ROOT / "crates" / crate / "specs").glob("*.antt")} - {"Lib.antt", "Inner.antt"}
        named = set(re.findall(r"\w+\.antt", said.get(crate, "")))
        assert sorted(files - named) == [], f"files of {crate} that DEFINITIONS does not name"


def test_each_step_of_a_walk_is_a_call_of_its_file():
    steps = re.findall(r"^\| `(\w+/src/[\w/]+\.rt)` \| ([^|]+) \|", ARCHITECTURE, re.MULTILINE)
    assert len(steps) > 30
    for file, calls in steps:
        source = (ROOT / "crates" / file).read_text()
        for call in re.findall(r"`(\w+)`", calls):
            assert re.search(rf"\bfn {call}\b", source)


def test_its_map_is_what_tools_crates_prints():
    def lasting(lines):
        return [*lines[:-1], re.sub(r" \d+", "", lines[-1])]

    shown = ARCHITECTURE.partition("## The rooms\n")[2].partition("```text\n")[2].partition("\n```")[0]
    assert lasting(shown.split("\n")) == lasting(list(layers())), "tools/crates --layers prints another map"


def test_tools_crates_writes_that_map_and_leaves_the_rest_of_the_page():
    block = "```text\n{}\n```\n"
    page = "# Page\n\n" + block.format("a") + "\n## The rooms\n\nThey stand here.\n\n" + block + "\n## More\n\n" + block.format("b")
    assert with_layers(page.replace("{}", "of before")) == page.replace("{}", "\n".join(layers()))


def test_each_stands_in_the_list_with_its_command():
    said = (ROOT / "examples/README.md").read_text()
    rows = dict(re.findall(r"^\| `(\w+)` \|.*\| `\./whview ([^`]*)` \|$", said, re.MULTILINE))
    shown = [each for each in examples() if each.path.parent == FOLDERS[0]]
    assert rows == {each.name: " ".join([*each.words, "--input", f"examples/{each.path.name}"]) for each in shown}
