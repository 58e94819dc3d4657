"""A paper: its prose, its marks of code, its blocks of code and its headings."""

import os
import re
from dataclasses import dataclass
from functools import cached_property
from pathlib import Path

# What stands above it in the README.md of a crate is written by hand; tools/calls makes the rest.
BY_HAND = "<!-- Above this line by hand"
BUILT = {".git", "out", "__pycache__"}
BLOCK = re.compile(r"^(?P<fence>```+)[^\n]*\n(?P<code>.*?)^(?P=fence)[^\n]*$", re.DOTALL | re.MULTILINE)
MARK = re.compile(r"(?<!`)(?P<ticks>`+)(?!`)(?P<code>[^\n]*?[^`\n])(?P=ticks)(?!`)")


@dataclass(frozen=True)
class Judged:
    """One thing that was looked at: where it stands, and what is wrong with it, if anything is."""

    paper: str
    line: int
    fault: str = ""

    def __str__(self):
        return f"{self.paper}:{self.line}: {self.fault}"


@dataclass(frozen=True)
class Paper:
    """A text in Markdown, named by its path from the top of the tree."""

    root: Path
    name: str

    @cached_property
    def path(self):
        return self.root / self.name

    @cached_property
    def text(self):
        return self.path.read_text()

    @cached_property
    def by_hand(self):
        """What is written by hand: of a crate's page its head, of another paper all."""
        return self.text.partition(BY_HAND)[0] if self.name.startswith("crates/") else self.text

    @cached_property
    def unfenced(self):
        """The text with its blocks of code blank, on the same lines."""
        return without_blocks(self.text)

    @cached_property
    def end_by_hand(self):
        """Where in that the part by hand ends."""
        return len(without_blocks(self.by_hand))

    @cached_property
    def prose(self):
        """The text without any code, on the same lines."""
        return MARK.sub(lambda found: " " * len(found[0]), self.unfenced)

    @cached_property
    def marks(self):
        """The line and the text of each mark of code that is written by hand."""
        return [(line_of(self.unfenced, found.start()), found["code"]) for found in MARK.finditer(self.unfenced, 0, self.end_by_hand)]

    @cached_property
    def block_lines(self):
        """The lines of the blocks of code that are written by hand, each with its number."""
        for block in BLOCK.finditer(self.by_hand):
            first = line_of(self.by_hand, block.start("code"))
            yield from enumerate(block["code"].splitlines(), first)

    @cached_property
    def anchors(self):
        """The names by which the headings are led to."""
        found = []
        for heading in re.findall(r"^#+ (.*)$", self.unfenced, re.MULTILINE):
            name = re.sub(r"[^\w\- ]", "", heading.lower()).replace(" ", "-")
            found.append(f"{name}-{found.count(name)}" if name in found else name)
        return found


def without_blocks(text):
    """A text with its blocks of code blank."""
    return BLOCK.sub(lambda found: "\n" * found[0].count("\n"), text)


def line_of(text, at):
    return text.count("\n", 0, at) + 1


def files(root):
    """The files of a tree but those of builds, from its top."""
    found = []
    for folder, folders, names in os.walk(root):
        folders[:] = set(folders) - BUILT
        found += [(Path(folder) / name).relative_to(root) for name in names]
    return sorted(found)


def papers(root):
    """All papers of a tree, by name: its files in Markdown but those of builds."""
    return {path.as_posix(): Paper(root, path.as_posix()) for path in files(root) if path.suffix == ".md"}
