"""The bundles of examples/ and tests/bundles/, each with its words and its answer, for the tools that run them all."""

import subprocess
from pathlib import Path
from typing import NamedTuple

from upkeep.words import ROOT

FOLDERS = (ROOT / "examples", ROOT / "tests/bundles")


class Example(NamedTuple):
    """A bundle, the words that it is run with, and what is printed, with the line of the status."""

    path: Path
    words: list
    bundle: bytes
    answer: bytes

    @property
    def name(self):
        return self.path.stem


def words_of(path):
    """The words beside a bundle, or the command that its name begins with, which is `check` where it begins with no other."""
    given = path.with_suffix(".words")
    if given.exists():
        return given.read_text().split()
    command = path.stem.partition("_")[0]
    return [command if command in ("plan", "certify", "night", "replay") else "check"]


def examples():
    """The bundles of both folders, by name."""
    paths = sorted((path for folder in FOLDERS for path in folder.glob("*.bundle")), key=lambda path: path.stem)
    return [Example(path, words_of(path), path.read_bytes(), path.with_suffix(".answer").read_bytes()) for path in paths]


def mistake(started, example):
    """What the program answers to an example in another way, or None."""
    ran = subprocess.run([started, *example.words, "--input", example.path], stdin=subprocess.DEVNULL, capture_output=True, timeout=60)
    answer = ran.stdout + b"status %d\n" % ran.returncode
    return None if answer == example.answer else f"{example.path.name} answered\n{answer.decode(errors='replace')}"
