"""What is found in a folder: where, and what is wrong there."""

import sys
from collections import Counter
from collections.abc import Iterable, Iterator
from importlib import import_module
from itertools import chain
from typing import NamedTuple, TypeAlias

from .streams import drop

# A byte order mark, which may stand before a table, and what is told of it where it may not.
MARK = b"\xef\xbb\xbf"
MARKED = "a byte order mark stands before the first line; save the file as UTF-8 without one"
# How many findings are told of one file, and how many that say the same of several files; and the file of which all are, as it is short.
TOLD, WHOLE = 20, "catalogue.toml"


def nearest(word: str, words: Iterable[str]) -> str:
    """A half-sentence with the nearest of these words, where one is near."""
    near = import_module("difflib").get_close_matches(word, list(words), 1)
    return f"; did you mean {near[0]}?" if near else ""


class Place(NamedTuple):
    """A place in a file, its line and column counted from 1; a column counts characters."""

    file: str
    line: int = 1
    column: int = 1


class Finding(NamedTuple):
    """A fault, which the program would not take, or a warning of what it takes and was hardly meant. It may stand for `more` of its kind, of
    which nothing else is kept.
    """

    place: Place
    text: str
    warns: bool = False
    more: int = 0

    def __str__(self) -> str:
        return f"{self.place.file}:{self.place.line}:{self.place.column}: {'warning: ' if self.warns else ''}{self.text}"


def more_of(place: Place, count: int, warns: bool = False) -> Finding:
    """That so many findings of a file, from this place on, are not told."""
    return Finding(place, f"{count:,} more from here on {'are' if count > 1 else 'is'} not told", warns, count)


def first_ones(places: Iterable[tuple[Place, str]], warns: bool = False) -> list[Finding]:
    """Findings at these places, as many as are told, and how many more there are."""
    found: list[Finding] = []
    left: Place | None = None
    count = 0
    for place, text in places:
        count += 1
        if count <= TOLD:
            found.append(Finding(place, text, warns))
        left = left or (place if count > TOLD else None)
    return found + ([more_of(left, count - TOLD, warns)] if left else [])


# Whether a finding warns, and its file or its text.
FindingKind: TypeAlias = tuple[bool, str, str]
# What is told: a line, or what is found at a place.
Line: TypeAlias = str | Finding


class Shortened:
    """What is told of many lines: of the findings of one file, and of those that say the same of several, the first ones."""

    def __init__(self) -> None:
        self.seen: Counter[FindingKind] = Counter()
        self.left: dict[FindingKind, tuple[Place, int]] = {}

    def is_told(self, line: object) -> bool:
        """Whether a line is told; where it is not, it is counted."""
        if not isinstance(line, Finding) or line.more or line.place.file == WHOLE:
            return True
        kinds = [(line.warns, line.place.file, ""), (line.warns, "", line.text)]
        full = next((kind for kind in kinds if self.seen[kind] >= TOLD), None)
        if full:
            place, count = self.left.get(full, (line.place, 0))
            self.left[full] = place, count + 1
            return False
        self.seen.update(kinds)
        return True

    def rest(self) -> Iterator[Finding]:
        """How many were not told, by file or by what they say."""
        for (warns, _, text), (place, count) in self.left.items():
            yield Finding(place, f"{count:,} more, from here on: {text}", warns) if text else more_of(place, count, warns)


def warn(lines: Iterable[object]) -> None:
    """Tells what does not end a command. Where standard error cannot be written, the status alone tells."""
    shortened = Shortened()
    try:
        for line in chain(filter(shortened.is_told, lines), shortened.rest()):
            print(line, file=sys.stderr, flush=True)
    except OSError:
        drop(sys.stderr)


def of_system(error: OSError) -> str:
    """What the system said, and of which file."""
    return f"{error.filename or 'the output'}: {error.strerror}"


class Failure(Exception):
    """Why a command ends: its status, and the lines that say it."""

    def __init__(self, status: int, *lines: Line) -> None:
        super().__init__(status, *lines)
        self.status, self.lines = status, lines
