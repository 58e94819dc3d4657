"""Plans that are kept in the folder of a warehouse for nights to come.

A plan is made for sizes, and is correct for any. So it serves while all else that it rests on is the same, and no size is far from what it was. Nobody trusts the
file: one that is damaged or foreign is as none, and its expressions are judged as those of any strategy before a night is written by them."""

from __future__ import annotations

import hashlib
import json
import os
import sys
from argparse import Namespace
from collections.abc import Sequence
from dataclasses import asdict, dataclass
from pathlib import Path

from .. import VERSION, program
from ..disk import write

FILE, FORM, MOST_BYTES = ".plan.json", 1, 2**20
# One size is near another where it is at most so many times that, but for so many rows.
TIMES, ROWS = 2, 16


def is_near(one: int, other: int) -> bool:
    """Whether two numbers of rows are near each other."""
    return max(one, other) <= TIMES * min(one, other) + ROWS


def digest(*parts: object) -> str:
    """A digest of all of these."""
    return hashlib.sha256(json.dumps(parts).encode()).hexdigest()


def program_of(words: Namespace) -> list[str | int]:
    """Which program plans: the word for it, or its file as it is now."""
    word = str(words.program or (program.UNPROVED if words.unproved else program.setting()))
    if word in (program.PROVED, program.UNPROVED):
        return [word]
    try:
        found = os.stat(word)
    except OSError:
        return [word, "gone"]
    return [os.path.realpath(word), found.st_size, found.st_mtime_ns]


@dataclass(frozen=True, slots=True)
class Wanted:
    """For what a plan is wanted: a digest of all that has to be the same, and the sizes of each view."""

    rests_on: str
    sizes: list[list[int]]

    @classmethod
    def by(cls, words: Namespace, catalogue: str, sizes: str, costs: Sequence[str]) -> Wanted:
        """For a catalogue, the text of its sizes, and what work costs. Weights have to be the same, since they are measured or given."""
        head, *rows = (line.split(",") for line in sizes.splitlines())
        named = [[name, *weights] for name, _, _, _, *weights in rows]
        return cls(digest(FORM, VERSION, program_of(words), catalogue, head, named, list(costs)), [[int(each) for each in row[1:4]] for row in rows])

    def is_near(self, sizes: Sequence[Sequence[int]]) -> bool:
        """Whether these are near the sizes."""
        return len(sizes) == len(self.sizes) and all(is_near(one, other) for ones, others in zip(self.sizes, sizes) for one, other in zip(ones, others))


@dataclass(frozen=True, slots=True)
class Kept:
    """A plan: for what it was made, its expressions, and what the program said of it."""

    rests_on: str
    sizes: list[list[int]]
    expressions: list[str]
    certified: str

    def serves(self, wanted: Wanted) -> bool:
        return self.rests_on == wanted.rests_on and wanted.is_near(self.sizes)

    def text(self) -> str:
        """It, as the file has it."""
        said = asdict(self)
        return json.dumps({"form": FORM, "sum": digest(said), **said}, indent=1) + "\n"


def read(text: bytes) -> Kept:
    """The plan of a file's text; a ValueError, KeyError or TypeError where it is none."""
    said = json.loads(text)
    if said.pop("form") != FORM or said.pop("sum") != digest(said):
        raise ValueError
    found = Kept(**said)
    is_right = all(isinstance(each, str) and each.isprintable() for each in (found.rests_on, found.certified, *found.expressions))
    if not is_right or any(len(row) != 3 or any(type(each) is not int or each < 0 for each in row) for row in found.sizes):
        raise ValueError
    return found


def kept_for(place: Path, wanted: Wanted) -> Kept | None:
    """The plan in a folder that serves, or None where there is none."""
    try:
        with open(place / FILE, "rb") as file:
            found = read(file.read(MOST_BYTES))
    except (OSError, ValueError, KeyError, TypeError, AttributeError, RecursionError):
        return None
    return found if found.serves(wanted) else None


def keep(place: Path, plan: Kept) -> None:
    """Keeps a plan in a folder, whole or not at all. Where the folder takes no file, that is told, and the night goes on."""
    if not place.is_dir():
        return
    part = place / f"{FILE}.{os.getpid()}"
    try:
        write(part, [plan.text().encode()])
        os.replace(part, place / FILE)
    except OSError as fault:
        print(f"whview sql: the plan is not kept for later nights: {fault}", file=sys.stderr)
    finally:
        part.unlink(missing_ok=True)
