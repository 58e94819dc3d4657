"""A night of a served folder, as the process that serves it computes it: what a program of the night's own would print, and the word by which
that process keeps it.
"""

from __future__ import annotations

import os
from collections.abc import Iterable, Iterator, Mapping, Sequence
from typing import TYPE_CHECKING, NamedTuple

from ..bundle import part_pieces
from ..catalogue.evaluator import terms
from ..program import Night, temporary
from .at_socket import Parted, Wire, connected, told_of
from .reading import key_of
from .sizes import told_rows

if TYPE_CHECKING:
    from .command import Words
    from .folder import Folder


# What stands before the name of a view whose change follows, and the work that stands for anything greater.
HEADING, MOST_WORK = "changes ", 2**128 - 1


class Rows(NamedTuple):
    """How many rows a view has before and after a night, and how many change."""

    before: int
    after: int
    changed: int


class Asked:
    """A night that was computed, and the process that waits for what becomes of it."""

    def __init__(self, wire: Wire, answer: Night) -> None:
        self.wire, self.answer = wire, answer

    def keep(self, number: int) -> None:
        """Tells which version was made. Where that is not heard, the process looks where `current` leads."""
        try:
            self.wire.send({"made": number})
            self.wire.receive()
        except Parted:
            pass
        finally:
            self.wire.close()


def asked(folder: Folder, words: Words, strategy: str) -> Asked | None:
    """The night of a folder, computed by the process that serves it. None where that does not do it, for whatever reason."""
    program = words.program
    wire = connected(folder.path)
    if wire is None:
        return None
    try:
        wire.send({"version": version_of(folder), "program": told_of(program)}, parts_of(folder, strategy))
        told, changes = wire.receive()
        seconds, rows = told["seconds"], told["rows"]
        if not isinstance(seconds, float) or not isinstance(rows, dict) or told_rows(folder).items() - rows.items():
            raise ValueError("this is no answer, or one about other tables")
        return Asked(wire, answer_of(folder, strategy, rows, changes, seconds))
    except (Parted, ValueError, KeyError, TypeError):
        wire.close()
        return None


def version_of(folder: Folder) -> list[int]:
    """By what the version is known that the night goes on from; nothing without one."""
    state = folder.state
    if state.number is None or state.handle is None:
        return []
    return [state.number, *key_of(os.fstat(state.handle))]


def parts_of(folder: Folder, strategy: str) -> bytes:
    """The parts of the night."""
    parts = [piece for name, changes in folder.changes.items() for piece in part_pieces(f"changes {name}", changes.content)]
    return b"".join([*parts, *part_pieces("strategy", strategy.encode())])


# ---- the answer, as a program of the night's own would print it


def answer_of(folder: Folder, strategy: str, told: Mapping[str, int], changes: bytes, seconds: float) -> Night:
    """The answer of a night, of which it is told how many rows each view had, and what changes in the derived ones."""
    changed = counts_of(changes) | {view.name: list(base_counts(folder, view.name)) for view in folder.bases}
    rows = {name: rows_after(told[name], counts) for name, counts in changed.items()}
    names = [view.name for view in folder.views if not view.is_base]
    steps = list(steps_of(folder, strategy, rows))
    head = "".join(f"{step}: {count}\n" for step, count in steps)
    work = min(sum(count for _, count in steps), MOST_WORK)
    answer = Night(temporary([f"{head}work {work}\nversion 1\n".encode(), changes]), seconds, names)
    if set(names) - set(answer.places):
        raise ValueError("the change of a view is missing")
    return answer


def rows_after(before: int, counts: Sequence[int]) -> Rows:
    """How many rows a view has, of which so many come and leave."""
    return Rows(before, before + sum(counts), sum([abs(count) for count in counts]))


def base_counts(folder: Folder, name: str) -> Iterable[int]:
    """By how much the rows of a base view count otherwise after the night."""
    return folder.changes[name].rows.values() if name in folder.changes else ()


def counts_of(changes: bytes) -> dict[str, list[int]]:
    """By how much the rows of each derived view count otherwise. All texts go over one line here."""
    found: dict[str, list[int]] = {}
    name = ""
    for line in changes.decode().split("\n"):
        if line.startswith(HEADING):
            name = line.removeprefix(HEADING)
            found[name] = []
        elif line and not line.startswith("#"):
            found[name].append(int(line.partition(",")[0]))
    return found


def steps_of(folder: Folder, strategy: str, rows: Mapping[str, Rows]) -> Iterator[tuple[str, int]]:
    """The expressions of a strategy, and how many rows each reads or installs."""
    places = {view.name: place for place, view in enumerate(folder.views)}
    now, changed = [rows[name].before for name in places], [rows[name].changed for name in places]
    for words in filter(None, map(str.split, strategy.splitlines())):
        place = places[words[1]]
        if words[0] == "inst":
            now[place] = rows[words[1]].after
            yield " ".join(words), changed[place]
        else:
            over, sources = ([places[name] for name in names] for names in (folder.views[place].over, words[3:]))
            yield " ".join(words), sum([sum(operands) for operands in terms(over, sources, now, changed)])
