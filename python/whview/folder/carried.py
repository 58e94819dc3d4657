"""A night as it is carried out: judged, with its strategy, every view's table after it, and its report."""

from __future__ import annotations

import re
import time
from collections.abc import Callable, Iterator
from pathlib import Path
from typing import TYPE_CHECKING, NamedTuple

from .. import program
from ..catalogue.from_toml import FILE as CATALOGUE
from ..finding import Failure, warn
from ..limits import after, sizes_after
from ..status import BAD_INPUT, REFUSED, SIGNALLED, SPENT
from . import headlines
from .check import strategy_of as given_strategy
from .folder import fault_of, judged
from .made import Made, Printed, Table, made, of_base, of_change, rows_in
from .planning import certified, planned, strategy_of
from .sizes import Size, base_sizes, given_text, last_report, rows_of, sized, told_before, told_rows
from .strategy import FILE, at_once, written
from .versions import SOCKET

if TYPE_CHECKING:
    from ..catalogue.from_toml import CatalogueView
    from .command import Words
    from .folder import Folder
    from .night_client import Asked

# What has the program print the changes of derived views in the place of their tables.
CHANGES = ("--print", "changes")


class Chosen(NamedTuple):
    """A strategy, how it was come by, and the plan that it is from, if it is from one."""

    strategy: str
    how: str
    plan: str = ""


class Kept:
    """The derived views' tables of the version before, and which of them may be taken for what they are of this catalogue."""

    def __init__(self, folder: Folder) -> None:
        self.folder, self.rows, last = folder, told_rows(folder), folder.state.root
        is_by_the_same = is_same(last / CATALOGUE, folder.catalogue.content)
        self.is_as_before = is_by_the_same and not folder.inputs.later
        is_by_another = bool(folder.state.number) and (last / CATALOGUE).is_file() and not is_by_the_same
        self.anew = [headlines.anew(folder.state.number, is_by_another)] * (is_by_another or bool(folder.inputs.later))
        self.files = {view.name: last / "views" / f"{view.name}.csv" for view in folder.views if not view.is_base}

    def file(self, name: str) -> Path | None:
        """The file of a view's table, where there is one of which it is known how many rows it has."""
        return self.files[name] if self.is_as_before and name in self.rows and self.files[name].is_file() else None

    def can_take_changes(self) -> bool:
        """Whether each table can be made of the one before by its change, line by line."""
        return bool(self.files) and all(map(self.file, self.files)) and self.folder.has_lines


class Night:
    """What a night came to: the folder as it was read, the strategy, and the program's answer. The tables are made one after the other,
    so that few are held at a time, and the report after them. `again` carries the night out for the tables themselves.
    """

    def __init__(
        self, folder: Folder, chosen: Chosen, kept: Kept, answer: program.Night, again: Callable[[], program.Night], began: float
    ) -> None:
        self.folder, self.chosen, self.kept, self.answer, self.again, self.began = folder, chosen, kept, answer, again, began
        # The process that computed it, where one did that serves the folder.
        self.asked: Asked | None = None
        self.changed = answer.changed()
        # How many rows each derived view has whose table is put, and the sizes of all views, once the report is made.
        self.rows: dict[str, int] = {}
        self.sizes: dict[str, Size] = {}

    def tables(self) -> Iterator[tuple[CatalogueView, Table]]:
        """Each view with its table after the night."""
        for view in self.folder.views:
            table = of_base(self.folder, view) if view.is_base else self.derived(view.name)
            yield view, table
            if not view.is_base:
                self.rows[view.name] = rows_in(table)

    def derived(self, name: str) -> Table:
        """The table of a derived view. How many rows it has is known once it was put where it belongs."""
        file = self.kept.file(name)
        if file and self.changed[name] == 0:
            return Made([], file, rows=self.kept.rows[name])
        if self.answer.has_changes:
            table = self.with_change(name, file)
            if table:
                return table
            self.answer = self.again()
        if self.folder.has_lines:
            return Printed(self.answer, name, self.kept.files[name])
        printed = self.answer.table(name)
        return made([printed], self.kept.files[name], rows_of(printed))

    def with_change(self, name: str, file: Path | None) -> Made | None:
        """The table of before with its change, where it is as it was told and has the rows that leave."""
        if file is None:
            raise ValueError(f"the program printed the change of {name}, whose table of before is not known")
        is_vouched = f"views/{name}.csv" in self.folder.inputs.vouched.untouched
        return of_change(file, self.kept.rows[name], self.answer.table(name), is_vouched)

    def sizes_of_all(self) -> dict[str, Size]:
        """How many rows each view had, where that is known, has, and changed."""
        base = base_sizes(self.folder)
        derived = {name: Size(self.kept.rows.get(name), rows, self.changed[name]) for name, rows in self.rows.items()}
        return {view.name: base[view.name] if view.is_base else derived[view.name] for view in self.folder.views}

    @property
    def changes(self) -> dict[str, int]:
        """How many rows changed of each view of which some did, once the report is made."""
        return {name: size.changed for name, size in self.sizes.items() if size.changed}

    @property
    def work(self) -> int | None:
        """The work, as the program counted it, or None where it tells none."""
        told = re.search(r"^work ([0-9]+)$", self.answer.head, re.MULTILINE)
        return int(told[1]) if told else None

    def report(self) -> str:
        """What the night did: how its strategy was come by, the rows of each expression, what readers saw, and the views' sizes."""
        sizes, answer = self.sizes_of_all(), self.answer
        self.sizes = sizes
        lines = [self.chosen.how, headlines.work(answer.head, sizes), headlines.time(answer.seconds, time.monotonic() - self.began)]
        lines += self.kept.anew + [headlines.aside(self.folder)] * bool(self.folder.asides)
        lines += [headlines.tests(self.folder)] * bool(self.folder.catalogue.tests)
        return "\n".join([*lines, answer.head, *answer.readers, sized(sizes)])


def is_same(file: Path, content: bytes) -> bool:
    """Whether a file is there and has these bytes."""
    return file.is_file() and file.read_bytes() == content


def chosen(folder: Folder, words: Words) -> Chosen:
    """The strategy that is carried out. Where nothing tells of sizes nothing is planned: the night itself counts them for the next one."""
    if (folder.path / FILE).is_file():
        return Chosen(given_strategy(folder), headlines.given(folder.path))
    if given_text(folder) is None and told_before(folder) is None:
        return Chosen(written(at_once(folder.views)), headlines.without_sizes(bool(last_report(folder))))
    try:
        plan, sizes = planned(folder, words)
    except Failure as failure:
        if failure.status != SPENT:
            raise
        return Chosen(written(at_once(folder.views)), headlines.given_up())
    verdict = certified(folder, words, plan, sizes.text)
    return Chosen(strategy_of(plan), headlines.planned(verdict, sizes), plan)


def judge_after(folder: Folder, is_kept: bool) -> None:
    """Warns of tables that come near to what can be read again, and refuses to keep those that cannot be."""
    found = after(sizes_after(folder), folder.catalogue.max_bytes)
    if is_kept and any(not finding.warns for finding in found):
        raise Failure(BAD_INPUT, *found)
    warn(found)


def carried(folder: Folder, words: Words) -> Night:
    """Judges the folder and carries its night out. Where that cannot be done, and tables waited for the program, they are judged wholly: a
    fault of the folder is told before all others.
    """
    began = time.monotonic()
    folder = judged(folder)
    warn(folder.warnings)
    try:
        night = done(folder, words, began)
    except (Failure, OSError) as failure:
        is_stopped = isinstance(failure, Failure) and failure.status >= SIGNALLED
        found = folder if is_stopped else folder.wholly()
        if found.faults:
            raise fault_of(found) from failure
        raise
    folder.take_tables()
    if folder.catalogue.tests:
        judge_tests(night)
    return night


def judge_tests(night: Night) -> None:
    """Refuses a night that breaks a test of the catalogue."""
    # What only some catalogues have is imported where it is needed.
    from .tested import of_night

    found = of_night(night)
    if found:
        raise Failure(REFUSED, *found)


def done(folder: Folder, words: Words, began: float) -> Night:
    """Carries the night of a folder out."""
    judge_after(folder, words.commit)
    taken, kept = chosen(folder, words), Kept(folder)

    def run(*options: str) -> program.Night:
        return program.explained_night(folder, words, taken.strategy, [*words.through, *options])

    if not kept.can_take_changes():
        return Night(folder, taken, kept, run(), run, began)
    served = asked_of_server(folder, words, taken.strategy)
    night = Night(folder, taken, kept, served.answer if served else run(*CHANGES), run, began)
    night.asked = served
    return night


def asked_of_server(folder: Folder, words: Words, strategy: str) -> Asked | None:
    """The night as the process computes it that serves the folder; None where none does, or a program of the night's own is wanted."""
    if words.through or not (folder.path / SOCKET).is_socket():
        return None
    # What a folder that is not served does not need is imported where it is needed.
    from .night_client import asked

    return asked(folder, words, strategy)
