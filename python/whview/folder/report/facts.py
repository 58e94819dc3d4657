"""What a night's report is made of: its steps, the views' sizes, where the tables before and after it lie, and the nights before it."""

from __future__ import annotations

import re
import time
from collections.abc import Iterable, Mapping
from contextlib import ExitStack
from pathlib import Path
from typing import TYPE_CHECKING, NamedTuple, TypeAlias

from ...catalogue.from_toml import FILE as CATALOGUE
from ...catalogue.from_toml import Catalogue
from ...finding import Failure
from ...status import BAD_INPUT, BAD_WORDS
from ..explain import Step
from ..headlines import ANEW, ASIDE, COUNTED, TIME
from ..held import Held
from ..inputs import CHANGES, by_view
from ..manifest import ROLLBACK, found_manifest
from ..reading import catalogue_of
from ..sizes import HEADER, Size
from ..strategy import Strategy
from ..versions import named, place, whole

if TYPE_CHECKING:
    from ...catalogue.from_toml import CatalogueView
    from ..stored import Stored
    from .rows import Changed

STEP = re.compile(r"(comp \w+ from [\w ]+|inst \w+): ([0-9]+)(?:, ([0-9.]+) s\b)?")


# The number of a version, or the word preview.
Version: TypeAlias = int | str


class Shown(NamedTuple):
    """How many rows of a view one who reads versions saw before, and sees now, and how many of them differ; None where that is not known."""

    before: int | None
    after: int
    changed: int | None


class Told(NamedTuple):
    """What a report.txt says: how the strategy was come by, its lines, the rows of each step and its seconds where they are told, the
    sizes, what readers saw, the time of the whole night, why the derived views were computed anew, where they were, and which records of
    changes were put aside.
    """

    how: str
    strategy: str
    rows: list[int]
    seconds: list[float | None]
    sizes: dict[str, Size]
    readers: list[str]
    time: str = ""
    anew: str = ""
    aside: str = ""

    @property
    def work(self) -> int:
        """The work of all steps."""
        return sum(self.rows)

    def changed(self, names: Iterable[str]) -> int:
        """How many rows of these views the night changed."""
        return sum(self.sizes[name].changed for name in names if name in self.sizes)


def sizes_in(text: str) -> dict[str, Size]:
    """The sizes that a report ends with. How many rows a view had before a first night may be left open."""
    records = list(filter(None, text.partition(f"{HEADER}\n")[2].splitlines()))
    cells = (record.split(",")[:4] for record in records)
    return {name: Size.of_cells(numbers) for name, *numbers in cells}


def told(text: str) -> Told:
    """What the text of a report says."""
    lines = text.splitlines()
    found = [match for match in map(STEP.match, lines) if match]
    strategy = "".join(f"{match[1]}\n" for match in found)
    readers = [line for line in lines if line.startswith("reader ")]
    how, time_of_all = text.partition("\n")[0], next((line for line in lines if line.startswith(TIME)), "")
    rows, seconds = [int(match[2]) for match in found], [float(match[3]) if match[3] else None for match in found]
    anew = next((line.removeprefix(ANEW).removesuffix(COUNTED) for line in lines if line.startswith(ANEW)), "")
    aside = next((line for line in lines if line.startswith(ASIDE)), "")
    return Told("" if STEP.match(how) else how, strategy, rows, seconds, sizes_in(text), readers, time_of_all.removeprefix(TIME), anew, aside)


class Night:
    """A night: a version with the one before it, or the preview in new/. Both are held until they are let go. What the program worked out
    is told by `told`; `shown` has how many rows of each view one who reads versions saw before, sees now, and how many of them differ.
    """

    def __init__(self, folder: Path, number: int | None = None, is_preview: bool = False) -> None:
        self.folder, self.number, self.kept = folder, number, ExitStack()
        if number is None and not is_preview:
            self.number = named(folder)
        if self.number is None and not (folder / "new/report.txt").is_file():
            raise Failure(BAD_INPUT, without_night(folder, is_preview))
        if self.number is not None:
            self.kept.enter_context(Held(folder, self.number))
            judge_kind(folder, self.number)
        self.number_before = number_before(folder, self.number)
        self.before = None if self.number_before is None else self.held(self.number_before)
        self.report = self.root / "report.txt"
        if not self.report.is_file():
            raise Failure(BAD_WORDS, f"version {self.number} of {folder} is of before its first night, and has no report")
        self.told = told(self.report.read_text())
        self.shown, self.catalogue = shown(self.told.sizes), self.own_catalogue()
        self.views = [view for view in self.catalogue.views if view.name in self.told.sizes]
        self.strategy = Strategy(self.told.strategy, self.views)

    def own_catalogue(self) -> Catalogue:
        """The catalogue that the night went by."""
        if self.number is not None:
            return catalogue_of(self.folder, self.number)
        return Catalogue(self.root if (self.root / CATALOGUE).is_file() else self.folder, lenient=True)

    def count(self, tables: Mapping[str, Stored]) -> None:
        """Counts how many rows the views had before the night, where its report leaves that open and their tables of then are known."""
        sizes = dict(self.told.sizes)
        for view in self.views:
            if sizes[view.name].before is None and view.name in tables:
                sizes[view.name] = sizes[view.name]._replace(before=tables[view.name].rows)
        self.told, self.shown = self.told._replace(sizes=sizes), shown(sizes)

    def compare(self, rows: Mapping[str, Changed | None]) -> None:
        """Has what is shown of views that were computed anew be what their rows say, compared with those of the version before."""
        for view in self.views if self.told.anew else ():
            if not view.is_base:
                found, after = rows[view.name], self.told.sizes[view.name].after
                self.shown[view.name] = Shown(found.before, after, found.moved) if found else Shown(None, after, None)

    @property
    def knows_sizes(self) -> bool:
        """Whether it is known of each view how many rows it had."""
        return all(size.before is not None for size in self.told.sizes.values())

    def held(self, number: int) -> Path | None:
        """The place of the version before, which is held as well; None where it is no longer there."""
        try:
            return self.kept.enter_context(Held(self.folder, number)).path
        except Failure:
            return None

    @property
    def root(self) -> Path:
        """Where the night's files lie."""
        return self.folder / "new" if self.number is None else place(self.folder, self.number)

    @property
    def title(self) -> str:
        """The night in words."""
        return "preview" if self.number is None else f"version {self.number}"

    @property
    def made(self) -> str:
        """When the night's report was written."""
        return time.strftime("%Y-%m-%d %H:%M", time.localtime(self.report.stat().st_mtime))

    @property
    def bases(self) -> list[str]:
        """The names of the base views."""
        return [view.name for view in self.views if view.is_base]

    def steps(self) -> list[Step]:
        """The steps, by the sizes that the night had."""
        return [Step(self.strategy, number, self.told.sizes) for number in range(len(self.strategy.expressions))]

    # ---- files

    def table_after(self, view: CatalogueView) -> Path:
        """The table of after the night."""
        kind = "data" if view.is_base else "views"
        return self.root / f"{view.name}.csv" if self.number is None else self.root / kind / f"{view.name}.csv"

    def table_before(self, view: CatalogueView) -> Path | None:
        """The table of before the night, or None where it is no longer there or never was."""
        root = self.before or (self.folder if self.number is None and named(self.folder) is None else None)
        files = [root / ("data" if view.is_base else "views") / f"{view.name}.csv"] if root else []
        # A base view that is new has the table that was given for it.
        given = self.folder / "data" if self.number is None else self.root / "given"
        files += [given / f"{view.name}.csv"] if view.is_base else []
        return next((file for file in files if file.is_file()), None)

    def changes(self, view: CatalogueView) -> list[Path]:
        """The files of changes of a view that the version keeps."""
        delta = self.root / "deltas" / f"{view.name}.csv"
        if delta.is_file():
            return [delta]
        return [source.path for source in by_view(self.root / "changes", "changes", CHANGES).get(view.name, ())]

    def history(self) -> dict[Version, Told]:
        """What each night that is kept said, up to this one, by its version."""
        numbers = [each for each in whole(self.folder) if self.number is None or each <= self.number]
        files = [(each, place(self.folder, each) / "report.txt") for each in numbers]
        found: dict[Version, Told] = {}
        for number, file in files:
            try:
                found[number] = told(file.read_text())
            except OSError:
                continue
        return found if self.number is not None else found | {"preview": self.told}


def shown(sizes: Mapping[str, Size]) -> dict[str, Shown]:
    """What is shown of views, as the night's report has it."""
    return {name: Shown(size.before, size.after, size.changed) for name, size in sizes.items()}


def without_night(folder: Path, is_preview: bool) -> str:
    """That there is nothing to report, and what makes it."""
    if is_preview:
        return f"there is no preview in {folder}; `whview folder night {folder}` makes one"
    return f"there is no night in {folder} yet; `whview folder night {folder} --commit` carries one out"


def judge_kind(folder: Path, number: int) -> None:
    """That a rollback has no night of its own to tell of."""
    manifest = found_manifest(place(folder, number))
    if manifest and manifest.kind == ROLLBACK:
        told = f"version {number} of {folder} is a rollback to version {manifest.of}, and no night"
        raise Failure(BAD_WORDS, f"{told}; `whview folder report {folder} {manifest.of}` tells of that version's, `log` of all")


def number_before(folder: Path, number: int | None) -> int | None:
    """The number of the version before a night, which is the current one before a preview."""
    if number is None:
        return named(folder)
    manifest = found_manifest(place(folder, number))
    return manifest.parent if manifest else number - 1 if number else None
