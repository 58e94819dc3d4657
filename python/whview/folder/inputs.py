"""The files that a night reads: the tables that it starts from, and its changes; and files beside them that nothing reads."""

from __future__ import annotations

import os
import re
from collections.abc import Collection, Sequence
from pathlib import Path
from typing import TYPE_CHECKING, NamedTuple

from ..disk import what
from ..finding import Finding, Place, nearest
from .versions import DELTAS, State
from .vouched import Vouched

if TYPE_CHECKING:
    from ..catalogue.from_toml import Catalogue

TABLE, CHANGES = re.compile(r"(.+)\.csv"), re.compile(r"([A-Za-z_][A-Za-z0-9_]*)(?:\.([1-9][0-9]*))?\.csv")
# The note of a batch, which goes with its changes.
BATCH = re.compile(r"[^.].*\.batch")
LINK = "this is a link, and a night takes the file itself; put the file in"
FORMS = {"data": "NAME.csv", "changes": "NAME.csv, NAME.1.csv, NAME.2.csv and so on"}


class Source(NamedTuple):
    """A file that is read: where it lies, the name by which it is told, whether it is a table that a night has made by this catalogue, and
    whether that night saw each record of its tables to be a line.
    """

    path: Path
    told: str
    is_made: bool = False
    is_in_lines: bool = False


class Taking(NamedTuple):
    """A file that a night takes, and the folder of its version to which it goes."""

    kind: str
    source: Source


def entries(folder: Path) -> list[Path]:
    """What lies in a folder, but for what is hidden."""
    return sorted(path for path in folder.glob("*") if not path.name.startswith(".")) if folder.is_dir() else []


def by_view(folder: Path, told: str, form: re.Pattern[str]) -> dict[str, list[Source]]:
    """The files of this form, by the name of the view that they are of; those of one view in the order of their numbers."""
    found: list[tuple[str, int, Source]] = []
    for path in entries(folder):
        match = form.fullmatch(path.name)
        if match and path.is_file():
            number = int(match[2] or 0) if form.groups > 1 else 0
            found.append((match[1], number, Source(path, f"{told}/{path.name}")))
    listed: dict[str, list[Source]] = {}
    for name, _, source in sorted(found):
        listed.setdefault(name, []).append(source)
    return listed


def tables(folder: Path, told: str) -> dict[str, Source]:
    """The tables in a folder, by the names of their views."""
    return {name: sources[0] for name, sources in by_view(folder, told, TABLE).items()}


class Inputs:
    """The files of a folder's next night. A night that is under way has taken them to where its version is made."""

    def __init__(self, folder: Path, part: Path | None = None, accepted: Sequence[str] = ()) -> None:
        self.folder, self.state = folder, State(folder)
        self.vouched = Vouched(folder, self.state, accepted)
        self.places = {"data": part / "given", "changes": part / "changes"} if part else {kind: folder / kind for kind in FORMS}
        self.changes = by_view(self.places["changes"], "changes", CHANGES)
        self.carried = tables(self.state.root / "data", self.state.told)
        self.later = self.vouched.later
        if self.state.number and self.is_catalogue_as_before() and not self.later:
            # A night has deltas only where it saw that.
            is_in_lines = (self.state.root / DELTAS).is_dir()
            self.carried = {name: source._replace(is_made=True, is_in_lines=is_in_lines) for name, source in self.carried.items()}
        self.given = {} if self.state.number is None else tables(self.places["data"], "data")

    def is_catalogue_as_before(self) -> bool:
        """Whether the catalogue is that of the version, so that its tables have been judged by it."""
        files = [folder / "catalogue.toml" for folder in (self.folder, self.state.root)]
        return all(file.is_file() for file in files) and files[0].read_bytes() == files[1].read_bytes()

    @property
    def kept(self) -> dict[str, Source]:
        """The tables that nights have kept, by the names of their views."""
        return {} if self.state.number is None else self.carried

    def table(self, name: str) -> Source | None:
        """The table of a base view, or None."""
        return self.carried.get(name) or self.given.get(name)

    def to_take(self, bases: Sequence[str]) -> list[Taking]:
        """What a night of these base views takes: all files of changes, and the tables that no version has."""
        changes = [Taking("changes", source) for name in bases for source in self.changes.get(name, ())]
        return changes + [Taking("given", self.given[name]) for name in bases if name in self.given and name not in self.carried]

    def sizes(self) -> dict[str, int]:
        """How large each file is that a bundle has as it is, so that it is no smaller."""
        single = [sources[0] for sources in self.changes.values() if len(sources) == 1]
        texts = [Source(self.folder / name, name) for name in ("catalogue.toml", "strategy.txt") if (self.folder / name).is_file()]
        return {source.told: source.path.stat().st_size for source in [*texts, *self.carried.values(), *self.given.values(), *single]}

    # ---- what is not read

    def findings(self, catalogue: Catalogue) -> list[Finding]:
        """Files that nothing reads, and tables that no night carries on."""
        bases = [view.name for view in catalogue.views if view.is_base]
        found = self.vouched.findings(bases) + self.unread()
        for kind, form in (("data", TABLE), ("changes", CHANGES)):
            for path in entries(self.places[kind]):
                found += filter(None, [self.judge(kind, form, path, bases, catalogue.names)])
        found += [Finding(Place(self.carried[name].told), self.not_carried_on(name), True) for name in self.left(bases)]
        return found

    def left(self, bases: Sequence[str]) -> list[str]:
        """The tables of the version that are of no base view any more, by their names."""
        return [name for name in self.carried if name not in bases] if self.state.number is not None and bases else []

    def not_carried_on(self, name: str) -> str:
        """What is told of such a table."""
        return f"{name} is no base view; its table is not carried on, and no night is kept but with `--drop {name}`"

    def unread(self) -> list[Finding]:
        """A strategy or sizes that stand there, and are no file, such as a link that leads nowhere: a night must not go on without them."""
        named = (self.folder / name for name in ("strategy.txt", "sizes.csv"))
        found = [path for path in named if os.path.lexists(path) and not path.is_file()]
        return [Finding(Place(path.name), f"this {what(path)} is no file that can be read; put one here, or take it away") for path in found]

    def judge(self, kind: str, form: re.Pattern[str], path: Path, bases: Sequence[str], names: Collection[str]) -> Finding | None:
        """What is wrong with a file of `data` or `changes`, or None."""
        place, match = Place(f"{kind}/{path.name}"), form.fullmatch(path.name)
        if kind == "changes" and BATCH.fullmatch(path.name) and path.is_file():
            return Finding(place, LINK) if path.is_symlink() else None
        if not match or not path.is_file():
            near = nearest(path.name, [f"{name}.csv" for name in bases])
            text = f"this {what(path)} is not read: {kind}/ has files {FORMS[kind]} alone; move it away{near}"
            return Finding(place, text)
        if match[1] not in bases:
            return Finding(place, stranger(match[1], bases, names)) if names else None
        if path.is_symlink() and not (kind == "data" and self.state.number is None):
            return Finding(place, LINK)
        if kind == "data" and self.state.number is not None and match[1] in self.carried:
            return self.second(place, path, self.carried[match[1]])
        return None

    def second(self, place: Place, path: Path, carried: Source) -> Finding | None:
        """A table in data/ of a view whose table is the version's; one of the same bytes does no harm."""
        if path.read_bytes() == carried.path.read_bytes():
            return None
        return Finding(place, f"{place.file} is not looked at: the table of {path.stem} is {carried.told}; move it away")


def stranger(name: str, bases: Sequence[str], names: Collection[str]) -> str:
    """What is wrong with a file whose name is no base view's."""
    if name in names:
        return f"{name} is derived; only base views have data and changes"
    for base in bases:
        if base.lower() == name.lower():
            return f"there is no view {name}; {base} differs in case alone"
    return f"there is no view {name}{nearest(name, bases)}"
