"""A warehouse folder as it is: its catalogue, tables and changes, read once, with all findings."""

from __future__ import annotations

from collections import Counter
from collections.abc import Mapping, Sequence
from pathlib import Path
from types import MappingProxyType
from typing import TYPE_CHECKING

from ..bundle import part_pieces
from ..catalogue.from_toml import Catalogue
from ..finding import Failure, Finding, Place
from ..limits import bundle_sizes, over_the_limit
from ..status import BAD_INPUT, REFUSED
from . import fill
from .inputs import Inputs
from .packing import left_out
from .records import Changes, Records, absent

if TYPE_CHECKING:
    from ..catalogue.from_toml import CatalogueView
    from ..catalogue.views import Row
    from .aside import Aside
    from .inputs import Source
    from .piece_sums import Pieces

# What a text of a catalogue has that goes over lines, or names a line end.
LONG_TEXTS = (b"\\", b'"""', b"'''")


class Folder:
    """What a folder holds. Where it has faults, what is read may be cut short. A night under way has taken its changes to a folder
    of its own, `taken`. The tables that were `judged` already, by the names of their views, are not judged again. Of a folder that is
    `for_night` tables wait for the program, where they can, which judges them as it reads them. Files of the version that were `accepted`
    are taken as they are. One that `sifts` puts aside what is wrong in changes.
    """

    def __init__(
        self,
        path: Path,
        taken: Path | None = None,
        lenient: bool = False,
        judged: Mapping[str, Records] = MappingProxyType({}),
        for_night: bool = False,
        accepted: Sequence[str] = (),
        sifts: bool = False,
    ) -> None:
        self.judged, self.taken, self.for_night, self.accepted = judged, taken, for_night and not sifts, accepted
        self.sifts = sifts
        self.asides: list[Aside] = []
        self.path, self.catalogue, self.inputs = path, Catalogue(path, lenient), Inputs(path, taken, accepted)
        self.views, self.state = self.catalogue.views, self.inputs.state
        self.findings = self.catalogue.findings + self.inputs.findings(self.catalogue)
        self.data: dict[str, Records] = {}
        self.changes: dict[str, Changes] = {}
        # The tables after the changes, as far as they were asked for; and the rows that leave and are not there.
        self.tables: dict[str, Pieces] = {}
        self.absent: list[Finding] = []
        self.judge_other_files()
        most = self.catalogue.max_bytes
        too_large = over_the_limit(self.inputs.sizes(), said=most)
        for view in self.views:
            if view.is_base and view.columns:
                self.read(view, not too_large)
        self.findings += self.absent + (too_large or over_the_limit(bundle_sizes(self), said=most))

    def sound_tables(self) -> dict[str, Records]:
        """The tables that are seen to have no fault, by the names of their views."""
        return {name: records for name, records in self.data.items() if records.is_sound}

    @property
    def waits(self) -> bool:
        """Whether tables wait to be judged."""
        return any(records.waits and not records.is_taken for records in self.data.values())

    def take_tables(self) -> None:
        """Has the tables that waited be without a fault, since the program took them."""
        for records in self.data.values():
            records.is_taken = records.waits

    def wholly(self) -> Folder:
        """The folder with all tables judged."""
        return Folder(self.path, self.taken, accepted=self.accepted, sifts=self.sifts) if self.waits else self

    @property
    def faults(self) -> list[Finding]:
        return [finding for finding in self.findings if not finding.warns]

    @property
    def warnings(self) -> list[Finding]:
        return [finding for finding in self.findings if finding.warns]

    @property
    def bases(self) -> list[CatalogueView]:
        return [view for view in self.views if view.is_base]

    def read(self, view: CatalogueView, is_small: bool) -> None:
        """Reads the table and the changes of a base view, where the folder is not too large to be read."""
        table, changes = self.inputs.table(view.name), self.inputs.changes.get(view.name)
        if table is None:
            header = ",".join(name for name, _ in view.columns)
            text = f"there is no data/{view.name}.csv; an empty table is a file with its header: {header}"
            self.findings.append(Finding(view.place("name", 0), text))
        if table and is_small:
            known = self.judged.get(view.name)
            judged = known.copied(table) if known else None
            records = self.data[view.name] = judged or Records(table, view, False, view.name in self.inputs.kept)
            self.findings += grown(records)
            if judged or not (self.for_night and records.wait()):
                self.findings += records.findings
        if changes and is_small:
            self.changes[view.name] = self.sifted(changes, view) if self.sifts else Changes(changes, view)
            self.findings += self.changes[view.name].findings
        self.judge_leaving(view.name)

    def judge_leaving(self, name: str) -> None:
        """Finds the rows of a view's changes that leave and are not there, where both have been judged and have no fault."""
        data, changes = self.data.get(name), self.changes.get(name)
        if data and changes and not data.waits and not data.findings and not changes.findings:
            self.absent += absent(data, changes)

    def sifted(self, sources: Sequence[Source], view: CatalogueView) -> Changes:
        """The changes of a view without what is put aside, which is told."""
        # What most nights do not need is imported where it is needed.
        from .aside import sifted

        changes, asides = sifted(sources, view, self.data.get(view.name))
        self.findings += [Finding(reason.place, f"put aside: {reason.text}", True) for aside in asides for reason in aside.reasons]
        self.asides += asides
        return changes

    def judge_other_files(self) -> None:
        """Files that are no part of a bundle."""
        for path in left_out(self.path):
            text = "this file is no part of a warehouse, and is not looked at"
            self.findings.append(Finding(Place(str(path.relative_to(self.path))), text, True))

    def rolled(self, view: CatalogueView) -> Counter[Row]:
        """The rows of a base view after its changes."""
        rows = Counter(self.data[view.name].rows)
        for row, count in self.changes[view.name].rows.items() if view.name in self.changes else ():
            rows[row] += count
        return rows

    def after(self, view: CatalogueView) -> Pieces:
        """The table of a base view after its changes, in pieces."""
        if view.name not in self.tables:
            changes = self.changes.get(view.name)
            self.tables[view.name] = self.data[view.name].after(changes.rows if changes else Counter())
        return self.tables[view.name]

    def is_unchanged(self, view: CatalogueView) -> bool:
        """Whether a base view's table is one that a night has made, and stays."""
        records = self.data[view.name]
        if records.new_columns or any(self.changes[view.name].rows.values() if view.name in self.changes else ()):
            return False
        return records.is_made and records.header.is_counted or records.own is records.content

    @property
    def has_lines(self) -> bool:
        """Whether it is seen that no text goes over lines, so that each record of a derived table is a line too."""
        read = [*self.data.values(), *(records for changes in self.changes.values() for records in changes.files)]
        return not any(mark in self.catalogue.content for mark in LONG_TEXTS) and all(records.has_lines for records in read)

    def bundle(self, strategy: str, with_changes: bool = True) -> list[bytes]:
        """The bundle of one night with this strategy, in pieces."""
        parts = part_pieces("catalogue", self.catalogue.content)
        for name, records in self.data.items():
            parts += part_pieces(f"data {name}", records.content)
        for name, changes in self.changes.items() if with_changes else ():
            parts += part_pieces(f"changes {name}", changes.content)
        return parts + part_pieces("strategy", strategy.encode())


def grown(records: Records) -> list[Finding]:
    """What is told of the columns that come to a kept table, a warning each."""
    view, text = records.view, "{} is new in {}; its rows that stand have {!r} in it"
    return [Finding(view.place(fill.KEY), text.format(name, view.name, view.table[fill.KEY][name]), True) for name in records.new_columns]


def judged(folder: Folder) -> Folder:
    """The folder. Where it has faults, they end the command; rows that are not there alone are a refused night."""
    found = folder.wholly() if folder.faults else folder
    if found.faults:
        raise fault_of(found, found.warnings)
    return found


def fault_of(folder: Folder, warnings: Sequence[Finding] = ()) -> Failure:
    """How a command ends by the faults of a folder."""
    return Failure(REFUSED if folder.faults == folder.absent else BAD_INPUT, *warnings, *folder.faults)


def sound(path: Path) -> Folder:
    """The folder at a path, which has no fault."""
    return judged(Folder(path))
