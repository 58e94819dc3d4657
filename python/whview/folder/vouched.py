"""What the current version says of its files, and which of them are not as it says. Of a version of before there were manifests those are
told that are newer than its folder, in which they were made.
"""

from __future__ import annotations

import re
from collections.abc import Sequence
from functools import cached_property
from pathlib import Path
from typing import TYPE_CHECKING

from ..finding import Finding, Place
from .identity import identity_of
from .manifest import FILE, Difference, NoManifest, differing, read_manifest
from .seen import seen
from .versions import VERSIONS

if TYPE_CHECKING:
    from .manifest import Entry, Manifest
    from .versions import State

# What a night goes on from: the tables, the catalogue that they are of, and the report that says how many rows they have.
READ, TABLE = re.compile(r"(?:data|views)/.+\.csv|catalogue\.toml|report\.txt"), re.compile(r"data/(.+)\.csv")
WRITTEN = "this was written after its night, and a version never changes; it is judged again, and all derived views are made anew"


class Vouched:
    """The current version beside its manifest. What is `accepted` was told by somebody to be taken as it is."""

    def __init__(self, folder: Path, state: State, accepted: Sequence[str] = ()) -> None:
        self.folder, self.state, self.accepted, self.fault = folder, state, accepted, ""
        self.manifest = self.found(state.number) if state.number is not None else None
        self.newer: list[Path] = self.written_later() if self.is_of_before else []
        self.differences = differing(state.root, self.manifest, seen=seen(folder, self.manifest)) if self.manifest else []

    @property
    def is_of_before(self) -> bool:
        """Whether the version is of before there were manifests; the tables that a folder began with are judged by the first night."""
        return bool(self.state.number) and not self.manifest and not self.fault

    def found(self, number: int) -> Manifest | None:
        """The manifest of the version with this number, where it has its own."""
        try:
            manifest, identity = read_manifest(self.state.root), identity_of(self.folder)
        except NoManifest as cause:
            if number > identity_of(self.folder).unvouched:
                self.fault = str(cause)
            return None
        if manifest.version != number or not identity.knows(manifest.folder, manifest.version):
            self.fault = f"its {FILE} is that of another version"
            return None
        return manifest

    def written_later(self) -> list[Path]:
        """The tables of the version that are newer than its folder."""
        root = self.state.root
        made = root.stat().st_mtime_ns
        files = [path for kind in ("data", "views") for path in (root / kind).glob("[!.]*")]
        return [path.relative_to(self.folder) for path in sorted(files) if path.is_file() and path.stat().st_mtime_ns > made]

    @property
    def later(self) -> list[str]:
        """What a night would go on from, and is not as it was made; the derived views are then made anew."""
        newer = list(map(str, self.newer))
        differing_ones = [f"{VERSIONS}/{self.state.number}/{each.file}" for each in self.differences if READ.fullmatch(each.file)]
        return newer + differing_ones + [f"{VERSIONS}/{self.state.number}/{FILE}"] * bool(self.fault)

    def is_as_made(self, file: str) -> bool:
        """Whether a file of the version is as its manifest says, where there is one."""
        return all(each.file != file for each in self.differences)

    @cached_property
    def untouched(self) -> dict[str, Entry]:
        """The entries of the files that are as the manifest says, by their names."""
        differ = {each.file for each in self.differences}
        return {name: entry for name, entry in self.manifest.files.items() if name not in differ} if self.manifest else {}

    # ---- what is told

    def findings(self, bases: list[str]) -> list[Finding]:
        """What is not as it was made. A base view's table that is not ends a night, unless somebody accepted it."""
        found = [Finding(Place(str(path)), WRITTEN, True) for path in self.newer]
        if self.fault:
            found.append(self.told(FILE, f"version {self.state.number} does not vouch for itself: {self.fault}", True))
        return found + [self.finding(each, bases) for each in self.differences]

    def finding(self, difference: Difference, bases: list[str]) -> Finding:
        """What is told of a file."""
        table = TABLE.fullmatch(difference.file)
        return self.told(difference.file, f"this is not as its night made it: {difference.how}", bool(table and table[1] in bases))

    def told(self, file: str, text: str, is_fault: bool) -> Finding:
        """A fault, or a warning where a night can go on."""
        place, is_accepted = Place(f"{VERSIONS}/{self.state.number}/{file}"), file in self.accepted
        if is_fault and not is_accepted:
            back = f"`whview folder rollback {self.folder} VERSION` goes back to a version that is whole"
            return Finding(place, f"{text}; put it back from a backup, or {back}, or `night --accept {file}` takes it as it is")
        anew = "; it is taken as it is" * is_fault + "; all derived views are made anew" * bool(READ.fullmatch(file) or is_fault)
        return Finding(place, text + anew, True)
