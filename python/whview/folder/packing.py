"""A folder of files as a bundle.

A folder has any of these files: catalogue.toml, data/NAME.csv, which a version has where there is one, changes/NAME.csv, strategy.txt,
sizes.csv, plan.txt, schedule.txt. Further nights are folders of nights/, in the order of their names, with changes/NAME.csv and
strategy.txt each. A file that is missing gives no part of the bundle, and an empty one gives a part with no lines. Several files of
changes of one view make one part.
"""

from __future__ import annotations

import csv
import io
from collections import Counter
from collections.abc import Mapping, Sequence
from pathlib import Path
from typing import TYPE_CHECKING

from ..bundle import part
from ..catalogue.from_toml import Catalogue
from ..finding import MARK
from .fill import filled
from .inputs import CHANGES, Inputs, by_view
from .written import text_of

if TYPE_CHECKING:
    from .inputs import Source

AFTER = ("sizes.csv", "plan.txt", "schedule.txt")
READ = ("catalogue.toml", "strategy.txt", *AFTER, "graph.dot", "graph.svg")
# What the nights make, those of before there were versions too; and what is judged by itself.
OWN: tuple[str, ...] = ("data", "changes", "versions", "versions.part", "current", "current.part", "new", "new.part", "new.old")
OWN += ("views", "before", "commit", "commit.part", "reports", "backup.txt", "quarantine")


def merged(contents: Sequence[bytes]) -> bytes:
    """The content of several files of changes: the header, and each row with the sum of its counts."""
    if len(contents) == 1:
        return contents[0]
    header: list[str] = []
    rows: Counter[tuple[str, ...]] = Counter()
    for content in contents:
        text = content.removeprefix(MARK).decode(errors="surrogateescape")
        records = list(filter(None, csv.reader(io.StringIO(text, newline=""))))
        if not records or records[0] != (header or records[0]):
            raise ValueError("the files of changes of one view have headers that differ")
        header = records[0]
        for count, *cells in records[1:]:
            rows[tuple(cells)] += int(count)
    return text_of([header, *([str(count), *row] for row, count in rows.items() if count)]).encode(errors="surrogateescape")


def nights(folder: Path) -> list[Path]:
    """The folders of the nights after the first one."""
    return sorted(path for path in (folder / "nights").glob("*") if path.is_dir())


def file_part(file: Path) -> list[bytes]:
    """The part of a file whose heading is its name, or none where it is missing."""
    return [part(file.stem, file.read_bytes())] if file.is_file() else []


def night_parts(changes: Mapping[str, list[Source]], strategy: Path) -> list[bytes]:
    """The parts of a night: its changes by view, and its strategy."""
    merged_of = ((name, merged([source.path.read_bytes() for source in sources])) for name, sources in changes.items())
    return [part(f"changes {name}", content) for name, content in merged_of] + file_part(strategy)


def tables(folder: Path, inputs: Inputs) -> dict[str, Source]:
    """The tables of a bundle by the names of their views; of a version those that its base views still have."""
    bases = {view.name for view in Catalogue(folder).views if view.is_base}
    found = inputs.given | inputs.carried
    is_taken = inputs.state.number is None or not bases
    return {name: source for name, source in sorted(found.items()) if is_taken or name in bases}


def grown(folder: Path, inputs: Inputs, name: str, content: bytes) -> bytes:
    """A table with the columns that its view has more, where it is a kept one."""
    view = next((view for view in Catalogue(folder).views if view.name == name and view.columns), None)
    found = filled(content, view) if view and name in inputs.kept else None
    return found.content if found else content


def pack(folder: Path) -> bytes:
    """The bundle of a folder."""
    inputs = Inputs(folder)
    parts = file_part(folder / "catalogue.toml")
    for name, source in tables(folder, inputs).items():
        parts.append(part(f"data {name}", grown(folder, inputs, name, source.path.read_bytes())))
    parts += night_parts(inputs.changes, folder / "strategy.txt")
    for name in AFTER:
        parts += file_part(folder / name)
    for night in nights(folder):
        parts += [b"@night\n", *night_parts(by_view(night / "changes", "changes", CHANGES), night / "strategy.txt")]
    return b"".join(parts)


def left_out(folder: Path) -> list[Path]:
    """The files of a folder that are no part of a bundle, but for those of data/ and changes/, and hidden ones."""
    read = {folder / name for name in READ}
    for night in nights(folder):
        read.add(night / "strategy.txt")
        read.update(source.path for sources in by_view(night / "changes", "changes", CHANGES).values() for source in sources)
    tops = [path for path in folder.iterdir() if path.name not in OWN and not path.name.startswith(".")]
    found = [path for top in tops for path in [top, *top.rglob("*")]]
    return sorted(path for path in found if path.is_file() and path not in read)
