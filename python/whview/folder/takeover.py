"""A folder without versions, taken over by its first night that is kept.

The tables of a new folder become the first version, once its night is carried out. Of one as it was before there were versions the
tables, and those of the nights before that it still has, become versions; one rename of versions.part/ decides. What there was is removed
where a version has the same bytes. A commit that was stopped then stands in commit/, and counts: `data`, `changes` and `views` were moved
in this order, each from the folder to commit/old/ and from commit/ to the folder.
"""

from __future__ import annotations

import os
from collections import Counter
from collections.abc import Mapping
from contextlib import suppress
from pathlib import Path
from typing import TYPE_CHECKING, NamedTuple

from ..catalogue.from_toml import Catalogue
from ..disk import copy, has_pieces, is_same, keep, remove, sync, write
from ..finding import Failure, warn
from ..status import BAD_INPUT
from .claim import Look, give_back, look
from .folder import Folder, judged
from .identity import identity_of
from .inputs import Source, entries
from .manifest import FIRST, TAKEN_OVER
from .records import Records
from .versions import VERSIONS, State, free, named, place, point, turn, whole
from .vouched import Vouched
from .vouching import blank, vouch, with_name

if TYPE_CHECKING:
    from ..catalogue.from_toml import CatalogueView
    from ..catalogue.views import Row
    from .identity import Identity
    from .interrupts import Interrupts
    from .manifest import Manifest

PENDING, SCRAP, BEFORE, MADE = "commit", "commit.part", "before", "versions.part"
OLD = (BEFORE, PENDING, "views", "report.txt")


class Stage(NamedTuple):
    """What becomes a version: the folders of its data, its views, and the changes that led to it, each of which may be missing."""

    data: Path
    views: Path
    changes: Path | None = None


class Move(NamedTuple):
    """A file of changes that is to be moved away, to where, and how it looked as it was read."""

    file: Path
    moved: Path
    seen: Look


def is_new(folder: Path) -> bool:
    """Whether a folder has neither versions nor anything of before there were any."""
    return not whole(folder) and not any((folder / name).exists() for name in (*OLD, SCRAP))


def is_pending(folder: Path) -> bool:
    """Whether a commit was begun and is not done, by the rules of before there were versions."""
    return (folder / SCRAP).exists() or (folder / PENDING).exists()


def older(folder: Path, name: str) -> Path:
    """Where one of the folders that the pending commit takes the place of is."""
    moved = folder / PENDING / "old" / name
    return folder / name if (folder / PENDING / name).exists() and not moved.exists() else moved


def newer(folder: Path, name: str) -> Path:
    """Where one of the folders that the pending commit made is."""
    return folder / PENDING / name if (folder / PENDING / name).exists() else folder / name


def stages(folder: Path) -> list[Stage]:
    """What becomes versions, the oldest first."""
    before, pending = folder / BEFORE / "old", folder / PENDING
    found = [Stage(before / "data", before / "views")]
    if pending.exists():
        found.append(Stage(older(folder, "data"), older(folder, "views"), before / "changes"))
    found.append(Stage(newer(folder, "data"), newer(folder, "views"), (pending / "old" if pending.exists() else before) / "changes"))
    tables = [{path.name for path in entries(stage.data) if path.suffix == ".csv"} for stage in found]
    # What was being removed when it was stopped has not all tables any more.
    return [stage for stage, there in zip(found, tables) if there and there >= tables[-1]] or found[-1:]


# ---- the changes that a pending commit carried out


def rows(folder: Path, name: str, view: CatalogueView) -> Counter[Row]:
    """The rows of a table of before there were versions."""
    file = folder / f"{view.name}.csv"
    records = Records(Source(file, name), view, False) if file.is_file() else None
    if records and records.findings:
        raise Failure(BAD_INPUT, *records.findings)
    return records.rows if records else Counter()


def difference(folder: Path, view: CatalogueView) -> dict[Row, int]:
    """The changes of a base view that the pending commit carried out."""
    after, before = (rows(where, f"{where.name}/{view.name}.csv", view) for where in (newer(folder, "data"), older(folder, "data")))
    counts = {row: after[row] - before[row] for row in after.keys() | before.keys()}
    return {row: count for row, count in counts.items() if count}


def to_move(folder: Path, view: CatalogueView) -> Move | None:
    """The file of changes that the pending commit carried out and did not move away; None where there is none."""
    file, moved = folder / "changes" / f"{view.name}.csv", folder / PENDING / "old/changes" / f"{view.name}.csv"
    if moved.exists() or not file.is_file():
        return None
    wanted = difference(folder, view)
    if not wanted:
        return None
    seen, records = look(file), Records(Source(file, f"changes/{view.name}.csv"), view, True)
    if records.findings or {row: count for row, count in records.rows.items() if count} != wanted:
        raise Failure(BAD_INPUT, unlike(folder, records.file))
    return Move(file, moved, seen)


def unlike(folder: Path, file: str) -> str:
    """That a file of changes is not what the pending commit carried out, and what to do."""
    told = f"a commit was stopped in {folder}, and {file} is not what it carried out"
    return f"{told}; move the next changes out of changes/, run `whview folder night {folder} --commit`, and put them back"


def move_changes(folder: Path) -> None:
    """Moves away the changes that the pending commit carried out, and those alone. Where others lie among them nothing is touched."""
    if not (folder / PENDING / "changes").exists():
        return
    catalogue = Catalogue(folder)
    if any(not finding.warns for finding in catalogue.findings):
        raise Failure(BAD_INPUT, *catalogue.findings)
    found = [to_move(folder, view) for view in catalogue.views if view.is_base]
    os.makedirs(folder / PENDING / "old/changes", exist_ok=True)
    for file, moved, seen in filter(None, found):
        os.rename(file, moved)
        if look(moved) != seen:
            give_back(moved, folder / "changes")
            moved.unlink(missing_ok=True)
            raise Failure(BAD_INPUT, unlike(folder, f"changes/{file.name}"))
    sync(folder / PENDING / "old/changes")
    os.rmdir(folder / PENDING / "changes")
    os.makedirs(folder / "changes", exist_ok=True)


# ---- versions


def lay(stage: Stage, version: Path) -> None:
    """Makes a version of a stage, whose report lies among its views."""
    for name, old in (("data", stage.data), ("views", stage.views), ("changes", stage.changes)):
        os.makedirs(version / name)
        for file in entries(old) if old else ():
            if file.suffix == ".csv" and file.is_file():
                copy(file, version / name / file.name)
    if (stage.views / "report.txt").is_file():
        copy(stage.views / "report.txt", version / "report.txt")


def make(folder: Path, part: Path) -> None:
    """Makes the versions, each with its manifest, and the link to the newest."""
    found, identity = stages(folder), with_name(folder, identity_of(folder))
    for number, stage in enumerate(found):
        lay(stage, part / str(number))
    keep(part)
    parent: Manifest | None = None
    for number in range(len(found)):
        above = (parent.version, parent.sum) if parent else (None, "")
        manifest = blank(identity, number, TAKEN_OVER)._replace(parent=above[0], parent_sum=above[1])
        parent = vouch(part / str(number), manifest)
    point(folder, len(found) - 1)


def decide(folder: Path, interrupts: Interrupts) -> None:
    """Makes the versions, which count by a rename."""
    part = folder / MADE
    remove(part)
    try:
        make(folder, part)
    except BaseException:
        remove(part)
        raise
    with interrupts.put_off():
        os.rename(part, folder / VERSIONS)
        turn(folder)


def begin(new: Folder, identity: Identity, interrupts: Interrupts) -> None:
    """Makes a version of the tables of a new folder, as they were read. It counts by a rename, and then they are the folder's."""
    folder, part, number = new.path, new.path / MADE, free(new.path, 0)
    remove(part)
    try:
        for name in ("data", "views", "changes"):
            os.makedirs(part / "0" / name)
        for name, records in new.data.items():
            write(part / f"0/data/{name}.csv", [records.content])
        keep(part)
        vouch(part / "0", blank(identity, number, FIRST))
        point(folder, number)
    except BaseException:
        remove(part)
        raise
    with interrupts.put_off():
        os.rename(part / "0", place(folder, number))
        sync(folder / VERSIONS)
        turn(folder)
    os.rmdir(part)
    new.state = new.inputs.state = State(folder)
    new.inputs.vouched = Vouched(folder, new.state)
    for name, records in new.data.items():
        if has_pieces(folder / f"data/{name}.csv", [records.content]):
            remove_kept(folder / f"data/{name}.csv")
    remove_empty(folder / "data")


# ---- what is removed


def is_kept(file: Path, versions: Mapping[str, list[Path]]) -> bool:
    """Whether a version has a file of this name with the same bytes."""
    return any(is_same(other, file) for other in versions.get(file.name, ()))


def clear(folder: Path) -> None:
    """Removes files of before there were versions that a version has, and tells of the others."""
    old = [path for name in OLD for path in [folder / name, *(folder / name).rglob("*")]]
    clear_tables(folder)
    files = [path for path in old if path.is_file()]
    versions = files_by_name(folder / VERSIONS) if files else {}
    for file in files:
        if is_kept(file, versions):
            remove_kept(file)
        else:
            warn([f"{file} is in no version, and stays; it is not looked at"])
    for path in sorted(old, reverse=True):
        remove_empty(path)


def clear_tables(folder: Path) -> None:
    """Removes the tables of data/ that the version has; where a commit was stopped they may be those of the version before."""
    number = named(folder)
    if number is None:
        return
    current = place(folder, number)
    tables = [file for file in entries(folder / "data") if (current / "data" / file.name).is_file()]
    versions = files_by_name(folder / VERSIONS if (folder / PENDING).exists() else current) if tables else {}
    for file in filter(lambda file: is_kept(file, versions), tables):
        remove_kept(file)
    if tables:
        remove_empty(folder / "data")


def remove_kept(file: Path) -> None:
    """Removes a file that a version has. Where that cannot be, the night goes on."""
    try:
        file.unlink()
    except OSError as error:
        warn([f"{file} is in a version, and cannot be removed: {error.strerror}"])


def remove_empty(path: Path) -> None:
    """Removes a folder in which nothing is left."""
    if path.is_dir() and not path.is_symlink() and not os.listdir(path):
        with suppress(OSError):
            os.rmdir(path)


def files_by_name(folder: Path) -> dict[str, list[Path]]:
    """All files of a folder by their names."""
    found: dict[str, list[Path]] = {}
    for path in folder.rglob("*"):
        if path.is_file():
            found.setdefault(path.name, []).append(path)
    return found


def take_over(folder: Path, interrupts: Interrupts) -> dict[str, Records]:
    """Makes versions of a folder that has none, and removes what there was. Answers the tables that it has judged, which have no fault."""
    found: dict[str, Records] = {}
    if not whole(folder):
        remove(folder / SCRAP)
        if (folder / PENDING).exists():
            move_changes(folder)
        else:
            found = judged(Folder(folder)).sound_tables()
        decide(folder, interrupts)
        remove(folder / "new")
    clear(folder)
    return found
