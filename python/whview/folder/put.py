"""`put`: brings files of changes into changes/, each under the first name of its view that is free. All of them come in, or none does,
where one has a fault or takes rows away that are not there. `-` is standard input. A batch is taken once: put again it changes nothing.
"""

from __future__ import annotations

import os
import sys
import time
from collections.abc import Iterable, Iterator, Mapping, Sequence
from dataclasses import dataclass, replace
from hashlib import sha256
from pathlib import Path
from typing import TYPE_CHECKING, NamedTuple

from ..catalogue.from_toml import Catalogue
from ..disk import BLOCK, blocks_of, telling, what
from ..finding import Failure, of_system, warn
from ..limits import over_the_limit
from ..status import AT_WORK, BAD_INPUT, BAD_WORDS, DONE, NOT_WRITTEN, REFUSED, Status
from ..streams import say
from . import batches, puts
from .claim import Look, judge_written, look, names
from .gate import Gate
from .inputs import CHANGES, Inputs, Source, by_view, stranger
from .records import Changes, Records, shown
from .versions import PART, ending, named

if TYPE_CHECKING:
    from ..catalogue.from_toml import CatalogueView
    from .command import Words

INPUT = "-"


@dataclass(frozen=True, slots=True)
class Given:
    """What is to be put in: a file, or None for standard input; by which name it is told; and the view that it is of."""

    path: Path | None
    told: str
    view: CatalogueView

    def blocks(self) -> Iterator[bytes]:
        """Its bytes, which standard input gives once."""
        return blocks_of(self.path) if self.path else iter(lambda: sys.stdin.buffer.read(BLOCK), b"")


class Filled(NamedTuple):
    """What is to be put in, and its copy in the put."""

    given: Given
    source: Source


class Moment(NamedTuple):
    """By what it is told that nothing came or went in a folder meanwhile: its version, and the files of changes."""

    version: int | None
    changes: list[tuple[str, Look]]


# ---- the words


def given_of(words: Words, catalogue: Catalogue) -> list[Given]:
    """The files that the words name, each with its view."""
    named_as, files = words.option("--as"), words.operands[1:]
    if named_as and len(files) > 1:
        raise Failure(BAD_WORDS, "--as names the view of one file; put the others by themselves")
    if files.count(INPUT) > 1 or (INPUT in files and not named_as):
        raise Failure(BAD_WORDS, "- is standard input, which stands once and has its view named by --as NAME")
    return [one_of(file, named_as, catalogue) for file in files]


def one_of(file: str, named_as: str | None, catalogue: Catalogue) -> Given:
    """One of them, which is of the view that it is named as, or that its own name says."""
    name = f"{named_as.removesuffix('.csv')}.csv" if named_as else Path(file).name
    match, bases = CHANGES.fullmatch(name), {view.name: view for view in catalogue.views if view.is_base}
    if file != INPUT and not Path(file).is_file():
        raise Failure(BAD_WORDS, f"there is no file {file}")
    if not match:
        raise Failure(BAD_WORDS, f"{file} is named otherwise than NAME.csv or NAME.1.csv, where NAME is its view; name that by --as NAME")
    if match[1] not in bases:
        raise Failure(BAD_WORDS, f"{file}: {stranger(match[1], list(bases), catalogue.names)}")
    return Given(None, "standard input", bases[match[1]]) if file == INPUT else Given(Path(file), file, bases[match[1]])


def batch_of(words: Words) -> str | None:
    """The name of the batch, where there is one."""
    batch = words.option("--batch")
    if batch is not None and not batches.NAME.fullmatch(batch):
        raise Failure(BAD_WORDS, f"a batch is named by 1 to 128 letters, digits and _ + = @ : . -, the first of them no point, and not {batch[:40]!r}")
    return batch


# ---- what is written


def fill(put: puts.Put, given: Iterable[Given]) -> list[Filled]:
    """Copies what is given into a put, each under a name of its own."""
    filled: list[Filled] = []
    for each in given:
        free = next(name for name in names(f"{each.view.name}.csv") if not (put.path / name).exists())
        if each.path is None:
            put.write(free, each.blocks())
        else:
            copy_whole(each, each.path, put, free)
        filled.append(Filled(each, Source(put.path / free, each.told)))
    return filled


def copy_whole(each: Given, path: Path, put: puts.Put, name: str) -> None:
    """Copies a file, which lies at this path, and nobody writes meanwhile."""
    seen = look(path)
    judge_written(path, each.told, put.path)
    put.write(name, each.blocks())
    if look(path) != seen:
        raise Failure(AT_WORK, f"{each.told} was written meanwhile; try again when it is whole")


def sums(files: Iterable[tuple[str, Iterable[bytes]]]) -> str:
    """A line for each file, by its name and the blocks that it comes in, with the sum of its bytes."""
    return "".join(sorted(f"{sum_of(blocks)}  {name}\n" for name, blocks in files))


def sum_of(blocks: Iterable[bytes]) -> str:
    """The sum of the bytes of these blocks."""
    found = sha256()
    for block in blocks:
        found.update(block)
    return found.hexdigest()


# ---- what is judged


def judge(folder: Path, filled: Sequence[Filled], most: int | None) -> list[Changes]:
    """Refuses what has a fault, and rows that leave more often than they are there."""
    faults = over_the_limit({source.told: source.path.stat().st_size for _, source in filled}, said=most)
    changes = changes_of(filled) if not faults else []
    faults += [finding for each in changes for finding in each.findings]
    if faults:
        raise Failure(BAD_INPUT, *faults)
    missing = [line for each in changes if min(each.rows.values(), default=0) < 0 for line in not_there(folder, each)]
    if missing:
        raise Failure(REFUSED, *missing)
    return changes


def changes_of(filled: Iterable[Filled]) -> list[Changes]:
    """The changes of each view that is given any."""
    views: dict[str, CatalogueView] = {}
    sources: dict[str, list[Source]] = {}
    for each, source in filled:
        views.setdefault(each.view.name, each.view)
        sources.setdefault(each.view.name, []).append(source)
    return [Changes(sources[name], view) for name, view in views.items()]


def moment(folder: Path) -> Moment | None:
    """How a folder is now; None while a night is under way or stopped."""
    if ending(folder, PART):
        return None
    home = folder / "changes"
    return Moment(named(folder), sorted((path.name, look(path)) for path in home.glob("*.csv") if path.is_file()))


def not_there(folder: Path, changes: Changes) -> list[str]:
    """A line for each row that leaves more often than the table has it with the changes that wait. Where these are about to be taken the
    night tells.
    """
    before = moment(folder)
    inputs = Inputs(folder)
    try:
        told = list(lacking(inputs, by_view(folder / "changes", "changes", CHANGES), changes))
    except OSError:
        told = []
    finally:
        inputs.state.release()
    return told if before is not None and before == moment(folder) else []


def lacking(inputs: Inputs, files: Mapping[str, list[Source]], changes: Changes) -> Iterator[str]:
    """The same of the table that the next night starts from, and of the files that wait, where none of these has a fault."""
    table = inputs.table(changes.view.name)
    data = Records(table, changes.view, False, changes.view.name in inputs.kept) if table else None
    wait = Changes(files.get(changes.view.name, []), changes.view)
    if data is None or data.findings or wait.findings:
        return
    leaving = {row: wait.rows[row] + count for row, count in changes.rows.items() if count < 0}
    there = data.standing(list(leaving))
    if any(there[row] + count < 0 for row, count in leaving.items()):
        there = data.rows
    for row, count in leaving.items():
        if there[row] + count < 0:
            place, waits = changes.place(row), f", and changes that wait {wait.rows[row]}" * bool(wait.rows[row])
            yield f"{place.file}:{place.line}:1: {-changes.rows[row]} of {shown(row)} leave, and {data.file} has {there[row]}{waits}"


# ---- the batch


def is_known(words: Words, batch: str | None, given: Iterable[Given]) -> bool:
    """Whether a batch was put before, which is told. One of other bytes is another batch, of which nothing may be lost as if it had come: it is
    refused. Who asks holds the gate.
    """
    if not batch:
        return False
    found = batches.found(words.folder, batch)
    if not found:
        judge_free(words.folder, batch)
        return False
    where, known = found
    if known and batches.sum_of(sums((f"{each.view.name}.csv", each.blocks()) for each in given)) != known:
        told = f"batch {batch} was put before, and {where}; it had other bytes, and those of now are not taken: nothing is changed"
        raise Failure(REFUSED, f"{told}; another batch needs another name")
    say([f"batch {batch} was put before, and {where}: nothing is changed"])
    return True


def judge_free(folder: Path, batch: str) -> None:
    """Judges that the note of a batch has its place."""
    note = folder / "changes" / f"{batch}{batches.ENDING}"
    if os.path.lexists(note):
        raise Failure(BAD_INPUT, f"{note} is a {what(note)}, and in its place the note of this batch would be; move it away")


def noted(batch: str, filled: Iterable[Filled]) -> str:
    """What is noted of a batch: when it was put, and the sums of its files."""
    since = time.strftime("%Y-%m-%d %H:%M:%S")
    return f"batch {batch}, put {since}: this note goes with its changes\n{sums((f'{each.view.name}.csv', blocks_of(source.path)) for each, source in filled)}"


def bring(put: puts.Put, gate: Gate) -> dict[str, str]:
    """Has the put count, and brings its files in. What cannot be done then the next put or night does."""
    put.decide()
    try:
        with telling(gate.path):
            brought, lost = puts.finish(put.name, put.room, put.handle, gate), put.lost(gate)
    except OSError as error:
        then = "the next put or night brings in what is not"
        raise Failure(NOT_WRITTEN, f"the changes are taken, but {of_system(error)}; {then}") from error
    if lost:
        why = f"somebody took it away from {gate.path / puts.ROOM}, or put something else there"
        raise Failure(NOT_WRITTEN, f"{', '.join(lost)} did not come in: {why}; what came in: {', '.join(brought.values()) or 'nothing'}")
    return brought


def catalogue_of(folder: Path) -> Catalogue:
    """The catalogue of a folder that takes changes, which has no fault."""
    from .takeover import is_pending

    catalogue = Catalogue(folder)
    if is_pending(folder):
        raise Failure(BAD_INPUT, f"a commit was stopped in {folder}; `whview folder night {folder} --commit` finishes or undoes it")
    faults = [finding for finding in catalogue.findings if not finding.warns]
    if faults:
        raise Failure(BAD_INPUT, *faults)
    return catalogue


def run(words: Words) -> Status:
    folder, batch = words.folder, batch_of(words)
    catalogue = catalogue_of(folder)
    given = given_of(words, catalogue)
    with Gate(folder) as gate:
        warn(puts.settle(gate))
        if is_known(words, batch, given):
            return DONE
        put = puts.Put(gate)
    try:
        filled = fill(put, given)
        changes = judge(folder, filled, catalogue.max_bytes)
        if batch:
            put.write(f"{batch}{batches.ENDING}", [noted(batch, filled).encode()])
        with Gate(folder) as gate:
            warn(puts.settle(gate))
            if is_known(words, batch, [replace(each, path=source.path) for each, source in filled]):
                return DONE
            brought = bring(put, gate)
    finally:
        put.leave()
    tell(filled, changes, brought)
    return DONE


def tell(filled: Iterable[Filled], changes: Iterable[Changes], brought: Mapping[str, str]) -> None:
    """Prints where each file lies, and how many rows change."""
    rows = {records.file: sum(abs(count) for count in records.rows.values()) for each in changes for records in each.files}
    counted = [(brought[source.path.name], rows[each.told], each.told) for each, source in filled]
    say([f"changes/{name}: {count} row{'s' * (count != 1)} of {told}" for name, count, told in counted])
