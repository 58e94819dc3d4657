"""A night that is kept: it takes its changes, makes its version beside the others, and one rename decides that it counts."""

from __future__ import annotations

import os
from collections.abc import Callable, Mapping
from itertools import islice
from pathlib import Path
from typing import TYPE_CHECKING, NamedTuple

from ..catalogue.from_toml import Catalogue
from ..disk import keep, put, remove, sync, write
from ..finding import Failure, of_system, warn
from ..status import BAD_INPUT, NOT_WRITTEN
from . import lock
from .accepted import judge_accepted, judge_dropped
from .batches import NAMES, TAKEN, names_after, waiting
from .carried import carried
from .check import strategy_of
from .claim import Claim, judge_movable
from .folder import Folder, judged
from .gate import Gate
from .identity import identity_of
from .inputs import Inputs, Taking
from .piece_sums import Piece, Spliced, of_spliced
from .puts import settle as settle_puts
from .seen import pruned
from .strategy import FILE as STRATEGY
from .takeover import begin, is_new, take_over
from .versions import DELTAS, TURNED, VERSIONS, coming, part_of, place, point, turn
from .vouching import give_up_name, vouch_for_night, vouch_for_parent, with_name

if TYPE_CHECKING:
    from .carried import Night
    from .command import Words
    from .identity import Identity
    from .inputs import Source
    from .interrupts import Interrupts
    from .night_client import Asked
    from .records import Records


class Written(NamedTuple):
    """The report of a version whose files are written, and by their names the pieces of tables that were made of those of the one before."""

    report: str
    pieces: dict[str, tuple[Piece, ...]]


class Decided(NamedTuple):
    """The report of a night that counts, and the process that computed it, where one did that serves the folder."""

    report: str
    asked: Asked | None


class KeptNight(NamedTuple):
    """The same of a night that is kept, and its version."""

    report: str
    asked: Asked | None
    number: int


def to_take(words: Words) -> list[Taking]:
    """The files that the night takes. What is no such file in changes/ or data/, and a table that would be lost without a word, ends the
    command before anything is moved; of a folder without versions all faults are told then.
    """
    accepted = words.options.get("--accept", ())
    inputs, catalogue = Inputs(words.folder, accepted=accepted), Catalogue(words.folder)
    bases = [view.name for view in catalogue.views if view.is_base]
    faults = [finding for finding in catalogue.findings + inputs.findings(catalogue) if not finding.warns]
    inputs.state.release()
    if faults and inputs.state.number is None:
        judged(Folder(words.folder))
    if faults:
        raise Failure(BAD_INPUT, *faults)
    judge_dropped(inputs, bases, words.options.get("--drop", ()))
    judge_accepted(inputs, accepted)
    taken = inputs.to_take(bases) + [Taking(TAKEN, source) for source in waiting(words.folder)]
    # The tables of a folder without versions are moved once its night is carried out.
    tables = list(inputs.carried.values()) if inputs.state.number is None else []
    judge_movable(source.path for source in [*(each.source for each in taken), *tables])
    return taken


def take(words: Words, claim: Claim) -> None:
    """Takes all that waits. No put is half there meanwhile: one that was stopped is finished first."""
    with Gate(claim.folder) as gate:
        warn(settle_puts(gate))
        claim.take(to_take(words))


def write_deltas(folder: Path, deltas: Mapping[str, bytes]) -> None:
    """Writes the changes of the derived views that changed; without a file a view stayed as it was."""
    os.makedirs(folder)
    for name, change in deltas.items():
        write(folder / f"{name}.csv", [change])


def write_tables(part: Path, night: Night) -> dict[str, tuple[Piece, ...]]:
    """Writes the tables of a version, and their changes where the program printed these. Answers the pieces of those that were made of the
    tables of the last one.
    """
    untouched = night.folder.inputs.vouched.untouched
    deltas: dict[str, bytes] = {}
    pieces: dict[str, tuple[Piece, ...]] = {}
    for view, table in night.tables():
        name = f"{'data' if view.is_base else 'views'}/{view.name}.csv"
        table.put(part / name, True)
        if isinstance(table.pieces, Spliced) and name in untouched:
            pieces[name] = of_spliced(table.pieces, untouched[name].pieces)
        if table.change:
            deltas[view.name] = table.change
    if night.answer.has_changes:
        write_deltas(part / DELTAS, deltas)
    return pieces


def write_version(part: Path, night: Night) -> Written:
    """Writes all files of a version. Those that are as in the last one are links to it."""
    last = night.folder.state.root
    for kind in ("data", "views"):
        os.makedirs(part / kind)
    pieces, report = write_tables(part, night), night.report()
    texts = {"strategy.txt": night.chosen.strategy, "plan.txt": night.chosen.plan, "report.txt": report}
    files = {file: text.encode() for file, text in texts.items() if text}
    for file, content in (files | {"catalogue.toml": night.folder.catalogue.content}).items():
        put(part / file, content, last / file)
    batches = names_after(last, part)
    if batches:
        put(part / NAMES, batches.encode(), last / NAMES)
    for kind in ("given", TAKEN):
        if not os.listdir(part / kind):
            os.rmdir(part / kind)
    return Written(report, pieces)


def undo(claim: Claim) -> None:
    """Gives the changes back. Where that cannot be done, the next night does it."""
    try:
        remove(claim.folder / TURNED)
        with Gate(claim.folder):
            claim.undo()
    except (Failure, OSError) as error:
        why = of_system(error) if isinstance(error, OSError) else error.lines[0]
        warn([f"the changes cannot be put back: {why}; they lie in {claim.part}, and the next night puts them back"])


def write_asides(part: Path, claim: Claim, folder: Folder) -> None:
    """Has the version that is made keep what is put aside of changes, where there is any."""
    if not folder.asides:
        return
    # What most nights do not need is imported where it is needed.
    from . import aside

    # Whoever copies the folder meanwhile finds a file once.
    with Gate(claim.folder):
        aside.write_asides(part, claim, folder.asides)


def decided(words: Words, interrupts: Interrupts, identity: Identity, number: int, judged: Mapping[str, Records]) -> Decided:
    """Carries the night out up to the rename that decides. Whatever ends it before has the changes put back. The tables that a first night
    began with become a version before, once the night is carried out. The manifest is written last.
    """
    part = part_of(words.folder, number, identity)
    claim = Claim(words.folder, part)
    try:
        try:
            take(words, claim)
            accepted = words.options.get("--accept", ())
            folder = Folder(words.folder, part, judged=judged, for_night=True, accepted=accepted, sifts=words.quarantine)
            night = carried(folder, words)
            if night.folder.state.number is None:
                begin(night.folder, identity, interrupts)
            report, pieces = write_version(part, night)
            write_asides(part, claim, night.folder)
            claim.own()
            keep(part)
            vouch_for_parent(night.folder.inputs, identity)
            vouch_for_night(part, number, identity, night, pieces)
            point(words.folder, number)
            claim.judge()
            lock.judge(words.folder)
        finally:
            interrupts.disarm()
        os.rename(part, place(words.folder, number))
    except BaseException:
        undo(claim)
        raise
    night.folder.state.release()
    return Decided(report, night.asked)


def kept(words: Words, interrupts: Interrupts, judged: Mapping[str, Records]) -> KeptNight:
    """Carries a night out that is kept. A folder that gets its name for it, and in which nothing was kept, is without it again."""
    before = identity_of(words.folder)
    identity = with_name(words.folder, before)
    number = coming(words.folder, identity)
    try:
        return KeptNight(*decided(words, interrupts, identity, number, judged), number)
    except BaseException:
        if not before.name and not before.is_copy:
            give_up_name(words.folder, identity)
        raise


def shown(words: Words, number: int) -> None:
    """Turns `current`, once what the night put aside lies where it stays."""
    if words.quarantine:
        from .aside import lay

        lay(words.folder, number)
    turn(words.folder)


def finish(words: Words, number: int) -> None:
    """Turns `current`, and removes what is no more wanted. The night counts, whatever comes between."""
    steps: list[Callable[[], None]] = [
        lambda: sync(words.folder / VERSIONS),
        lambda: shown(words, number),
        lambda: remove(words.folder / "new"),
        lambda: prune(words),
    ]
    errors: list[OSError] = []
    for step in steps:
        try:
            step()
        except OSError as error:
            errors.append(error)
    if errors:
        raise Failure(NOT_WRITTEN, f"the night is done and is version {number}, but {of_system(errors[0])}; the next night sees to it")


def prune(words: Words) -> None:
    """Removes the versions that are not to stay, where it was said how many are."""
    if words.keep:
        pruned(words.folder, words.keep)


def quiet(words: Words) -> str | None:
    """Where a night would change nothing, what is told of it, and else None: the version is of this catalogue and has all tables as they
    were made, and no file of changes has a row. Files with a header alone stay where they are.
    """
    accepted = words.options.get("--accept", ())
    inputs = Inputs(words.folder, accepted=accepted)
    files = [source for sources in inputs.changes.values() for source in sources]
    inputs.state.release()
    is_quiet = inputs.state.report.is_file() and inputs.is_catalogue_as_before() and not any(map(has_rows, files))
    if words.always or accepted or not is_quiet:
        return None
    folder = judged(Folder(words.folder, accepted=accepted))
    folder.state.release()
    tables = [folder.state.root / f"views/{view.name}.csv" for view in folder.views if not view.is_base]
    if any(not records.is_made for records in folder.data.values()) or not all(table.is_file() for table in tables):
        return None
    if (words.folder / STRATEGY).is_file():
        strategy_of(folder)
    warn(folder.warnings)
    empty = ", ".join(sorted(source.told for source in files))
    stays = f"; {empty} without rows stay{'s' * (len(files) == 1)}" if empty else ""
    return f"nothing changed: version {folder.state.number} stays the current one{stays}; with --always a version is made all the same\n"


def has_rows(source: Source) -> bool:
    """Whether a file of changes has more than its header; a carriage return alone ends a line too."""
    with open(source.path, "rb") as file:
        lines = (line for read in file for line in read.split(b"\r") if line.strip())
        return len(list(islice(lines, 2))) > 1


def commit(words: Words, interrupts: Interrupts) -> str:
    """A night that is kept. Answers its report, or that there was nothing to keep."""
    if words.quarantine:
        from .aside import judge_home

        judge_home(words.folder)
    sound: Mapping[str, Records] = {} if is_new(words.folder) else take_over(words.folder, interrupts)
    told = quiet(words)
    if told:
        remove(words.folder / "new")
        prune(words)
        return told
    report, asked, number = kept(words, interrupts, sound)
    finish(words, number)
    if asked:
        asked.keep(number)
    return report
