"""`rollback`: makes a new version with the files of an older one, which has to be whole; what has been made since stays where it is.

The new version's number is the next one, and its parent the current version. It has the tables, the catalogue and the report of the older
one, and no changes: neither those that wait in changes/ are taken, nor those given back that later versions carried out. catalogue.toml and
strategy.txt of the folder stay as they are.
"""

from __future__ import annotations

import os
from pathlib import Path
from typing import TYPE_CHECKING

from ..disk import copy, keep, link, remove, sync, write
from ..finding import Failure, of_system, warn
from ..status import BAD_INPUT, BAD_WORDS, DONE, NOT_WRITTEN, Status
from . import lock
from .identity import Identity, identity_of
from .interrupts import Interrupts
from .lock import Lock
from .manifest import ROLLBACK, Entry, Manifest, NoManifest, differing, found_manifest, read_manifest
from .reading import whole_number
from .stopped import settle
from .versions import TURNED, VERSIONS, State, coming, current_of, part_of, place, point, strays, turn, whole
from .vouching import blank, vouch, with_name

if TYPE_CHECKING:
    from .command import Words

REPORT = "report.txt"
# What the new version does not have: the changes of the night that made the older one, what it put aside of them, and the tables that this
# was given.
LEFT = ("changes", "deltas", "given", "batches", "taken", "quarantine")


def sound(folder: Path, number: int, identity: Identity) -> Manifest:
    """The manifest of the version that is gone back to, all files of which are as it says."""
    version = place(folder, number)
    if not identity.owns(version, number):
        there = ", ".join(map(str, whole(folder, identity))) or "none"
        raise Failure(BAD_WORDS, f"there is no version {number} in {folder}; there are {there}")
    try:
        manifest = read_manifest(version)
    except NoManifest as cause:
        raise Failure(BAD_INPUT, f"{VERSIONS}/{number} does not vouch for itself: {cause}; nothing is changed") from cause
    wrong = [f"{VERSIONS}/{number}/{each.file}: {each.how}" for each in differing(version, manifest, True)]
    if wrong:
        raise Failure(BAD_INPUT, *wrong, f"version {number} is not as it was made, and is not gone back to; nothing is changed")
    return manifest


def lay(version: Path, part: Path, manifest: Manifest, told: str) -> list[Entry]:
    """Makes the files of the new version, those that stay as links where that can be. Answers the entries of the ones that are linked."""
    for kind in ("data", "views", "changes"):
        os.makedirs(part / kind)
    known: list[Entry] = []
    for name, entry in manifest.files.items():
        if name == REPORT:
            write(part / name, [told.encode(), (version / name).read_bytes()])
        elif name.partition("/")[0] not in LEFT:
            os.makedirs((part / name).parent, exist_ok=True)
            if link(version / name, part / name):
                known.append(entry)
            else:
                copy(version / name, part / name)
    return known


def decided(folder: Path, older: Manifest, identity: Identity, interrupts: Interrupts) -> int:
    """Makes the new version, which counts by a rename. Answers its number."""
    current, number = current_of(folder), coming(folder, identity)
    part, before = part_of(folder, number, identity), found_manifest(place(folder, current))
    of = f"version {older.version}"
    told = f"rollback: the tables of {of} again, after version {current}; what follows is of the night of {of}\n"
    try:
        try:
            known = lay(place(folder, older.version), part, older, told)
            keep(part)
            made = blank(identity, number, ROLLBACK)._replace(of=older.version, parent=current, parent_sum=before.sum if before else "")
            vouch(part, made, known)
            point(folder, number)
            lock.judge(folder)
        finally:
            interrupts.disarm()
        os.rename(part, place(folder, number))
    except BaseException:
        remove(folder / TURNED)
        remove(part)
        raise
    return number


def rolled_back(folder: Path, number: int, interrupts: Interrupts) -> int:
    """Goes back to a version, which is held meanwhile. Answers the number of the new one."""
    identity = identity_of(folder)
    older, state = sound(folder, number, identity), State(folder)
    try:
        if state.number == number:
            raise Failure(BAD_WORDS, f"version {number} is the current one")
        return decided(folder, older, with_name(folder, identity), interrupts)
    finally:
        state.release()


def finish(folder: Path, made: int) -> None:
    """Turns `current`. The rollback counts, whatever comes between."""
    try:
        sync(folder / VERSIONS)
        turn(folder)
        remove(folder / "new")
    except OSError as error:
        told = f"the rollback is done and is version {made}, but {of_system(error)}; the next night sees to it"
        raise Failure(NOT_WRITTEN, told) from error


def run(words: Words) -> Status:
    number = whole_number(words.operands[1], "a version", 0, 2**63 - 1)
    with Interrupts() as interrupts, Lock(words.folder):
        warn(settle(words.folder, True, words.adopts))
        warn(strays(words.folder))
        made = rolled_back(words.folder, number, interrupts)
        finish(words.folder, made)
    print(f"version {made} has the tables of version {number} and is the current one; what later versions had carried out lies in their changes/")
    if not any((place(words.folder, made) / "views").iterdir()):
        print("it has no derived views before the next night, as the tables that the folder began with")
    return DONE
