"""`verify`: reads all files of all versions, or of the one that is named, and says which are not what their version's manifest says.

Each file is compared by its size and its SHA-256; a line on standard output tells each that differs, and each version that does not vouch
for itself, and then the status is 1. Of versions of before there were manifests nothing is known, which is told.
"""

from __future__ import annotations

import os
import time
from collections.abc import Sequence
from dataclasses import dataclass
from pathlib import Path
from typing import TYPE_CHECKING

from ..finding import Failure, warn
from ..status import BAD_WORDS, DONE, REFUSED, Status
from .held import hold
from .identity import Identity, identity_of, numbers
from .manifest import NoManifest, differing, read_manifest
from .reading import whole_number
from .versions import ALONE, PATIENCE, PAUSE, VERSIONS, place, why_not_own

if TYPE_CHECKING:
    from .command import Words


@dataclass(slots=True)
class Verified:
    """How many versions were read, with how many files and bytes, and how many lines tell what is wrong."""

    versions: int = 0
    files: int = 0
    size: int = 0
    wrong: int = 0

    def told(self) -> str:
        return f"{self.versions} version{'s' * (self.versions != 1)}, {self.files} files, {self.size:,} bytes"


def held(version: Path) -> int | None:
    """A handle by which nights let a version stay. One that is being removed is gone in a moment; another is held by somebody."""
    handle, due = hold(version), time.monotonic() + PATIENCE
    while handle is None and version.is_dir() and time.monotonic() < due:
        time.sleep(PAUSE)
        handle = hold(version)
    return handle


def verify(folder: Path, number: int, identity: Identity, verified: Verified) -> list[str]:
    """What is wrong with one version, a line each. One that is removed meanwhile has nothing wrong."""
    version, name = place(folder, number), f"{VERSIONS}/{number}"
    handle = held(version)
    if handle is None:
        return [f"{name}: it {ALONE}, and is not read"] if version.is_dir() else []
    try:
        manifest = read_manifest(version)
        if manifest.version != number or not identity.knows(manifest.folder, number):
            return [f"{name}: {why_not_own(version, number)}"]
        verified.versions += 1
        verified.files += len(manifest.files)
        verified.size += sum(entry.size for entry in manifest.files.values())
        return [f"{name}/{each.file}: {each.how}" for each in differing(version, manifest, True)]
    except NoManifest as cause:
        return [] if is_of_before(name, number, identity) else [f"{name}: it does not vouch for itself ({cause})"]
    finally:
        os.close(handle)


def is_of_before(name: str, number: int, identity: Identity) -> bool:
    """Whether a version is of before there were manifests, which is told."""
    if number > identity.unvouched:
        return False
    warn([f"{name} is of before versions had manifests: what its files were is not known"])
    return True


def asked_for(folder: Path, operands: Sequence[str]) -> list[int]:
    """The numbers of the versions that are read."""
    there = numbers(folder)
    if len(operands) < 2:
        return there
    number = whole_number(operands[1], "a version", 0, 2**63 - 1)
    if number not in there:
        raise Failure(BAD_WORDS, f"there is no version {number} in {folder}; there are {', '.join(map(str, there)) or 'none'}")
    return [number]


def run(words: Words) -> Status:
    verified, identity = Verified(), identity_of(words.folder)
    for number in asked_for(words.folder, words.operands):
        for line in verify(words.folder, number, identity, verified):
            verified.wrong += 1
            print(line)
    end = f"{verified.wrong} differ" if verified.wrong else "all as they were made"
    print(f"{verified.told()}: {end}")
    return REFUSED if verified.wrong else DONE
