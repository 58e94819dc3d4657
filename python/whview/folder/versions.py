"""The versions of a folder, and the state that its next night starts from.

`current` is a link to the version that counts. A folder without it has its tables in data/ itself. What lies in versions/ and is none of
the folder's versions is a stray: it is told, and neither read nor removed.
"""

from __future__ import annotations

import fcntl
import os
import re
import time
from pathlib import Path

from ..disk import remove, sync
from ..finding import Failure, Finding, Place
from ..status import AT_WORK, BAD_INPUT
from .identity import NUMBER, Identity, identity_of, numbers
from .manifest import NoManifest, found_manifest, read_manifest

CURRENT, TURNED, VERSIONS, DELTAS = "current", "current.part", "versions", "deltas"
# Where the process that serves a folder is asked for its nights.
SOCKET = ".served"
LINK = re.compile(r"versions/(0|[1-9][0-9]*)/?")
# What is being made, and what is being removed: the number, the folder's name where it had one then, and the ending.
PART, GONE = ".part", ".gone"
REST = re.compile(r"(?:0|[1-9][0-9]*)(?:\.([0-9a-f]{32}))?(\.part|\.gone)")
# What a version is opened with that there is not; one that may not be read is told as such.
NOT_THERE = (FileNotFoundError, NotADirectoryError)
# For how many seconds a version is waited for that somebody holds alone, how long at a time, and what is told then.
PATIENCE, PAUSE = 5, 0.01
LEFT_ALONE = "and is left alone: no night goes on from it or removes it; move it away"
ALONE = "is held by somebody alone; readers hold it by flock --shared"


def is_shared(handle: int) -> bool:
    """Whether the shared lock could be taken."""
    try:
        fcntl.flock(handle, fcntl.LOCK_SH | fcntl.LOCK_NB)
    except BlockingIOError:
        return False
    return True


def whole(folder: Path, identity: Identity | None = None) -> list[int]:
    """The numbers of the folder's versions, rising."""
    known = identity or identity_of(folder)
    return [number for number in numbers(folder) if known.owns(place(folder, number), number)]


def is_rest(name: str, identity: Identity, end: str) -> bool:
    """Whether a name is that of a version of the folder that is being made or removed. Before it had a name, they were without it."""
    found = REST.fullmatch(name)
    if not found or found[2] != end:
        return False
    if found[1]:
        return found[1] == identity.name or identity.is_copy and found[1] in identity.before
    return not identity.name and not identity.is_copy


def ending(folder: Path, end: str, identity: Identity | None = None) -> list[Path]:
    """What there is of the folder's versions with this ending of their names."""
    known = identity or identity_of(folder)
    return sorted(path for path in (folder / VERSIONS).glob(f"*{end}") if is_rest(path.name, known, end))


def place(folder: Path, number: int) -> Path:
    return folder / VERSIONS / str(number)


def part_of(folder: Path, number: int, identity: Identity) -> Path:
    """Where a version is made."""
    return folder / VERSIONS / f"{number}{identity.mark}{PART}"


def free(folder: Path, least: int) -> int:
    """The first number from a least one on that nothing in versions/ has."""
    number = least
    while os.path.lexists(place(folder, number)):
        number += 1
    return number


def coming(folder: Path, identity: Identity) -> int:
    """The number of the next version: above those of all that there are, so that none is taken for one that was made from it. A folder
    without versions begins with one of its tables as they are.
    """
    current, falling = named(folder), reversed(numbers(folder))
    last = next((number for number in falling if number == current or identity.owns(place(folder, number), number)), current)
    return free(folder, (free(folder, 0) if last is None else last) + 1)


# ---- which version counts


def newest(folder: Path, identity: Identity | None = None) -> int | None:
    """The number of the version that `current` is to name: the newest that was made from the one that it names, or from one made from
    that. Without `current` it is the newest one.
    """
    known, current = identity or identity_of(folder), named(folder)
    above = [number for number in numbers(folder) if current is None or number > current]
    above = [number for number in above if known.owns(place(folder, number), number)]
    if current is None:
        return next((number for number in reversed(above) if vouches(place(folder, number), number, known)), None)
    for number in above:
        current = number if is_made_from(folder, number, current, known) else current
    return current


def vouches(version: Path, number: int, identity: Identity) -> bool:
    """Whether a version of the folder has a manifest that is whole, or is of before there were any."""
    return found_manifest(version) is not None or number <= identity.unvouched


def is_made_from(folder: Path, number: int, current: int, identity: Identity) -> bool:
    """Whether a newer version was made from the current one. Of versions before manifests that cannot be told."""
    made, before = found_manifest(place(folder, number)), found_manifest(place(folder, current))
    if made is None and number <= identity.unvouched:
        version = f"{VERSIONS}/{number}"
        told = f"{version} is newer than {CURRENT}, and was made before versions had manifests, so it does not tell where it comes from"
        cure = f"if a night was stopped there, `ln -sfn {version} {folder / CURRENT}` finishes it; if not, move it away"
        raise Failure(BAD_INPUT, f"{told}: {cure}")
    return made is not None and made.parent == current and made.parent_sum == (before.sum if before else "")


def strays(folder: Path, identity: Identity | None = None) -> list[Finding]:
    """What lies in versions/ and is none of the folder's versions, a warning each."""
    # What a night makes or removes meanwhile is none: what counts is looked for after the names, and who is gone is not told.
    names = sorted(os.listdir(folder / VERSIONS)) if (folder / VERSIONS).is_dir() else []
    known, current = identity or identity_of(folder), named(folder)
    counts = newest(folder, known)
    told = [(name, stray(folder, name, known, counts)) for name in names if name != str(current) and not name.startswith(".")]
    found = [(name, why) for name, why in told if why and os.path.lexists(folder / VERSIONS / name)]
    return [Finding(Place(f"{VERSIONS}/{name}"), why, True) for name, why in found]


def stray(folder: Path, name: str, identity: Identity, counts: int | None) -> str:
    """Why something in versions/ is none of the folder's versions, or an empty text."""
    path = folder / VERSIONS / name
    if any(is_rest(name, identity, end) for end in (PART, GONE)):
        return ""
    if not path.is_dir():
        return f"this is no version but a file, {LEFT_ALONE}"
    if not NUMBER.fullmatch(name):
        return f"this is no version of this folder, {LEFT_ALONE}"
    if not identity.owns(path, int(name)):
        return f"{why_not_own(path, int(name))}, {LEFT_ALONE}"
    if counts is not None and int(name) > counts:
        return f"this was not made from version {counts}, and no night goes on from it; `rollback` goes back to it, or move it away"
    return ""


def why_not_own(version: Path, number: int) -> str:
    """Why a folder with a number as its name is no version of the folder."""
    try:
        manifest = read_manifest(version)
    except NoManifest as cause:
        return f"this does not vouch for itself ({cause})"
    return f"this is version {manifest.version}" if manifest.version != number else "this is a version of another folder"


def named(folder: Path) -> int | None:
    """The number of the version that `current` names, or None without it."""
    link: re.Match[str] | None = None
    try:
        link = LINK.fullmatch(os.readlink(folder / CURRENT))
    except FileNotFoundError:
        return None
    except OSError:
        pass
    if not link:
        raise Failure(BAD_INPUT, f"{folder / CURRENT} is no link to one of versions/; move it away")
    return int(link[1])


def current_of(folder: Path) -> int:
    """The number of the version that `current` names, of a folder that has one."""
    number = named(folder)
    if number is None:
        raise Failure(BAD_INPUT, f"{folder / CURRENT} was taken away meanwhile; the next night puts it back")
    return number


def point(folder: Path, number: int) -> None:
    """Makes the link that `current` is going to be."""
    remove(folder / TURNED)
    os.symlink(f"{VERSIONS}/{number}", folder / TURNED)


def turn(folder: Path) -> None:
    """Has `current` be the link that was made."""
    os.rename(folder / TURNED, folder / CURRENT)
    sync(folder)


class State:
    """The tables that the next night starts from: those of a version, which is held while it is read, or of the folder itself."""

    def __init__(self, folder: Path) -> None:
        self.folder = folder
        self.handle: int | None = None
        self.number: int | None = None
        tried: int | None = None
        while True:
            self.number = named(folder)
            if self.number is None or self.hold():
                return
            if self.number == tried:
                raise Failure(BAD_INPUT, f"{folder / CURRENT} names {VERSIONS}/{self.number}, which is not there")
            tried = self.number

    @property
    def root(self) -> Path:
        return self.folder if self.number is None else place(self.folder, self.number)

    @property
    def told(self) -> str:
        """The folder of the tables as a finding has it."""
        return "data" if self.number is None else f"{VERSIONS}/{self.number}/data"

    @property
    def report(self) -> Path:
        """The report of the night that made the tables."""
        return self.folder / "views/report.txt" if self.number is None else self.root / "report.txt"

    def hold(self) -> bool:
        """Takes the shared lock on the version, and answers whether it is still there. Nobody is waited for for long."""
        try:
            handle = os.open(self.root, os.O_RDONLY | os.O_DIRECTORY)
        except NOT_THERE:
            return False
        due = time.monotonic() + PATIENCE
        while not is_shared(handle) and self.root.is_dir():
            if time.monotonic() > due:
                os.close(handle)
                raise Failure(AT_WORK, f"{self.root} {ALONE}")
            time.sleep(PAUSE)
        if self.root.is_dir():
            self.handle = handle
            return True
        os.close(handle)
        return False

    def release(self) -> None:
        """Lets the version go."""
        if self.handle is not None:
            os.close(self.handle)
            self.handle = None


def prune(folder: Path, count: int) -> None:
    """Removes all versions but the newest ones up to the current one, as many as are to stay; also those stay that a reader holds."""
    identity, current = identity_of(folder), current_of(folder)
    there = [number for number in whole(folder, identity) if number <= current]
    for number in there[:-count]:
        remove_unheld(place(folder, number), identity)


def remove_unheld(version: Path, identity: Identity) -> None:
    """Removes a version that nobody holds: a rename takes it away from readers, whose lock on it would come too late."""
    handle = os.open(version, os.O_RDONLY | os.O_DIRECTORY)
    try:
        fcntl.flock(handle, fcntl.LOCK_EX | fcntl.LOCK_NB)
        gone = version.with_name(f"{version.name}{identity.mark}{GONE}")
        os.rename(version, gone)
        remove(gone)
    except BlockingIOError:
        pass
    finally:
        os.close(handle)
