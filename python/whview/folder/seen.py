"""How files of the current version look since a prune: where a name of a file goes with an older version, the system notes that it changed.

So that the next night does not read all that did not change, what looked untouched right before a prune is noted with its look right after
it. The note is of one manifest; without it, or with another manifest, files are read.
"""

import os
from contextlib import suppress
from pathlib import Path

from ..disk import remove, write
from .manifest import Manifest, found_manifest
from .versions import current_of, place, prune

FILE, PART, FORM = ".seen", ".seen.part", "seen 1"


def seen(folder: Path, manifest: Manifest) -> dict[int, int]:
    """When files last changed in the eyes of the system, by their inodes, where that was a prune."""
    if not (folder / FILE).is_file():
        return {}
    try:
        head, *lines = (folder / FILE).read_text().splitlines()
        return {int(inode): int(changed) for inode, _, changed in (line.partition(" ") for line in lines)} if head == head_of(manifest) else {}
    except (OSError, ValueError):
        return {}


def head_of(manifest: Manifest) -> str:
    return f"{FORM} {manifest.sum}"


def pruned(folder: Path, count: int) -> None:
    """Prunes, and notes how the files of the current version look that looked untouched."""
    version = place(folder, current_of(folder))
    manifest = found_manifest(version)
    files = untouched(version, manifest, seen(folder, manifest)) if manifest else []
    prune(folder, count)
    # Without the note, as where a disk is full, files are read.
    with suppress(OSError):
        if manifest and files:
            note(folder, manifest, files)


def untouched(version: Path, manifest: Manifest, known: dict[int, int]) -> list[Path]:
    """The files of a version that look as they were kept."""
    files = ((version / name, entry) for name, entry in manifest.files.items())
    return [path for path, entry in files if path.is_file() and entry.is_untouched(path.stat(), known)]


def note(folder: Path, manifest: Manifest, files: list[Path]) -> None:
    """Writes how these files look now."""
    looks = sorted({(look.st_ino, look.st_ctime_ns) for look in map(os.stat, files)})
    part = folder / PART
    remove(part)
    write(part, ["".join([f"{head_of(manifest)}\n", *(f"{inode} {changed}\n" for inode, changed in looks)]).encode()])
    os.rename(part, folder / FILE)
