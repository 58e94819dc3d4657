"""How large the input of the program may be, and what is told where a folder is larger or comes near to it."""

from __future__ import annotations

from collections.abc import Iterable, Mapping
from typing import TYPE_CHECKING

from .finding import Failure, Finding, Place
from .status import BAD_INPUT

if TYPE_CHECKING:
    from .catalogue.from_toml import CatalogueView
    from .folder.folder import Folder
    from .folder.records import Records

# The limit where a catalogue says none; how many of the largest files are told, and which part of the whole a file has that is not worth it.
MOST, LARGEST, SMALL = 2**26, 3, 20
CURE = "put numbers in the place of long texts, have fewer columns, or keep the facts of several years in folders of their own"
# What has so many bytes, where nothing else is said.
OF_NIGHT = "the night's bundle has"
# Above which part of the limit a warning is due.
NEAR = 9 / 10
# By how many bytes at most a quote, and a row, may grow as a table is written anew: a row that has no count gets one.
QUOTE, ROW = 3, 2


def limit_of(said: int | None) -> int:
    """How many bytes an input may have, where a catalogue says this or nothing."""
    return MOST if said is None else said


def beyond(total: int, what: str = OF_NIGHT, said: int | None = None) -> str:
    """How far a number of bytes is beyond the limit, in words."""
    most = limit_of(said)
    return f"{what} {total:,} bytes, which is {total - most:,} more than the {most:,} that the program takes"


def over_the_limit(sizes: Mapping[str, int], what: str = OF_NIGHT, said: int | None = None) -> list[Finding]:
    """A finding where what these files make is larger than an input may be."""
    total = sum(sizes.values())
    if total <= limit_of(said):
        return []
    largest = sorted(sizes, key=lambda file: -sizes[file])[:LARGEST]
    files = ", ".join(f"{file} ({sizes[file]:,})" for file in largest if sizes[file] * SMALL > total)
    return [Finding(Place(largest[0]), f"{beyond(total, what, said)}; most of them are in {files}; {CURE}")]


def part_size(heading: str, content: bytes) -> int:
    """How long a part of a bundle is."""
    ended = not content or content.endswith(b"\n")
    marked = content.count(b"\n@") + content.startswith(b"@") if b"@" in content else 0
    return len(heading) + 2 + len(content) + (0 if ended else 1) + marked


def bundle_sizes(folder: Folder) -> dict[str, int]:
    """How much of a night's bundle each file takes."""
    found = {"catalogue.toml": part_size("catalogue", folder.catalogue.content)}
    for name, records in folder.data.items():
        found[records.file] = part_size(f"data {name}", records.content)
    for name, changes in folder.changes.items():
        if not changes.findings:
            found[changes.files[0].file] = part_size(f"changes {name}", changes.content)
    return found


def judge(pieces: Iterable[bytes], said: int | None = None) -> None:
    """Refuses a bundle in pieces that the program would not take."""
    total = sum(map(len, pieces))
    if total > limit_of(said):
        raise Failure(BAD_INPUT, f"{beyond(total, said=said)}; {CURE}")


def most_after(folder: Folder) -> int:
    """How much the base tables take at most after the night, without writing them: counts that are added up have no more digits."""
    read = [*folder.data.values(), *(records for changes in folder.changes.values() for records in changes.files)]
    return sum(map(most_anew, read))


def most_anew(records: Records) -> int:
    """How much a table or changes take at most when they are written anew; a table that a night has made stays as it is."""
    content = records.content
    if records.is_made:
        return len(content)
    quotes = 0 if records.waits else QUOTE * content.count(b'"')
    return len(content) + quotes + (0 if records.waits and records.header.is_counted else ROW * (content.count(b"\n") + 1))


def sizes_after(folder: Folder) -> dict[str, int]:
    """How much the base tables and the catalogue take in the next night's bundle, where that can come near to the limit; else nothing."""
    if most_after(folder) + len(folder.catalogue.content) < NEAR * limit_of(folder.catalogue.max_bytes):
        return {}
    found = {f"data/{name}.csv": size_after(folder, view) for view in folder.bases if (name := view.name) in folder.data}
    return found | {"catalogue.toml": part_size("catalogue", folder.catalogue.content)}


def size_after(folder: Folder, view: CatalogueView) -> int:
    """How much the table of a base view takes after the night. It is put together only where a line of it may begin with an `@`."""
    read = [folder.data[view.name], *(folder.changes[view.name].files if view.name in folder.changes else ())]
    pieces, heading = folder.after(view), f"data {view.name}"
    if any(b"@" in records.content for records in read):
        return part_size(heading, b"".join(pieces))
    return part_size(heading, b"") + sum(map(len, pieces))


def after(sizes: Mapping[str, int], said: int | None = None) -> list[Finding]:
    """A fault where the folder could not be read again after this night, and a warning where it comes near to that."""
    what = "after this night the base tables and the catalogue have"
    found = over_the_limit(sizes, what, said)
    total, most = sum(sizes.values()), limit_of(said)
    if not found and total >= NEAR * most:
        text = f"{what} {total:,} bytes, and the program takes {most:,} at most; {CURE}"
        found = [Finding(Place(max(sizes, key=lambda file: sizes[file])), text, True)]
    return found
