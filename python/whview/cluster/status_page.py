"""How a warehouse stands as people read it: what the newest version is and how old, who is at work, a line for each server, and what is to be
done."""

from __future__ import annotations

from typing import TYPE_CHECKING

from ..folder.forms import as_table
from .status_of import time_of

if TYPE_CHECKING:
    from collections.abc import Iterator

    from ..folder.forms import ShownRow
    from .status_of import OfServer, Status

# How an age is told: by the largest of these that it has.
UNITS = (("days", 86400), ("hours", 3600), ("minutes", 60))
SERVERS = ("server", "answers", "release", "marks", "slots", "parts", "lacks")


def age(seconds: int) -> str:
    """How long ago something was."""
    unit, whole = next(((unit, whole) for unit, whole in UNITS if seconds >= 2 * whole), ("seconds", 1))
    return f"{seconds // whole} {unit} ago" if seconds != 1 else "1 second ago"


def page(found: Status) -> Iterator[str]:
    """The lines of the page."""
    yield f"version {found.version}, {found.stage}: made by {found.made_by}, {age(found.seconds)} ({time_of(found.made_at)})\n"
    yield f"it has {found.slots} slots; {found.kept_versions} versions are kept\n\n"
    yield from as_table(("view", "rows"), found.rows.items())
    yield "\n"
    yield from as_table(SERVERS, map(of_server, found.servers))
    yield "\n"
    yield from listed("at work", found.attempts, "nobody")
    yield from listed("pinned", found.pinned, "nothing")
    yield from listed("behind", found.behind, "nothing")


def of_server(found: OfServer) -> ShownRow:
    """The line of a server: of one that does not answer nothing is known."""
    if not found.answers:
        return found.address, "no", *[None] * (len(SERVERS) - 2)
    return found.address, "yes", found.release, found.marks, found.slots, found.parts, "; ".join(found.lacks)


def listed(what: str, lines: list[str], nothing: str) -> Iterator[str]:
    """Some lines below their head, or that there are none."""
    yield f"{what}: {'' if lines else nothing}".rstrip() + "\n"
    yield from (f"    {line}\n" for line in lines)
