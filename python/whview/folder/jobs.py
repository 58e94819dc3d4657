"""A search of `serve` as its two processes tell it to each other: what is asked for, and what came of it, each as JSON in a line or a part."""

from __future__ import annotations

import json
from dataclasses import asdict, dataclass

from .forms import Form
from .pages import DEADLINE
from .reading import Mark, VersionKey


@dataclass(frozen=True, slots=True)
class Job:
    """A page that is searched for: the folder, the version and by what its folder is known, the view, the rows and columns that are asked for,
    how many rows, in which form, and for how many seconds at most.
    """

    folder: str
    version: int
    key: VersionKey
    view: str
    after: int
    limit: int
    form: Form
    where: tuple[str, ...] = ()
    order: str | None = None
    columns: str | None = None
    seconds: float = DEADLINE

    def written(self) -> bytes:
        """It as a line."""
        return json.dumps(asdict(self)).encode() + b"\n"

    @classmethod
    def read(cls, line: bytes) -> Job:
        """The job that a line is."""
        found = json.loads(line)
        device, inode, changed = found.pop("key")
        known = {"key": (device, inode, changed), "form": Form(found["form"]), "where": tuple(found["where"])}
        return cls(**found | known)


@dataclass(frozen=True, slots=True)
class Told:
    """What is told of a page: behind which row the next one begins, if there is one, and the last known place before that; or in the place of a
    page that the table is damaged, or that it takes more room or time than there is.
    """

    following: int | None = None
    mark: Mark | None = None
    damaged: str | None = None
    unfit: str | None = None

    def written(self) -> bytes:
        """It as a part of an answer."""
        return json.dumps(asdict(self)).encode()

    @classmethod
    def read(cls, part: bytes) -> Told:
        """What such a part tells."""
        found = json.loads(part)
        mark = found["mark"]
        return cls(found["following"], Mark(*mark) if mark else None, found["damaged"], found["unfit"])
