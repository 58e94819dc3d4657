"""Versions that are held while they are read. Nothing here waits: a version that is being removed is one that is gone."""

from __future__ import annotations

import os
from pathlib import Path
from typing import NamedTuple

from ..finding import Failure
from ..status import AT_WORK, BAD_INPUT, BAD_WORDS
from .identity import identity_of
from .versions import ALONE, NOT_THERE, VERSIONS, is_shared, named, place, whole


class Hold(NamedTuple):
    """The number of a version, and the handle by which nights let it stay."""

    number: int
    handle: int


def hold(version: Path) -> int | None:
    """A handle by which nights let a version stay, or None where it is gone or is being removed."""
    try:
        handle = os.open(version, os.O_RDONLY | os.O_DIRECTORY)
    except NOT_THERE:
        return None
    if is_shared(handle) and version.is_dir():
        return handle
    os.close(handle)
    return None


def lost(folder: Path, number: int, status: int, text: str) -> Failure:
    """That a version is not there, by this status and text, or that it is and cannot be held."""
    version = place(folder, number)
    return Failure(AT_WORK, f"{version} {ALONE}") if version.is_dir() else Failure(status, text)


def hold_current(folder: Path) -> Hold:
    """Holds the current version. Where a night turned meanwhile it is the newer one."""
    tried: int | None = None
    while True:
        number = named(folder)
        if number is None:
            raise Failure(BAD_INPUT, f"{folder} has no version yet; `whview folder night {folder} --commit` makes the first ones")
        handle = hold(place(folder, number))
        if handle is not None:
            return Hold(number, handle)
        if number == tried:
            raise lost(folder, number, BAD_INPUT, f"{folder / 'current'} names {VERSIONS}/{number}, which is not there")
        tried = number


def hold_one(folder: Path, number: int) -> Hold:
    """The same of a version that is asked for."""
    identity = identity_of(folder)
    is_own = number == named(folder) or identity.owns(place(folder, number), number)
    handle = hold(place(folder, number)) if is_own else None
    if handle is not None:
        return Hold(number, handle)
    there = ", ".join(map(str, whole(folder, identity))) or "none"
    told = f"there is no version {number} in {folder}; there are {there}"
    raise lost(folder, number, BAD_WORDS, told) if is_own else Failure(BAD_WORDS, told)


class Held:
    """A version of a folder, the current one where none is asked for, which stays until it is let go."""

    def __init__(self, folder: Path, number: int | None = None) -> None:
        self.folder, self.is_held = folder, True
        self.number, self.handle = hold_current(folder) if number is None else hold_one(folder, number)

    @property
    def path(self) -> Path:
        return place(self.folder, self.number)

    def release(self) -> None:
        """Lets the version go."""
        if self.is_held:
            os.close(self.handle)
            self.is_held = False

    def __enter__(self) -> Held:
        return self

    def __exit__(self, *_: object) -> None:
        self.release()
