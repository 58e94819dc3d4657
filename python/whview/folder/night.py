"""`night`: carries a folder's night out. Without `--commit` it writes new/ with every view, its catalogue and a report; with it, a new
version.

A strategy.txt is taken where there is one; else a plan is made, of sizes that are given or told by the last report, and certified. Where
nothing tells of sizes, since there was no night or a view is defined otherwise, it goes view by view. A refused night changes no file. A
file of the current version that is not as it was made is made anew, or ends the night where it is a base view's table.
"""

from __future__ import annotations

import os
from typing import TYPE_CHECKING

from ..catalogue.from_toml import FILE as CATALOGUE
from ..disk import remove, write
from ..finding import Failure, warn
from ..status import BAD_INPUT, DONE, NOT_WRITTEN, Status
from .carried import carried
from .commit import commit
from .folder import Folder
from .interrupts import Interrupts
from .lock import Lock
from .stopped import settle
from .takeover import is_pending
from .versions import CURRENT, strays

if TYPE_CHECKING:
    from .command import Words


def preview(words: Words) -> str:
    """Writes new/ whole, by a rename. Answers the report."""
    folder = Folder(words.folder, for_night=True, accepted=words.options.get("--accept", ()), sifts=words.quarantine)
    night, part, new = carried(folder, words), words.folder / "new.part", words.folder / "new"
    try:
        os.makedirs(part)
        for view, table in night.tables():
            table.put(part / f"{view.name}.csv", False)
        write(part / CATALOGUE, [night.folder.catalogue.content])
        report = night.report()
        write(part / "report.txt", [report.encode()])
        remove(new)
        os.rename(part, new)
    finally:
        remove(part)
    return report


def tell(words: Words, report: str) -> None:
    """Prints the report. A night that was kept is kept, whether or not that can be done."""
    try:
        print(report, end="", flush=True)
    except OSError as error:
        if not words.commit:
            raise
        done = f"the night is done, and is {os.readlink(words.folder / CURRENT)}"
        raise Failure(NOT_WRITTEN, f"{done}; its report.txt, which is there, could not be printed: {error.strerror}") from error


def run(words: Words) -> Status:
    with Interrupts() as interrupts, Lock(words.folder):
        if is_pending(words.folder) and not words.commit:
            again = f"`whview folder night {words.folder} --commit` finishes or undoes it"
            raise Failure(BAD_INPUT, f"a commit was stopped in {words.folder}; {again}")
        warn(settle(words.folder, words.commit, words.adopts))
        warn(strays(words.folder))
        report = commit(words, interrupts) if words.commit else preview(words)
    tell(words, report)
    return DONE
