"""What a night's report says first, a line each: by which strategy it went and what is known of that, its work and how much of that was
idle, its time, and whether the derived views were computed anew.
"""

from __future__ import annotations

import re
from pathlib import Path
from collections.abc import Mapping
from typing import TYPE_CHECKING

from ..strategy.sizes import WITH_WEIGHTS
from .strategy import FILE

if TYPE_CHECKING:
    from .folder import Folder
    from .sizes import GivenText, Size
    from .versions import State

TOLD = re.compile(r"^time: ([^\n]+)$.*^work ([0-9]+)$", re.MULTILINE | re.DOTALL)
VERDICT = re.compile(r"certified (all|one-way) work ([0-9]+)")
LEAST = {"all": "no correct strategy has less", "one-way": "no strategy whose Comps take one view each has less"}
PLANNED, TIME, ANEW, ASIDE = "strategy: a plan of work ", "time: ", "views: computed anew, since ", "put aside: "
TESTS = "tests: "
COUNTED = "; what changed is counted by their definitions of now, over the tables before and after"
ONE_BY_ONE = "strategy: view by view, as the catalogue has them, without a plan: "
NEXT = "the next night is planned by those that stand below"


def given(folder: Path) -> str:
    """Of a strategy that lies in the folder."""
    return f"strategy: that of {FILE}, whatever its work; without this file a night plans, as `whview folder plan {folder}` shows"


def planned(verdict: str, sizes: GivenText) -> str:
    """Of a plan, with what the program says of it, and the sizes."""
    found, by = VERDICT.fullmatch(verdict), f"by the sizes that were expected ({sizes.source})"
    if not found:
        return f"strategy: a plan, {by}; of it the program says {verdict}"
    unit = " by weight" * sizes.text.startswith(",".join(WITH_WEIGHTS))
    return f"{PLANNED}{found[2]}{unit}; certified: {LEAST[found[1]]}, {by}"


def without_sizes(has_views_before: bool) -> str:
    """Of a night that nothing tells sizes of, for the want of a night before it, or since its views are others."""
    why = "the catalogue has other views than the night before, whose sizes nobody knows" if has_views_before else "no sizes are known yet"
    return f"{ONE_BY_ONE}{why}; {NEXT}"


def given_up() -> str:
    """Of a night whose plan would have had to be searched for too long."""
    return f"{ONE_BY_ONE}the search for one was given up"


def work(head: str, sizes: Mapping[str, Size]) -> str:
    """The work of the steps that the program tells, and how much of it is that of Comps through which no changed row goes."""
    steps = [line.split(": ") for line in head.split("\n") if line.startswith(("comp ", "inst "))]
    comps = [(named.partition(" from ")[2].split(), int(rows)) for named, rows in steps if named.startswith("comp ")]
    idle = [rows for sources, rows in comps if not any(sizes[name].changed for name in sources)]
    told = f"work: {sum(int(rows) for _, rows in steps)} rows as it was carried out"
    if not idle:
        return f"{told}; changed rows went through each Comp"
    return f"{told}; {sum(idle)} of them are those of {len(idle)} of {len(comps)} Comps without a changed row, where nothing was looked up"


def time(in_program: float, in_all: float) -> str:
    """How many seconds went by."""
    return f"{TIME}{in_all:.2f} s in all but for the end of writing, {in_program:.2f} s of it in the program"


def aside(folder: Folder) -> str:
    """Which records of changes were put aside, and where those of a night that is kept lie."""
    counts = ", ".join(f"{len(aside.reasons):,} of {aside.told}" for aside in folder.asides)
    where = f"; they lie in quarantine/{folder.taken.name.partition('.')[0]}" if folder.taken else ""
    return f"{ASIDE}{counts}{where}"


def tests(folder: Folder) -> str:
    """How many tests of the catalogue the tables after the night were judged by, which a night that goes on has kept."""
    return f"{TESTS}{len(folder.catalogue.tests)} of the catalogue are kept"


def has_judged(state: State) -> bool:
    """Whether the night that made the tables judged them by the tests of its catalogue."""
    return state.report.is_file() and f"\n{TESTS}" in state.report.read_text()


def of_last_night(state: State) -> str:
    """The work and the seconds of the night that made the tables, where its report tells them, or an empty text."""
    found = TOLD.search(state.report.read_text()) if state.number is not None and state.report.is_file() else None
    return f"the night of version {state.number} had work {found[2]}, and took {found[1]}" if found else ""


def anew(version: int | None, is_by_another: bool) -> str:
    """Why the derived views were computed anew after a version: by another catalogue, or over tables that are not those of its night."""
    another, later = f"the catalogue is another one than that of version {version}", f"files of version {version} are not as they were made"
    return f"{ANEW}{another if is_by_another else later}{COUNTED}"
