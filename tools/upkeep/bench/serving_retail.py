"""Nights of 28 rows over 25 MB of a shop chain with fifteen views, side by side: in one folder that is served and in a copy that is not, each in
turn with the same changes: by the clock, from the command's beginning to its end, and in processor seconds of the command and what it starts.
"""

import resource
import shutil
import subprocess
import tempfile
import time
from contextlib import contextmanager
from pathlib import Path
from statistics import median
from typing import NamedTuple

from trials.drawn import retail
from upkeep.words import ROOT, program

MEGABYTES, NIGHTS, SOON = 25, 9, 120


class Took(NamedTuple):
    """Seconds by the clock, and of a processor."""

    clock: float
    worked: float


def worked() -> float:
    """The processor seconds of all commands that have ended."""
    used = resource.getrusage(resource.RUSAGE_CHILDREN)
    return used.ru_utime + used.ru_stime


def night(built: Path, folder: Path) -> Took:
    """What a night takes that is kept."""
    words = [ROOT / "whview", "folder", "night", folder, "--commit", "--keep", "2", "--program", built]
    began, before = time.perf_counter(), worked()
    subprocess.run(words, check=True, stdout=subprocess.DEVNULL, stderr=subprocess.DEVNULL)
    return Took(time.perf_counter() - began, worked() - before)


@contextmanager
def served(built: Path, folder: Path):
    """A folder while it is served, once its version is in memory."""
    words = [ROOT / "whview", "folder", "serve", folder, "--port", "0", "--program", built]
    with subprocess.Popen(words, stdout=subprocess.DEVNULL, stderr=subprocess.PIPE, text=True) as running:
        try:
            yield running
        finally:
            running.kill()


def await_computed(built: Path, folder: Path, other: Path, drawn: retail.Retail) -> None:
    """Nights until one of the folder that is served was computed there, which its report tells by the time in the program."""
    due = time.monotonic() + SOON
    while time.monotonic() < due:
        time.sleep(1)
        both(built, folder, other, drawn)
        took = (folder / "current/report.txt").read_text().partition("writing, ")[2].partition(" s ")[0]
        if float(took) < 0.2:
            return
    raise TimeoutError("no night was computed by the process that serves its folder")


def both(built: Path, folder: Path, other: Path, drawn: retail.Retail) -> tuple[Took, Took]:
    """What the next night takes in each folder."""
    changes = drawn.night(1)
    for each in (folder, other):
        retail.put_changes(each, changes)
    return night(built, folder), night(built, other)


def measure(asked) -> None:
    built, drawn = program(asked.program), retail.Retail(MEGABYTES * 1_000_000 // retail.ORDER)
    with tempfile.TemporaryDirectory() as name:
        folder, other = Path(name) / "served", Path(name) / "other"
        retail.lay(folder, drawn)
        retail.put_changes(folder, drawn.night(1))
        night(built, folder)
        shutil.copytree(folder, other, symlinks=True)
        with served(built, folder):
            await_computed(built, folder, other, drawn)
            times = [both(built, folder, other, drawn) for _ in range(NIGHTS)]
    print(f"    nights of 28 rows over {MEGABYTES} MB, medians of {NIGHTS}: {told(times, 0)} by the clock, {told(times, 1)} of a processor", flush=True)


def told(times: list[tuple[Took, Took]], kind: int) -> str:
    """The medians of both folders, and of what the one takes over the other."""
    served_ones, others = ([each[place][kind] for each in times] for place in (0, 1))
    ratio = median(one / other for one, other in zip(served_ones, others))
    return f"{median(served_ones):.2f} s served and {median(others):.2f} s not ({ratio:.2f} times)"
