"""Nights that are killed, hindered and doubled anywhere: of what was put into a folder nothing is lost, doubled or half there.

As many nights as are asked for are killed at drawn places; a fifth as many each have a call that fails, a signal, a reader or more
changes there, or race with another night. The places are the calls by which a night changes its folder, as strace tells them; `all`
in place of a number goes through all of them. Tools that are spoilt in several ways are tried first, and each has to be noticed. Last
come drawn histories of a folder: nights, puts, rollbacks, backups and restores, any of them hindered and two at once, with prunes, strays,
damaged files, copies and records put aside; with 0 in place of the number they come alone.
"""

import os
import shutil
import sys
import tempfile
import time
from multiprocessing import Pool
from pathlib import Path
from random import Random

from trials.folder.stopping.copies import copied
from trials.folder.stopping.sweep import ALL, LANES, Counts, Sweep
from trials.folder.stopping.traced import installed
from trials.servers.installed import install
from upkeep.words import ROOT, program, words_with_program

MEMORY = "/dev/shm"


def in_memory():
    """A folder in memory where there is one that programs can be run from: the nights are killed, not the machine, so it shows as much."""
    there = os.access(MEMORY, os.W_OK) and not os.statvfs(MEMORY).f_flag & os.ST_NOEXEC
    return Path(tempfile.mkdtemp(prefix="try_stops", dir=MEMORY if there else None))


def places(word):
    return ALL if word == "all" else int(word)


def main():
    given = words_with_program(__doc__)
    given.add_argument("count", nargs="?", type=places, default=100, help="how many, or all (%(default)s)")
    given.add_argument("seed", nargs="?", type=int, default=1, help="what the draw begins with (%(default)s)")
    given.add_argument("--seconds", type=float, default=10, help="how long histories are drawn (%(default)s)")
    asked = given.parse_args()
    built, kills, source = program(asked.program), asked.count, Random(asked.seed)
    began, wrong = time.monotonic(), []
    install("strace", installed)
    if not installed():
        print("try_stops: there is no strace here, so that nights are stopped after drawn times and no call fails")
    room = in_memory()
    tool = copied(ROOT, room / "tools", built)
    with Pool(LANES) as pool:
        for figures in Sweep(tool, room, pool, source, Counts.of(kills, asked.seconds)).all():
            print(f"{figures} ({time.monotonic() - began:.0f} s)", flush=True)
            print("".join(f"  {each.strip()}\n" for each in figures.wrong), end="", flush=True)
            wrong += figures.wrong
    if wrong:
        sys.exit(f"try_stops: {len(wrong)} wrong; the folders of these nights are in {room}")
    shutil.rmtree(room)
