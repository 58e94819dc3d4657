"""The pages of desks while a writer publishes nights without end, and with no writer, against readers in plain Rust.

A table of 391 blocks of 256 rows, and pages of 1 and of 256 rows after one that looks drawn, by 1 to 3 readers. Plain Rust is
tools/yardsticks/readers/peer.rs: ordered maps, two that readers are turned over between (`left_right`), or one for each reader (`own`). The
programs run a second each in turn. What is printed is the median number of pages a second, of how long
999 of a thousand pages took at most (as a power of two), of nights a second, and the ratios of the pages.
"""

import os
import subprocess
from statistics import median
from tempfile import TemporaryDirectory

from upkeep.bench import in_turn, peer
from upkeep.words import ROOT

ROUNDS, SECONDS, BLOCKS = 5, 1, 391
CRATE = ROOT / "crates/test_stress"


def figures(text):
    """The pages, the nights and the 99.9th percentile of one run."""
    said = text.split()
    return int(said[1]), int(said[3]), int(said[said.index("999") + 1])


def measure(asked):
    subprocess.run(["rt", "run", "--", "check", "1", "1", "1"], cwd=CRATE, check=True, capture_output=True)
    with TemporaryDirectory() as room:
        plain = peer(room, "readers/peer.rs")
        for rows in 1, 256:
            for readers in 1, 2, 3:
                show(plain, rows, readers, asked.rounds)


def show(plain, rows, readers, rounds):
    """Prints one table: ours and the peers, idle and busy."""
    ways = {}
    for kind in "idle", "busy":
        ways["whview", kind] = [CRATE / "out/test_stress", kind, readers, SECONDS, BLOCKS, rows]
        for name in "left_right", "own":
            ways[name, kind] = [plain, name, kind, readers, SECONDS, BLOCKS, rows]
    runs = in_turn({way: (command, os.devnull) for way, command in ways.items()}, rounds)
    found = {way: [figures(ran.text) for ran in each] for way, each in runs.items()}
    print(f"{rows} rows, {readers} readers")
    for (name, kind), each in found.items():
        pages, nights, slow = (median(one[place] for one in each) for place in range(3))
        print(f"  {name:10} {kind} {pages / SECONDS:12,.0f} pages/s {nights / SECONDS:9,.0f} nights/s {slow / 1000:9.1f} us at 99.9 %")
    for kind in "idle", "busy":
        print(f"  over left_right, {kind}: {ratio(found, ('whview', kind), ('left_right', kind)):.2f}")
    busy, idle = ("whview", "busy"), ("whview", "idle")
    print(f"  busy over idle: {ratio(found, busy, idle):.2f}, at 99.9 % {ratio(found, busy, idle, 2):.1f}")


def ratio(found, one, other, place=0):
    return median(a[place] / b[place] for a, b in zip(found[one], found[other]))
