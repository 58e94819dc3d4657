"""Builds the program without its proof, where that is not there, and runs the command of each bundle of examples/ and tests/bundles/ by
it: what it prints is the answer that is there. Then it tells how long both programs take for a night over a star of so many rows.
"""

import subprocess
import time

from trials.bundles import examples, mistake
from trials.drawn.star import whole
from trials.ended import ended, told
from upkeep.unproved import unproved
from upkeep.words import ROOT, program, words_with_program

ROUNDS = 3


def least(started, bundle):
    """The least of some runs' seconds, since other work only adds to them."""
    found = []
    for _ in range(ROUNDS):
        began = time.monotonic()
        subprocess.run([started, "night"], input=bundle, stdout=subprocess.DEVNULL, check=True)
        found.append(time.monotonic() - began)
    return min(found)


def main():
    asked = words_with_program(__doc__, 100_000, 0).parse_args()
    proved, began = program(asked.program), time.monotonic()
    built = unproved(ROOT)
    print(f"the program without its proof is there after {time.monotonic() - began:.0f} s")
    found = [mistake(built, example) for example in examples()]
    told([wrong for wrong in found if wrong])
    bundle = whole(asked.count).encode()
    seconds = [least(each, bundle) for each in (built, proved)]
    print(f"a night over {asked.count} rows: {seconds[0]:.2f} s without its proof, {seconds[1]:.2f} s by {proved.name}")
    return ended("examples by the program without its proof", len(found), sum(wrong is not None for wrong in found))
