"""Runs the program on cases whose answers are worked out in trials/program/case_groups, a module for each group of them.

    words    every kind of words, in the command line and in the first line of the input, all helps and mistakes, and how input comes
    bounds   what a bundle may hold, up to its bounds and one past each
    sizes    the part of sizes with weights and without: headers, each fault of a record, and which of two is told
    fuzzed   bundles that trials/run program/fuzz has kept
    filed    bundles whose parts stand in files of their own: what files hold, paths, files that cannot be read, limits and beginnings
    limits   the longest inputs, and the most columns and views
"""

from concurrent.futures import ThreadPoolExecutor

from trials.ended import ended, told
from trials.program.case_groups import bounds, filed, fuzzed, limits, sizes, words
from upkeep.words import program, words_with_program

# Each group, and how many of it are run at once: inputs of the limit take much memory.
GROUPS = {"words": (words, 4), "bounds": (bounds, 4), "sizes": (sizes, 4), "fuzzed": (fuzzed, 4), "filed": (filed, 4), "limits": (limits, 1)}


def main():
    given = words_with_program(__doc__)
    given.add_argument("--only", choices=GROUPS, action="append", help="this group alone, and others that are named so")
    asked = given.parse_args()
    started, status = program(asked.program), 0
    for name in asked.only or GROUPS:
        group, side_by_side = GROUPS[name]
        with ThreadPoolExecutor(max_workers=side_by_side) as runners:
            found = list(runners.map(lambda case: case.mistake(started), group.cases()))
        wrongs = [wrong for wrong in found if wrong]
        told(wrongs)
        status |= ended(name, len(found), len(wrongs))
    return status
