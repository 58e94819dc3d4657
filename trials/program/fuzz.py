"""Fuzzes each command of the program by AFL++ for so many seconds, and judges all that it has found.

AFL++ (Debian's package afl++, which is installed where it is missing) changes the bundles of examples/, of tests/bundles/ and of
tests/fuzzed/, by its own ways and by trials/drawn/mutations.py, and keeps those by which other parts of the program run. What it runs is the
program without its proofs, compiled for this, with a gigabyte of memory; what is judged is a program as it is used. No bundle may end
it by a signal. Each that was kept, or took two seconds, has to be answered within ten of a processor by one of the forms of
docs/FORMATS.md, and a night and a replay by the rules too. `--keep` writes some of the fewest bundles that reach what all reach to
tests/fuzzed/; the others are thrown away.
Everything runs at the lowest priority, one process at a time.
"""

import os
import shutil
import subprocess
import sys
from hashlib import sha256
from pathlib import Path
from tempfile import TemporaryDirectory

from trials.ended import ended, told
from trials.program.fuzzed.covered import covered
from trials.program.fuzzed.targets import KEPT, MOST_BYTES, TARGETS
from upkeep.words import ROOT, program, words_with_program

MEGABYTES, MILLISECONDS = 1024, 2000
# How many bundles are kept of each command at most, and how long each is.
MOST_KEPT, MOST_KEPT_BYTES = 15, 2048
QUIET = "SKIP_CPUFREQ I_DONT_CARE_ABOUT_MISSING_CRASHES NO_UI NO_AFFINITY SKIP_BIN_CHECK QUIET ALLOW_TMP".split()
SETTING = {f"AFL_{word}": "1" for word in QUIET} | {"PYTHONPATH": f"{ROOT}:{ROOT / 'python'}:{ROOT / 'tools'}", "PYTHONDONTWRITEBYTECODE": "1"}
FIGURES = ("execs_done", "corpus_count", "bitmap_cvg", "saved_crashes", "saved_hangs")


def run(words, **more):
    """Runs a program of AFL++ at the lowest priority."""
    setting = {**os.environ, **SETTING, **more}
    return subprocess.run(["nice", "-n", "19", *map(str, words)], env=setting, capture_output=True, text=True, errors="replace")


def fuzzed(built, target, room, seconds):
    """Fuzzes the program for so long, and answers what AFL++ says of it."""
    (room / "in").mkdir(parents=True)
    for name, given in target.seeds():
        (room / "in" / name).write_bytes(given or b"\n")
    limits = ["-m", MEGABYTES, "-t", MILLISECONDS, "-G", MOST_BYTES, "-V", seconds]
    ran = run(["afl-fuzz", "-i", room / "in", "-o", room / "out", *limits, "--", built, *target.words], AFL_PYTHON_MODULE="trials.program.fuzzed.mutator")
    stats = room / "out/default/fuzzer_stats"
    if not stats.is_file():
        sys.exit(f"fuzz: afl-fuzz did nothing of {target.name}:\n{ran.stdout[-2000:]}")
    said = dict(line.split(":", 1) for line in stats.read_text().splitlines())
    return {name.strip(): value.strip() for name, value in said.items() if name.strip() in FIGURES}


def found(room):
    """The bundles that were kept, crashed the program or took it too long."""
    for kind in ("queue", "crashes", "hangs"):
        yield from sorted((room / "out/default" / kind).glob("id:*"))


def keep(built, target, room):
    """Writes bundles of the fewest that reach what all reach to those that are there, until there are so many."""
    run(["afl-cmin", "-i", room / "out/default/queue", "-o", room / "least", "-m", MEGABYTES, "-t", MILLISECONDS, "--", built, *target.words])
    own = {given for _, given in target.seeds()}
    least = sorted((path.read_bytes() for path in (room / "least").glob("*")), key=len, reverse=True)
    kept, more = KEPT / target.name, [given for given in least if given not in own and len(given) <= MOST_KEPT_BYTES]
    kept.mkdir(parents=True, exist_ok=True)
    for given in more[: MOST_KEPT - len(list(kept.iterdir()))]:
        (kept / sha256(given).hexdigest()[:12]).write_bytes(given)


def tried(built, started, target, room, asked):
    """Fuzzes, judges and perhaps keeps: how many bundles were judged, and what is wrong with them."""
    figures = fuzzed(built, target, room, asked.seconds)
    print(f"{target.name}: " + ", ".join(f"{name} {figures[name]}" for name in FIGURES), flush=True)
    paths = list(found(room))
    wrong = []
    for path in paths:
        if said := target.mistake(started, path.read_bytes()):
            wrong.append(f"{target.name}: {path.name} {said}, of\n{path.read_bytes()}")
    if asked.keep:
        keep(built, target, room)
    crashes = figures["saved_crashes"]
    return len(paths), wrong + ([] if crashes == "0" else [f"{target.name}: {crashes} crashes of what is compiled for AFL++"])


def main():
    given = words_with_program(__doc__)
    given.add_argument("--seconds", type=int, default=3600, help="how long each command is fuzzed (%(default)s)")
    given.add_argument("--only", choices=TARGETS, action="append", help="this alone, and others that are named so")
    given.add_argument("--keep", action="store_true", help="writes what reaches new parts to tests/fuzzed/")
    asked = given.parse_args()
    started, count, wrong = program(asked.program), 0, []
    with TemporaryDirectory(prefix="fuzz-") as name:
        room = Path(name)
        (room / "build").mkdir()
        built = covered(ROOT / "crates/whview_main", room / "build")
        for target in [TARGETS[name] for name in asked.only or TARGETS]:
            judged, found_wrong = tried(built, started, target, room / target.name, asked)
            count, wrong = count + judged, wrong + found_wrong
            shutil.rmtree(room / target.name)
    told(wrong, 20)
    return ended("fuzzed bundles", count, len(wrong))
