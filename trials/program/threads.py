"""Runs nights by workers and beside readers where threads are short: under limits on how many there may be, and on one processor.

Each night of the bundles and some that are drawn is run by 1, 3 and 16 workers and beside 0, 3 and 16 readers. Whatever the limit, the
answer is the one that the night has without a limit, with the lines of its readers, or `memory` with status 4, and it comes in time: a
worker or a reader whose thread cannot be started does its work in the caller's. The limits are set for a user without privileges, which
they bind; where this tool is not run by root, for its own user.

A night whose text is the same however it is run starts as many threads as its words ask for: one for the second of two jobs that may
be done at once, and one more for each reader more.
"""

import os
import random
import resource
import shutil
import subprocess
import tempfile
from collections.abc import Iterator
from itertools import pairwise, product
from pathlib import Path

from trials.bundles import examples
from trials.drawn import nights as drawn_nights
from trials.ended import ended, told
from trials.program.refusing import built_library, refusing
from upkeep.words import program, words_with_program

NOBODY = 65534
LIMITS = [1, 2, 3, 5, 9, 17, 33]
SEATS = list(product((1, 3, 16), (0, 3, 16)))
DRAWN = 6
# A night that has a wave of two jobs, and none of more.
TWO_JOBS = "night_two_comps_at_a_time"
SEED = 20261125


def limited(threads):
    """Leaves the process so many threads of its user, which is nobody's where root runs it."""

    def limit():
        if os.getuid() == 0:
            os.setgroups([])
            os.setgid(NOBODY)
            os.setuid(NOBODY)
        resource.setrlimit(resource.RLIMIT_NPROC, (threads, threads))

    return limit


def on_one_processor():
    os.sched_setaffinity(0, {min(os.sched_getaffinity(0))})


def answer(built, words, bundle, before=None):
    """What is printed, and the status; None where it does not end in time."""
    try:
        ran = subprocess.run([str(built), *words], input=bundle, capture_output=True, timeout=60, preexec_fn=before, cwd="/")
    except subprocess.TimeoutExpired:
        return None
    return ran.stdout, ran.returncode


def nights():
    """Nights by their names: those of the bundles that take no words of their own, and some that are drawn."""
    for example in examples():
        if example.words == ["night"] and example.answer.endswith((b"status 0\n", b"status 1\n")):
            yield example.name, example.bundle
    source = random.Random(SEED)
    for number in range(DRAWN):
        night = drawn_nights.drawn(source)
        yield f"drawn night {number}", night.bundle(night.strategies(source, 1)[0])


def mistakes(built, name, bundle):
    """What is wrong with the answers of a night."""
    source = random.Random(name)
    wanted = {seats: answer(built, words_of(seats), bundle) for seats in SEATS}
    plain = wanted[(1, 0)]
    if plain is None or plain[1] not in (0, 1):
        yield f"{name}: {plain}"
        return
    for (workers, readers), (text, status) in wanted.items():
        if status != plain[1] or not text.startswith(plain[0]) or text[len(plain[0]) :].count(b"\n") != (0 if status else readers):
            yield f"{name}: {workers} workers and {readers} readers answer another text than one worker alone"
    for seats, limit in [(seats, source.choice(LIMITS)) for seats in SEATS] + [((16, 16), limit) for limit in LIMITS[:3]]:
        answered = answer(built, words_of(seats), bundle, limited(limit))
        if answered not in (wanted[seats], (b"memory\n", 4)):
            yield f"{name}: {seats} under a limit of {limit} threads: {answered}"
    for seats in ((16, 16), (3, 3)):
        if answer(built, words_of(seats), bundle, on_one_processor) != wanted[seats]:
            yield f"{name}: {seats} on one processor differ"


def starts(built: Path, library: Path, seats: tuple[int, int], bundle: bytes) -> int:
    ran = subprocess.run([str(built), *words_of(seats)], input=bundle, capture_output=True, timeout=60, env=refusing(library, "count", 0), cwd="/")
    return ran.stderr.count(b"t")


def unheard(built: Path, library: Path) -> Iterator[str]:
    """What is wrong with the threads that are started for these many workers and readers."""
    bundle = next(example.bundle for example in examples() if example.name == TWO_JOBS)
    for workers, first in ((1, 0), (2, 1), (16, 1)):
        alone, *beside = [starts(built, library, (workers, readers), bundle) for readers in range(5)]
        if alone != first or beside[0] <= alone or any(more != fewer + 1 for fewer, more in pairwise(beside)):
            yield f"{workers} workers and 0 to 4 readers start {alone}, {beside} threads"


def words_of(seats):
    workers, readers = seats
    return ["night", "--workers", str(workers), "--readers", str(readers)]


def main():
    given = program(words_with_program(__doc__).parse_args().program)
    with tempfile.TemporaryDirectory() as folder:
        # Where nobody may read it.
        os.chmod(folder, 0o755)
        built = Path(folder) / "whview"
        shutil.copy(given, built)
        os.chmod(built, 0o755)
        found = [list(mistakes(built, name, bundle)) for name, bundle in nights()]
        found.append(list(unheard(built, built_library(Path(folder)))))
    told(sum(found, []))
    return ended("nights where threads are short", len(found), sum(map(bool, found)))
