"""Builds the program without its proofs so that each access to memory is looked at, and runs the bundles by it.

Once for addresses: every bundle of examples/ and tests/bundles/, what the fuzzer has kept and all bounds, each with its own answer, and
nothing left that was not given back. Once for threads: every night by several workers and beside several readers, and no two threads may
meet at one place without an order. Whether that is noticed is seen first: by a program in which atomic accesses give no order, the same
nights have to be complained of.

The same by valgrind: memcheck over every bundle, and helgrind and drd over the nights. These two know no order that atomic accesses give,
so each of them is told what comes before and after each access. It needs clang, a C compiler and valgrind, and takes half an hour.
"""

import subprocess
from pathlib import Path
from tempfile import TemporaryDirectory

from trials.bundles import examples, mistake
from trials.ended import ended, told
from trials.program import case_groups as cases
from trials.program.case_groups import bounds, fuzzed
from trials.program.sanitized import for_addresses, for_threads, for_valgrind
from trials.servers.installed import install
from upkeep.unproved import compiled, kit, take
from upkeep.words import ROOT, words

SEATS = [["--workers", "3", "--readers", "3", "--page-keys", "1"], ["--workers", "16", "--readers", "16"]]
# A run whose accesses are looked at takes longer than another.
SECONDS = cases.SECONDS = 600
MEMCHECK = ["valgrind", "-q", "--leak-check=full", "--error-exitcode=99"]


def addresses(started):
    """What is wrong with the answers of the program whose addresses are looked at, and how many there were."""
    found = [mistake(started, example) for example in examples()]
    found += [case.mistake(started) for case in (*bounds.cases(), *fuzzed.cases())]
    return len(found), list(filter(None, found))


def complaint(words, example):
    """What is complained of while these words run an example, or None."""
    ran = subprocess.run([*words, "--input", example.path], stdin=subprocess.DEVNULL, capture_output=True, timeout=SECONDS)
    if not ran.stderr and ran.returncode in (0, 1, 3, 4):
        return None
    return f"{words} of {example.name}: {ran.stderr.decode(errors='replace')[:1000]} status {ran.returncode}"


def threads(*words):
    """What is wrong with the nights of the program whose threads are looked at, and how many there were."""
    nights = [example for example in examples() if example.words[0] == "night"]
    found = [complaint([*words, "night", *seats], example) for example in nights for seats in SEATS]
    return len(found), list(filter(None, found))


def checked(started):
    """What memcheck says of each example, and how many there were."""
    found = [complaint([*MEMCHECK, started, *example.words], example) for example in examples()]
    return len(found), list(filter(None, found))


def judged(what, tried, wrong):
    """Tells what was complained of, and answers the status."""
    told(wrong, 10)
    return ended(what, tried, len(wrong))


def main():
    words(__doc__).parse_args()
    install("valgrind", lambda: Path("/usr/include/valgrind/drd.h").is_file())
    with TemporaryDirectory(prefix="sanitize-") as name:
        room, found = Path(name), kit()
        take(found, room, ROOT / "crates/whview_main")
        status = judged("addresses", *addresses(for_addresses(found, room)))
        _, noticed = threads("setarch", "-R", for_threads(found, room, ordered=False))
        print(f"threads without an order: {len(noticed)} nights are complained of")
        status |= judged("threads", *threads("setarch", "-R", for_threads(found, room))) | (0 if noticed else 1)
        status |= judged("memcheck", *checked(compiled(found, room)))
        for tool, command in for_valgrind(found, room).items():
            status |= judged(tool, *threads(*command))
        return status
