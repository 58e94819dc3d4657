"""The program without its proofs, compiled so that AFL++ sees which parts of it run."""

from pathlib import Path

from trials.servers.installed import install
from upkeep.unproved import NotBuilt, kit, object_of, ran, take

RUNTIME = Path("/usr/lib/afl/afl-compiler-rt.o")
LIBRARIES = ["-rdynamic", "-lm", "-ldl", "-lpthread"]


def covered(crate, room):
    """Builds the program of a crate in a room and answers where it lies."""
    install("afl++", RUNTIME.is_file)
    if not RUNTIME.is_file():
        raise NotBuilt("AFL++ is not there, and cannot be installed; it is Debian's package afl++")
    found = kit()
    take(found, room, crate)
    module = object_of(found, room, "-O1", "-fsanitize-coverage=trace-pc-guard")
    ran(["cc", "-o", room / "program", module, RUNTIME, found / "c/libos_c.a", found / "c/liblibc_c.a", *LIBRARIES])
    return room / "program"
