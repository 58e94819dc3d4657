"""Copies of the tool that the nights are run by: as it is, and spoilt in ways each of which has to be noticed."""

import compileall
import shutil
from typing import NamedTuple

from trials.folder.stopping.traced import Tool

SPOILER = """import fcntl, os, shutil
real = {name: getattr(os, name) for name in ("rename", "link", "unlink", "symlink")}
"""
CLAIMS_BY_A_COPY = """
def rename(one, other, **more):
    claims = "/changes/" in str(one) and ".part/changes/" in str(other)
    return shutil.copyfile(one, other) if claims else real["rename"](one, other, **more)
os.rename = rename
"""
TURNS_EARLY = """
def rename(one, other, **more):
    folder, kind = os.path.split(os.path.dirname(other))
    if str(one).endswith(".part") and kind == "versions":
        if os.path.lexists(folder + "/early"):
            real["unlink"](folder + "/early")
        real["symlink"]("versions/" + os.path.basename(other), folder + "/early")
        real["rename"](folder + "/early", folder + "/current")
    return real["rename"](one, other, **more)
os.rename = rename
"""
DOES_NOT_PUT_BACK = """
def link(one, other, **more):
    return None if "/changes/" in str(other) else real["link"](one, other, **more)
os.link = link
"""
OVERWRITES = """
def link(one, other, **more):
    if "/changes/" in str(other) and os.path.exists(other):
        real["unlink"](other)
    return real["link"](one, other, **more)
os.link = link
"""
TAKES_NO_LOCK = """
fcntl.flock = lambda *words: None
"""
WRITES_INTO_VERSIONS = """
def symlink(one, other, **more):
    versions = os.path.dirname(other) + "/versions"
    for name in os.listdir(versions):
        with open(os.path.join(versions, name, "data/orders.csv"), "a") as file:
            file.write(chr(10))
    return real["symlink"](one, other, **more)
os.symlink = symlink
"""
FORGETS_READERS = """
flock = fcntl.flock
def without_folders(handle, kind):
    return None if os.path.isdir("/proc/self/fd/" + str(handle)) else flock(handle, kind)
fcntl.flock = without_folders
"""
LAYS_NOTHING_ASIDE = """
def rename(one, other, **more):
    return shutil.rmtree(one) if "/quarantine/" in str(other) else real["rename"](one, other, **more)
os.rename = rename
"""
WRITES_NOTHING_THROUGH = """
os.fsync = lambda handle: None
"""
LEAVES_SIGNALS_ALONE = """
import signal
signal.signal = lambda number, handler: None
"""
SCRIPT = "python/whview/__main__.py"


class Spoilt(NamedTuple):
    """A way in which a tool is spoilt, and what has to show that: what happens to which nights at which of their calls."""

    way: str
    code: str
    start: str
    what: str = "nothing"
    call: str = ""


SPOILT = [
    Spoilt("claims changes by a copy", CLAIMS_BY_A_COPY, "later night"),
    Spoilt("turns current before the night is decided", TURNS_EARLY, "later night", "killed", "rename"),
    Spoilt("does not put changes back", DOES_NOT_PUT_BACK, "refused night"),
    Spoilt("overwrites as it puts changes back", OVERWRITES, "refused night", "arrivals", "rename"),
    Spoilt("loses what it puts aside", LAYS_NOTHING_ASIDE, "records put aside"),
    Spoilt("takes no lock", TAKES_NO_LOCK, "later night", "two nights"),
    Spoilt("writes into versions", WRITES_INTO_VERSIONS, "later night"),
    Spoilt("removes versions that are held", FORGETS_READERS, "keeping 1", "a reader that holds"),
    Spoilt("has nothing written through", WRITES_NOTHING_THROUGH, "later night", "written through"),
    Spoilt("leaves signals as they are", LEAVES_SIGNALS_ALONE, "later night", "TERM", "rename"),
]


def copied(root, place, program):
    """A copy of the package, compiled, so that its nights begin at once, and of the program; all users may read it."""
    place.mkdir()
    place.parent.chmod(0o711)
    shutil.copytree(root / "python", place / "python", ignore=shutil.ignore_patterns("__pycache__"))
    compileall.compile_dir(place, quiet=2)
    shutil.copy(program, place / "program")
    return Tool(place / SCRIPT, place / "program")


def spoilt(tool, place, code):
    """A copy of a tool that is spoilt by code which runs before it."""
    shutil.copytree(tool.script.parents[2], place)
    script = place / SCRIPT
    first, word, rest = script.read_text().partition("import sys\n")
    script.write_text(f"{first}{word}{SPOILER}{code}{rest}")
    return Tool(script, tool.program)
