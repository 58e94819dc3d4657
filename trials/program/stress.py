"""One writer that publishes nights without end, beside readers that look whether each page that they are given is one version's.

Each block of 256 rows has one whose count is the sum of the others', every night writes one block anew by two operations, and a reader
asks for a block that looks drawn, of 391. With 1, 2, 4 and 8 readers in turn, and 2, 3 and 4 versions kept, or with as many as are told.
The status is 1 where a page was torn, or a reader got none.

The program is the crate test_stress, which is proved and built first; that no reader waits is a matter of types there, and no test's.
"""

import os
import subprocess
import sys
from contextlib import contextmanager
from pathlib import Path
from tempfile import TemporaryDirectory

from upkeep.unproved import compiled, kit, take
from upkeep.words import ROOT, words

CRATE = ROOT / "crates/test_stress"
OUTSIDE = ["-name", "out", "-prune", "-o", "-type", "f", "!", "-name", "README.md"]


@contextmanager
def unproved():
    """The program that is built without its proof, as long as it is wanted."""
    with TemporaryDirectory(prefix="stress-") as name:
        found, room = kit(), Path(name)
        take(found, room, CRATE)
        yield compiled(found, room)


@contextmanager
def proved():
    """The program that is proved, and built where it is older than its sources."""
    built = CRATE / "out/test_stress"
    find = ["find", ROOT / "crates", *OUTSIDE, "-newer", built, "-print", "-quit"]
    if not built.is_file() or subprocess.run(find, check=True, capture_output=True).stdout:
        subprocess.run(["rt", "run", "--", "check", "1", "1", "1"], cwd=CRATE, check=True, stdout=sys.stderr)
        built.touch()
    yield built


def main():
    given = words(__doc__)
    given.add_argument("seconds", nargs="?", type=int, default=60, help="how long all take together (%(default)s)")
    given.add_argument("--readers", type=int, action="append", help="so many readers, 1 to 16, and others that are told so")
    given.add_argument("--versions", type=int, action="append", help="so many versions are kept, 2 to 4, and others that are told so")
    given.add_argument("--unproved", action="store_true", help="by a build without the proof, within minutes")
    asked = given.parse_args()
    os.environ["PATH"] += ":/opt/rattle/bin"
    turns = [(versions, readers) for versions in asked.versions or [2, 3, 4] for readers in asked.readers or [1, 2, 4, 8]]
    length, status = -(-asked.seconds // len(turns)), 0
    with unproved() if asked.unproved else proved() as program:
        for versions, readers in turns:
            print(f"{versions} versions, {readers} readers, {length} s: ", end="", flush=True)
            status |= subprocess.run([program, "check", *map(str, (readers, length, 391, 256, versions))]).returncode
    return status
