"""How the program is found, and the words of a tool that runs it."""

import subprocess
import sys
from argparse import ArgumentParser, RawDescriptionHelpFormatter
from pathlib import Path

ROOT = Path(__file__).resolve().parents[2]
BUILT = ROOT / "crates/whview_main/out/whview_main"


def words(about):
    """What takes a tool's words, whose help is what the tool's first comment says."""
    # A trial is named by two words.
    name = sys.argv[0] if sys.argv[0].startswith("trials/run ") else None
    return ArgumentParser(name, description=about, formatter_class=RawDescriptionHelpFormatter)


def words_with_program(about, count=None, seed=None):
    """The same of a tool that runs the program and, where it draws, is told how much of what."""
    found = words(about)
    found.add_argument("program", nargs="?", type=Path, help="what is run in place of the repository's own program")
    if count is not None:
        found.add_argument("count", nargs="?", type=int, default=count, help="how many are drawn (%(default)s)")
        found.add_argument("seed", nargs="?", type=int, default=seed, help="what the draw begins with (%(default)s)")
    return found


def program(word=None):
    """The program that a word names, or the repository's own, built where it is out of date."""
    if word:
        return Path(word).resolve()
    subprocess.run([ROOT / "tools/proved"], check=True, stdout=subprocess.DEVNULL)
    return BUILT
