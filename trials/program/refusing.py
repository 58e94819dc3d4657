"""The library of `trials/program/refuse.c`, which refuses calls of the program that it is loaded into, or tells of each."""

import os
import subprocess
from pathlib import Path

from upkeep.words import ROOT


def built_library(folder: Path) -> Path:
    """The library, built in this folder."""
    library = folder / "refuse.so"
    subprocess.run(["cc", "-O1", "-shared", "-fPIC", "-o", library, ROOT / "trials/program/refuse.c"], check=True)
    return library


def refusing(library: Path, kind: str, number: int) -> dict[str, str]:
    """The environment of a program of which this call is refused."""
    return {**os.environ, "REFUSE": kind, "AT": str(number), "LD_PRELOAD": str(library)}
