"""The parser by which views are read, which is one of the distribution's packages."""

from __future__ import annotations

import os
import sys
from collections.abc import Sequence
from importlib.util import find_spec
from pathlib import Path

from ..sql.tokens import Unfit

# The interpreter that has the distribution's packages.
DISTRIBUTION = Path("/usr/bin/python3")
MISSING = "python3-pglast is missing, by which views are read: apt-get install -y python3-pglast"


def with_parser(words: Sequence[str]) -> None:
    """Goes on by the distribution's interpreter, with its packages, where this one has no parser."""
    if find_spec("pglast") is not None:
        return
    if DISTRIBUTION.exists() and (sys.flags.no_site or Path(sys.executable).resolve() != DISTRIBUTION.resolve()):
        os.execv(DISTRIBUTION, [str(DISTRIBUTION), *words])
    raise Unfit(MISSING)
