"""The words that `whview cluster` had when the command stood behind the folder and the servers. What they mean now is told, and done."""

from __future__ import annotations

import shlex
import sys
from argparse import ArgumentParser

from .command import COMMANDS, OPTIONS
from .command import main as carried_out


def newer(given: list[str]) -> list[str]:
    """The words as they are typed now: the command, then all others as they stand."""
    words = ArgumentParser("tools/cluster", description=f"{__doc__} `whview cluster --help` has the commands.", allow_abbrev=False)
    words.add_argument("folder")
    words.add_argument("command", choices=COMMANDS)
    words.add_argument("view", nargs="?")
    for option, read_as in OPTIONS.items():
        words.add_argument(option, **{key: value for key, value in read_as.items() if key in ("action", "type", "default")})
    found = words.parse_intermixed_args(given)
    said = [found.command, found.folder, *([found.view] if found.view is not None else [])]
    for option, read_as in OPTIONS.items():
        value = getattr(found, option[2:].replace("-", "_"))
        if read_as.get("action") == "store_true":
            said += [option] if value else []
        elif read_as.get("action") == "append":
            said += [part for each in value or [] for part in (option, each)]
        elif value is not None and value != read_as.get("default"):
            said += [option, str(value)]
    return said


def main(given: list[str]) -> int:
    """Tells the command of today, and does the same."""
    words = newer(given)
    print(f"tools/cluster: this is `whview cluster {shlex.join(words)}` now", file=sys.stderr)
    return int(carried_out(words))
