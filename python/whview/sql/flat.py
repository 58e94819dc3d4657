"""The words that `whview sql` had before it had commands: options alone. What they mean now is told, and done."""

import argparse
import shlex
import sys

from .command import COMMANDS, FLAGS, OPTIONS, Words, answer, complete, is_said
from .engines.registry import ENGINES, USUAL

# What goes with these, and not alone.
BESIDE = {
    "measured": ("plan", "dry"), "repair": ("check",), "in-turn": ("check",), "line": ("history",), "changed": ("capture", "open"), "drop": ("capture",),
    "anew": ("plan", "dry"), "without-role": ("capture",), "from-log": ("capture",),
}
# Which command such words are now: the first of these that they have, in this order.
FIRST = ("catalogue", "capture", "uncapture", "sizes", "sizes-after", "costs", "check", "history", "dry", "plan", "create", "open", "explain", "night")


def asked(given: list[str]) -> argparse.Namespace:
    """The words of the command line."""
    words = Words("tools/sql", description=f"{__doc__}\n\n`whview sql --help` has the commands.", formatter_class=argparse.RawDescriptionHelpFormatter)
    words.add_argument("--engine", choices=tuple(ENGINES), default=USUAL)
    for name in FLAGS:
        words.add_argument(f"--{name}", action="store_true")
    for option, read_as in OPTIONS.items():
        if read_as.get("action") != "store_true" and option != "--engine":
            words.add_argument(option, **{key: value for key, value in read_as.items() if key != "help"})
    words.add_argument("path", nargs="?")
    words.add_argument("names", nargs="*")
    found = complete(words.parse_intermixed_args(given))
    if (found.path is None) != found.catalogue:
        words.error("--catalogue is made of a database, and all else of a bundle or a folder")
    for name, others in BESIDE.items():
        if is_said(found, name) and name != "measured" and not any(is_said(found, other) for other in others):
            words.error(f"--{name} goes with {' or '.join(f'--{other}' for other in others)}")
    if found.names and not (found.check or found.capture or found.live and found.open):
        words.error(f"unrecognized arguments: {' '.join(found.names)}")
    return found


def newer(words: argparse.Namespace) -> str:
    """The commands that mean the same, as they are typed now."""
    name = next((each for each in FIRST if is_said(words, each)), "night")
    name = "sizes" if name == "sizes-after" else name
    # A night could be written behind what it stands on.
    is_more = words.night and name in ("create", "open")
    return "; ".join(typed(words, each) for each in (name, *(["night"] if is_more else [])))


def typed(words: argparse.Namespace, name: str) -> str:
    """A command with its options, as it is typed."""
    said = ["whview", "sql", name]
    for option in COMMANDS[name].options:
        read_as = OPTIONS[option]
        value = getattr(words, read_as.get("dest", option[2:].replace("-", "_")))
        if read_as.get("action") == "store_true":
            said += [option] if value else []
        elif read_as.get("action") == "append":
            said += [part for each in value for part in (option, each)]
        elif value is not None and value != read_as.get("default"):
            said += [option, value]
    return shlex.join([*said, *([words.path] if words.path else []), *words.names])


def main(given: list[str]) -> int:
    """Tells the command of today, and does the same."""
    words = asked(given)
    print(f"tools/sql: this is `{newer(words)}` now", file=sys.stderr)
    return answer(words)
