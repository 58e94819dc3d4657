"""The one command, `whview`: which room of the product a word leads to."""

import os
import signal
import sys

if __name__ == "__main__":
    # What this file's folder has is found as parts of the package alone.
    HERE = os.path.dirname(os.path.realpath(__file__))
    sys.path[:] = [os.path.dirname(HERE), *(place for place in sys.path if place != HERE)]

from importlib import import_module
from whview.commands import COMMANDS, HELP, OF_PROGRAM, OWN, ROOMS

HELPS = ("-h", "--help", "help")
BAD_WORDS = 2


def help_without_program(command: str) -> str:
    """What is told of a command of the program while no program is there."""
    about, options = OF_PROGRAM[command]
    told = "No program is built: `whview use unproved` builds one within minutes, `whview use proved` proves it too. It has the whole help."
    return f"{about}\n\nUsage: whview {command} [{'] ['.join(options)}]\n\n{told}\n"


def helped(words: list[str]) -> int:
    """Prints the help of all, or of the command that is named."""
    if not words:
        print(HELP, end="")
        return 0
    if words[0] in OF_PROGRAM:
        print(help_without_program(words[0]), end="")
        return 0
    return main([words[0], "--help", *words[1:]])


def main(words: list[str]) -> int:
    """Carries a command out, and answers its status."""
    first = words[0] if words else "--help"
    if first in HELPS:
        return helped(words[1:])
    if first == "--version":
        return int(import_module("whview.using").versions())
    if first in ROOMS:
        return int(import_module(f"whview.{first}.command").main(words[1:]) or 0)
    if first in OWN:
        return int(import_module(f"whview.{OWN[first]}").run(first, words[1:]))
    near = import_module("whview.finding").nearest(first, COMMANDS)
    print(f"whview: there is no command {first!r}; `whview --help` has all{near}", file=sys.stderr)
    return BAD_WORDS


if __name__ == "__main__":
    # Until a night takes its own care, nothing is begun that would have to be undone.
    if signal.getsignal(signal.SIGINT) is signal.default_int_handler:
        signal.signal(signal.SIGINT, signal.SIG_DFL)
    sys.exit(main(sys.argv[1:]))
