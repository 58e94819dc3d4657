"""The words of `whview folder`, and which command they mean."""

from __future__ import annotations

import gc
import sys
from collections.abc import Callable, Sequence
from enum import StrEnum
from functools import cached_property
from importlib import import_module
from pathlib import Path
from typing import overload

from ..finding import Failure, nearest, of_system, warn
from ..program import own
from ..status import BAD_INPUT, BAD_WORDS, DONE, NO_ANSWER, NOT_WRITTEN
from ..streams import drop, opened
from .helps import ABOUT, help_of, options_of
from .lock import at_work
from .numbers import MOST, is_between


class Weights(StrEnum):
    """By what weights are proposed."""

    CELLS = "cells"
    BYTES = "bytes"


HELPS = ("-h", "--help", "help")
COMMANDS: tuple[str, ...] = ("pack", "unpack", "night", "lint", "check", "plan", "certify", "sizes", "diff", "explain", "graph")
COMMANDS += ("report", "read", "serve", "sql", "init", "verify", "rollback", "log")
COMMANDS += ("put", "backup", "restore")
WITH_A_VALUE = ("--program", "--keep", "--weights", "--comp-cost", "--inst-cost", "--budget", "--workers", "--readers", "--page-keys")
WEIGHED = ("night", "check", "plan", "certify", "sizes", "explain", "graph")
# The options without a value, and the commands that take them; `--unproved` all do.
FLAGS = {
    "--commit": ("night",),
    "--always": ("night",),
    "--adopt": ("night", "rollback"),
    "--all": ("backup",),
    "--quarantine": ("night",),
    "--lenient": ("lint",),
    "--sql": ("init",),
    "--from-files": ("serve",),
}
# The numbers that the program takes behind an option, from the least to the greatest.
RANGES = {"--workers": (1, 16), "--readers": (0, 16), "--page-keys": (1, 256), "--budget": (1, 2**63 - 1)}
RANGES |= dict.fromkeys(("--comp-cost", "--inst-cost"), (1, 1_000_000))
# The options with a value that a command takes itself, each as often as it stands.
OPTIONS = {
    "read": ("--version", "--where", "--order", "--columns", "--limit", "--format", "--output"),
    "serve": ("--port", "--address", "--promise", "--versions"),
    "night": ("--accept", "--drop"),
    "log": ("--format",),
    "put": ("--batch", "--as"),
    "backup": ("--version",),
    "sql": ("--version", "--format"),
}
# How many words a command takes besides its options, and what they are; where it is not one folder.
OPERANDS = {
    "diff": (2, 2, "two files"),
    "report": (1, 2, "a folder, and perhaps a version or the word new"),
    "read": (2, 2, "a folder and a view"),
    "sql": (1, 2, "a folder, and perhaps a query as one word"),
    "init": (2, sys.maxsize, "a folder and CSV files"),
    "verify": (1, 2, "a folder, and perhaps a version"),
    "rollback": (2, 2, "a folder and a version"),
    "put": (2, sys.maxsize, "a folder and files of changes, or - for standard input"),
    "backup": (2, 2, "a folder, and one that is to be made"),
    "restore": (2, 2, "a backup, and a folder that is to be made"),
}
# Commands that judge their folder themselves, and those that read versions, which a night under way or a stopped one do not change.
JUDGE_THEMSELVES = ("unpack", "diff", "init")
READ_VERSIONS: tuple[str, ...] = ("night", "report", "read", "serve", "sql", "verify", "rollback", "log")
# Changes come in, and copies are made, beside a night too.
READ_VERSIONS += ("put", "backup", "restore")
GOES_THROUGH = {
    "night": ("--workers", "--readers", "--page-keys"),
    "check": ("--comp-cost", "--inst-cost"),
    "certify": ("--comp-cost", "--inst-cost"),
    "plan": ("--comp-cost", "--inst-cost", "--budget"),
}


class Words:
    """What was asked for: the command, its folder, the program, and the options that go through to it."""

    def __init__(self, words: Sequence[str]) -> None:
        given = list(words)
        self.named: Path | None = None
        self.unproved = False
        self.keep: int | None = None
        self.weights: Weights | None = None
        self.through: list[str] = []
        self.flags: set[str] = set()
        self.options: dict[str, list[str]] = {}
        self.operands: list[str] = []
        self.command = given.pop(0) if given else ""
        if self.command not in COMMANDS:
            near = "; an option stands behind its command" if self.command.startswith("-") else nearest(self.command, COMMANDS)
            raise Failure(BAD_WORDS, f"there is no command {self.command!r}; there are {', '.join(COMMANDS)}{near}")
        while given:
            self.take(given)
        self.judge()
        self.folders = list(map(Path, self.operands))
        self.folder = self.folders[0]

    def judge(self) -> None:
        """Refuses words that do not go together."""
        least, most, what = OPERANDS.get(self.command, (1, 1, "one folder"))
        if not least <= len(self.operands) <= most:
            raise Failure(BAD_WORDS, f"{self.command} takes {what}")
        if self.named and self.unproved:
            raise Failure(BAD_WORDS, "--unproved and --program FILE name two programs; give one")
        if self.keep and not self.commit:
            raise Failure(BAD_WORDS, "--keep goes with --commit, which makes the versions")
        if self.always and not self.commit:
            raise Failure(BAD_WORDS, "--always goes with --commit, which makes no version where nothing changed")
        if "--drop" in self.options and not self.commit:
            raise Failure(BAD_WORDS, "--drop goes with --commit, which makes a version without the table")

    @property
    def commit(self) -> bool:
        """Whether the night is kept."""
        return "--commit" in self.flags

    @property
    def always(self) -> bool:
        """Whether a version is made also where nothing changed."""
        return "--always" in self.flags

    @property
    def adopts(self) -> bool:
        """Whether a copy of a folder takes what a stopped night of the original had as its own."""
        return "--adopt" in self.flags

    @property
    def everything(self) -> bool:
        """Whether all versions are copied."""
        return "--all" in self.flags

    @property
    def quarantine(self) -> bool:
        """Whether records of changes that are wrong are put aside."""
        return "--quarantine" in self.flags

    @property
    def lenient(self) -> bool:
        """Whether keys that the program does not look at are warnings."""
        return "--lenient" in self.flags

    @property
    def from_files(self) -> bool:
        """Whether pages are read from files alone, and no program stays."""
        return "--from-files" in self.flags

    @property
    def is_sql(self) -> bool:
        """Whether a first catalogue is written in SQL."""
        return "--sql" in self.flags

    @cached_property
    def program(self) -> Path:
        """The program, once it is needed."""
        return self.named or own(self.unproved)

    @overload
    def option(self, word: str) -> str | None: ...

    @overload
    def option(self, word: str, usual: str) -> str: ...

    def option(self, word: str, usual: str | None = None) -> str | None:
        """The value of an option that stands once at most, or the usual one without it."""
        values = self.options.get(word, [])
        if len(values) > 1:
            raise Failure(BAD_WORDS, f"{word} stands twice")
        return values[0] if values else usual

    def take(self, given: list[str]) -> None:
        """Takes the next word, and its value where it has one."""
        word = given.pop(0)
        if self.command in FLAGS.get(word, ()):
            self.flags.add(word)
        elif word == "--unproved":
            self.unproved = True
        elif word in (*WITH_A_VALUE, *OPTIONS.get(self.command, ())) and not given:
            raise Failure(BAD_WORDS, f"{word} wants a value")
        elif self.has_value(word):
            self.take_value(word, given.pop(0))
        elif word.startswith("-") and word != "-":
            raise Failure(BAD_WORDS, f"{self.command} has no option {word}{nearest(word, options_of(self.command))}")
        else:
            self.operands.append(word)

    def has_value(self, word: str) -> bool:
        """Whether a word is an option of the command that has a value."""
        if word == "--weights":
            return self.command in WEIGHED
        if word == "--keep":
            return self.command == "night"
        return word == "--program" or word in (*GOES_THROUGH.get(self.command, ()), *OPTIONS.get(self.command, ()))

    def take_value(self, word: str, value: str) -> None:
        """Takes an option with its value."""
        if word == "--program":
            self.named = Path(value).resolve()
        elif word == "--keep":
            self.keep = number(value)
        elif word == "--weights":
            self.weights = kind_of_weights(value)
        elif word in GOES_THROUGH.get(self.command, ()):
            self.through += [word, number_of(word, value, self.through)]
        else:
            self.options.setdefault(word, []).append(value)


def number(word: str) -> int:
    """How many versions are to stay."""
    if not is_between(word, 1, MOST - 1):
        raise Failure(BAD_WORDS, f"--keep is how many versions stay, 1 or more, and not {word[:40]!r}")
    return int(word)


def number_of(option: str, word: str, earlier: Sequence[str]) -> str:
    """The number behind an option that goes through, which the program takes."""
    least, most = RANGES[option]
    if option in earlier:
        raise Failure(BAD_WORDS, f"{option} stands twice")
    if word.startswith("-") or not is_between(word, least, most):
        raise Failure(BAD_WORDS, f"{option} is a whole number from {least} to {most}, and not {word[:40]!r}")
    return word


def kind_of_weights(word: str) -> Weights:
    """By what weights are to be proposed."""
    kinds = [kind.value for kind in Weights]
    if word not in kinds:
        raise Failure(BAD_WORDS, f"--weights is {' or '.join(kinds)}, and not {word!r}{nearest(word, kinds)}")
    return Weights(word)


def judge_folder(words: Words) -> None:
    """Refuses what is no folder, and for all but nights one in which a night was stopped; tells of one in which a night is at work."""
    if not words.folder.is_dir():
        raise Failure(BAD_WORDS, f"{words.folder} is no folder")
    if words.command in READ_VERSIONS:
        return
    was_stopped, who = is_stopped(words.folder), at_work(words.folder)
    if who:
        warn([f"{who}; what is told here is without the changes that it has taken"])
    elif was_stopped and is_stopped(words.folder):
        from .stopped import told

        raise Failure(BAD_INPUT, told(words.folder))


def is_stopped(folder: Path) -> bool:
    """Whether a night was stopped in a folder, by the rules of today or of before there were versions."""
    # What a night does not need is imported where it is needed: that takes longer than much that a night does.
    from . import stopped, takeover

    return stopped.is_stopped(folder) or takeover.is_pending(folder)


def run_of(command: str) -> Callable[[Words], int]:
    """What carries a command out. Only its own module is imported, and with it what that needs."""
    run: Callable[[Words], int] = import_module(f"whview.folder.{command}").run
    return run


def carried_out(words: Words) -> int:
    """Carries a command out, in a folder whose catalogue is TOML or SQL."""
    if words.command in JUDGE_THEMSELVES:
        return run_of(words.command)(words)
    from .declared.home import home_of

    home = home_of(words.folder)
    if home is not None:
        from .declared.commands import carried_out as in_sql

        return in_sql(home, words)
    judge_folder(words)
    return run_of(words.command)(words)


def main(given: list[str]) -> int:
    """Carries a command out, and answers its status."""
    opened()
    if not given or given[0] in HELPS:
        print(ABOUT if len(given) < 2 or given[1] not in COMMANDS else help_of(given[1]), file=sys.stdout if given else sys.stderr)
        return DONE if given else BAD_WORDS
    if given[0] in COMMANDS and any(word in HELPS[:2] for word in given[1:]):
        print(help_of(given[0]))
        return DONE
    # What a command holds is without cycles, and to look for them among a million rows takes a third of its time.
    gc.disable()
    try:
        words = Words(given)
        status = carried_out(words)
        sys.stdout.flush()
        return status
    except Failure as failure:
        warn(failure.lines)
        status = failure.status
    except OSError as error:
        warn([f"whview folder: {of_system(error)}"])
        status = NOT_WRITTEN
    except Exception:
        import traceback

        warn([traceback.format_exc().rstrip("\n")])
        warn(["whview folder: this is a fault of the tool itself; a night that was under way is undone"])
        status = NO_ANSWER
    drop_output()
    return status


def drop_output() -> None:
    """Has what cannot be printed be no further trouble as the process ends."""
    try:
        sys.stdout.flush()
    except OSError:
        drop(sys.stdout)
