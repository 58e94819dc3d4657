"""The words of `whview sql`, and what is written for them."""

import argparse
import re
import sys
from collections.abc import Iterable, Sequence
from dataclasses import dataclass
from typing import Any, NoReturn

from ..finding import Failure, warn
from ..status import BAD_WORDS, DONE, REFUSED
from ..views.take import taken
from .capture import command as live
from .capture.live import Live
from .catalogue import read
from .comments import Comments
from .engines.registry import ENGINES, USUAL
from .engines.registry import LIVE as LIVE_ENGINES
from .tokens import Unfit

# What is said of tables that applications write to.
LIVE = ("live", "take", "capture", "uncapture", "catalogue", "sizes", "sizes-after", "plan", "dry", "costs", "check", "history")
# All that can be asked for, and what it can be asked for with.
FLAGS = (
    "create", "open", "night", "explain", *LIVE, "measured", "repair", "in-turn", "line", "changed", "drop", "without-role", "from-log", "unproved", "anew",
)
# So many letters of a message stand in a script that raises it.
MOST_TOLD = 600
ABOUT = """\
Writes nights as SQL that the user's own database runs, over tables of one's own or over tables that applications write to.

    whview sql COMMAND [OPTIONS] WAREHOUSE [NAME ..]

{commands}

WAREHOUSE is a bundle or a folder of its files: the catalogue and a strategy, or a plan; no data is needed. `whview sql COMMAND --help` has a
command's options. Where a script cannot be written, one that raises stands in its place, so that no database takes an empty one for a night.
What is written is tested, and not proved. docs/SQL.md goes through all of it.
"""
# What each option is for, and how it is read.
OPTIONS: dict[str, dict[str, Any]] = {
    "--engine": {"choices": tuple(ENGINES), "default": USUAL, "help": "whose SQL is written (%(default)s)"},
    "--schema": {"metavar": "NAME", "help": "where the tables stand: without it public, over live tables wh; in SQLite the database main, or a word before names"},
    "--database": {"default": "", "metavar": "DATABASE", "help": "the database that is asked: what psql takes as one, or SQLite's file"},
    "--from": {"dest": "source", "metavar": "SCHEMA", "help": "the schema of the tables that applications write to; without it public"},
    "--plain": {"default": "", "metavar": "VIEWS", "help": "base views, or *, whose tables have no column of counts"},
    "--counted": {"default": "", "metavar": "VIEWS", "help": "takes some of these out again"},
    "--keyed": {"default": "", "metavar": "VIEW=COLUMN+COLUMN,..", "help": "by which key a row that leaves and one that comes are one UPDATE"},
    "--shard": {"action": "append", "default": [], "metavar": "TABLE:COLUMN", "help": "of ClickHouse: what is shared out; it may stand several times"},
    "--cluster": {"metavar": "NAME", "help": "of ClickHouse: by which name servers know each other"},
    "--live": {"action": "store_true", "help": "over tables that applications write to, which `capture` captured"},
    "--open": {"action": "store_true", "help": "fills the derived views too"},
    "--views": {"default": "", "metavar": "VIEWS", "help": "which views are taken: names or patterns, with commas between them; with SQLite also files of views, NAME.sql"},
    "--changed": {"action": "store_true", "help": "only what is new or stands otherwise than the catalogue has it"},
    "--drop": {"action": "store_true", "help": "lets go what the catalogue has no more"},
    "--role": {"metavar": "ROLE", "help": "a role without other rights, made where there is none, which owns what is made and carries nights out"},
    "--without-role": {"action": "store_true", "help": "a superuser's capture of others' tables all the same, as himself"},
    "--from-log": {"action": "store_true", "help": "from the server's log, and not by triggers"},
    "--program": {"metavar": "FILE", "help": "the program that plans and certifies"},
    "--unproved": {"action": "store_true", "help": "plans by the program that is not proved"},
    "--inst-cost": {"metavar": "N", "help": "what a row that an Inst puts costs"},
    "--comp-cost": {"metavar": "N", "help": "what a row that a Comp reads costs"},
    "--measured": {"action": "store_true", "help": "plans by what work cost in the nights of before"},
    "--anew": {"action": "store_true", "help": "plans anew, also where the plan of a night of before would serve"},
    "--plan": {"action": "store_true", "help": "by a plan of the program's for this night"},
    "--after": {"dest": "sizes_after", "action": "store_true", "help": "the sizes of the last night in place of the next one's"},
    "--repair": {"action": "store_true", "help": "puts the rows right that differ"},
    "--in-turn": {"action": "store_true", "help": "what was checked the longest ago"},
    "--line": {"action": "store_true", "help": "in one line, for a monitor"},
}
OWN, LIVING, PLANNING = ("--engine", "--schema"), ("--engine", "--schema", "--database"), ("--program", "--unproved", "--inst-cost", "--comp-cost", "--measured", "--anew")
TABLES = ("--plain", "--counted", "--keyed", "--shard", "--cluster")


@dataclass(frozen=True, slots=True)
class Command:
    """A command: what it is for, its options, what it asks for beside its own name, and whether names stand behind the warehouse."""

    about: str
    options: tuple[str, ...]
    asks: tuple[str, ...]
    has_names: bool = False
    has_warehouse: bool = True


COMMANDS = {
    "create": Command("tables of one's own, their tables of changes and indexes", (*OWN, *TABLES, "--open"), ("create",)),
    "open": Command("fills the derived views from scratch", (*LIVING, *TABLES, "--live", "--changed"), ("open",), has_names=True),
    "night": Command("carries out what stands in the tables of changes, in one statement", (*LIVING, "--from", *TABLES, "--live"), ("night",)),
    "explain": Command("what each step of a night reads, and why it stands there", (*OWN, *TABLES), ("explain",)),
    "catalogue": Command("a first catalogue of a database's tables and views", (*LIVING, "--from"), ("catalogue",), has_warehouse=False),
    "capture": Command(
        "has tables that applications write to captured, or puts right what is",
        (*LIVING, "--from", "--role", "--without-role", "--from-log", "--changed", "--drop", "--open"), ("capture",), has_names=True,
    ),
    "take": Command(
        "views of a database as they are written, with all that keeps them; WAREHOUSE is a folder, which is made",
        (*LIVING, "--views", "--from", "--role", "--without-role", "--from-log"), ("take",),
    ),
    "uncapture": Command("takes all captures away", LIVING, ("uncapture",)),
    "plan": Command("plans the next night by the database's sizes, has the plan certified, and writes the night", (*LIVING, "--from", *PLANNING), ("plan",)),
    "dry": Command("carries a night out, tells of each step, and rolls it back", (*LIVING, "--from", "--plan", *PLANNING), ("dry",)),
    "sizes": Command("the sizes of all views for the next night", (*LIVING, "--after"), ("sizes",)),
    "costs": Command("what work costs, by the nights of before", LIVING, ("costs",)),
    "check": Command("what differs from what the tables give; the status is 1 where anything does", (*LIVING, "--from", "--repair", "--in-turn"), ("check",), has_names=True),
    "history": Command("how old each view is, what waits, and what the last checks said", (*LIVING, "--line"), ("history",)),
}


class Words(argparse.ArgumentParser):
    """The words of the command line. Where they are not taken, a script is wanted all the same, and one that is empty would pass for one that went
    through."""

    def error(self, message: str) -> NoReturn:
        engine = next((said for said in ENGINES if said in sys.argv), USUAL)
        put_if_taken(failing(engine, message))
        super().error(message)


def failing(engine: str, told: str) -> list[str]:
    """The lines of a script that raises, and does nothing else."""
    told = re.sub(r"[\x00-\x1f\x7f\ud800-\udfff]", "?", " ".join(f"whview sql wrote no script: {told}".split()))
    return ENGINES[engine].failing(told[:MOST_TOLD])


def parser_of(name: str) -> Words:
    """What takes the words behind a command."""
    command = COMMANDS[name]
    words = Words(f"whview sql {name}", description=command.about, allow_abbrev=False)
    for option in command.options:
        words.add_argument(option, **OPTIONS[option])
    if command.has_warehouse:
        words.add_argument("path", metavar="WAREHOUSE", help="a bundle, or a folder of its files")
    if command.has_names:
        words.add_argument("names", nargs="*", metavar="NAME", help="only these tables and views")
    return words


def usual() -> argparse.Namespace:
    """What is asked for where nothing is said."""
    found = argparse.Namespace(**{flag.replace("-", "_"): False for flag in FLAGS}, path=None, names=[])
    for option, read_as in OPTIONS.items():
        if read_as.get("action") != "store_true":
            setattr(found, read_as.get("dest", option[2:].replace("-", "_")), read_as.get("default"))
    return found


def complete(found: argparse.Namespace) -> argparse.Namespace:
    """What is asked for, with what is usual where nothing is said."""
    return argparse.Namespace(**{**vars(usual()), **vars(found)})


def asked(given: list[str]) -> argparse.Namespace:
    """The words of the command line."""
    name = given[0]
    words, command = parser_of(name), COMMANDS[name]
    found = complete(words.parse_intermixed_args(given[1:]))
    for asks in command.asks:
        setattr(found, asks, True)
    if name == "sizes" and found.sizes_after:
        found.sizes = False
    if name == "capture" and found.open:
        found.live = True
    if found.names and name == "open" and not found.live:
        words.error("names go with --live")
    if found.changed and name == "open" and not found.live:
        words.error("--changed goes with --live")
    return found


def options() -> dict[str, list[str]]:
    """The options of each command."""
    return {name: [*command.options, "--help"] for name, command in COMMANDS.items()}


def is_said(words: argparse.Namespace, name: str) -> bool:
    return bool(getattr(words, name.replace("-", "_")))


def live_of(words: argparse.Namespace) -> Live[Any]:
    """What captures tables in the engine of the words."""
    if words.engine in LIVE_ENGINES:
        return LIVE_ENGINES[words.engine](words)
    listed = f"--engine {' or '.join(LIVE_ENGINES)}"
    if words.check or words.history:
        raise Unfit(f"`check` and `history` go with {listed}")
    owners = " or ".join(f"{ENGINES[each].said}'s" for each in LIVE_ENGINES)
    raise Unfit(f"live tables, which applications write to, are {owners}: {listed}")


def written(words: argparse.Namespace) -> list[str]:
    """The text that is asked for."""
    if any(is_said(words, name) for name in LIVE):
        return taken(words) if words.take else live.written(live_of(words))
    if words.database or words.source or words.measured or words.role:
        raise Unfit("--database, --from, --role and --measured go with live tables, which applications write to: --live, or a command over these")
    catalogue = read(words.path)
    script, comments = ENGINES[words.engine].script(catalogue, words), Comments(catalogue)
    dialect = script.dialect
    if words.explain:
        return [comments.long(step) for step in script.steps.night(catalogue.correct())]
    found = script.creation() if words.create else []
    found += script.open(comments.short) if words.open else []
    if words.night or not (words.create or words.open):
        found += script.night(catalogue.correct(), Comments(catalogue).short)
    return [*dialect.head, *dialect.written(found)]


def put(lines: Iterable[str]) -> None:
    sys.stdout.buffer.write("".join(f"{line}\n" for line in lines).encode())


def put_if_taken(lines: Iterable[str]) -> None:
    """What is put where something has failed already, if only that nobody reads it."""
    try:
        put(lines)
        sys.stdout.flush()
    except OSError:
        pass


def is_script(words: argparse.Namespace) -> bool:
    """Whether what is asked for is for the database to carry out, and not for people to read."""
    others = ("catalogue", "sizes", "sizes-after", "costs", "dry", "explain", "check", "history")
    return not any(is_said(words, name) for name in others)


def failed(words: argparse.Namespace, lines: Sequence[object]) -> int:
    """A failure, by a message and a status; and where a script is wanted, by one that raises, since an empty one would pass for one that went through."""
    if is_script(words):
        put_if_taken(failing(words.engine, "; ".join(map(str, lines))))
    warn(f"whview sql: {line}" for line in lines)
    return REFUSED


def answer(words: argparse.Namespace) -> int:
    """Writes all that is asked for, or what fails in the place of it, and gives the status."""
    try:
        lines, status = live.answered(live_of(words)) if words.check or words.history else (written(words), DONE)
        put(lines)
        return status
    except (Unfit, OSError) as told:
        return failed(words, [str(told)])
    except Failure as failure:
        return failed(words, failure.lines)
    except BaseException as fault:
        # A fault of this tool's own, or that it is told to stop, ends as a failure does, and with its traceback.
        if is_script(words):
            put_if_taken(failing(words.engine, repr(fault)))
        raise


def main(given: list[str]) -> int:
    """Carries a command out, and gives the status."""
    if not given or given[0] in ("-h", "--help", "help"):
        print(ABOUT.format(commands="\n".join(f"    {name:10} {command.about}" for name, command in COMMANDS.items())), end="")
        return DONE
    if given[0] not in COMMANDS:
        put_if_taken(failing(USUAL, f"there is no command {given[0]}"))
        print(f"whview sql: there is no command {given[0]!r}; there are {', '.join(COMMANDS)}", file=sys.stderr)
        return BAD_WORDS
    return answer(asked(given))
