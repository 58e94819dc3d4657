"""The commands of a folder whose catalogue is SQL: each is the inner folder's, once that has what the catalogue wants."""

from __future__ import annotations

import shutil
import sys
import tempfile
from importlib import import_module
from pathlib import Path
from uuid import uuid4

from ...disk import write
from ...finding import Failure, warn
from ...status import BAD_INPUT, BAD_WORDS, DONE, NOT_WRITTEN, Status
from ..command import Words, judge_folder
from ..claim import give_back, judge_written
from ..inputs import CHANGES
from ..lock import at_work
from .home import SQL, Home
from .rows import turn
from .said import HOME as TAKEN
from .said import Said, SaidTable
from .taken import fill, table_kept_as, taken

# Commands that read versions as they are, and such that would make another folder, which has no use for the inner one alone.
READ = ("read", "sql", "serve", "verify", "log", "rollback")
ELSEWHERE = ("pack", "unpack")
INPUT = "-"


def carried_out(home: Home, words: Words) -> Status:
    """The status of a command."""
    if words.command in ELSEWHERE:
        raise Failure(BAD_WORDS, f"{words.command} goes with a folder whose catalogue is TOML: name {home.inner}")
    if words.command in ("backup", "restore"):
        return copied(home, words)
    with tempfile.TemporaryDirectory(prefix="whview") as turned:
        if words.command not in READ:
            prepared(home, words, Path(turned))
        words.folder = words.folders[0] = home.inner
        words.operands[0] = str(home.inner)
        judge_folder(words)
        return run(words)


def run(words: Words) -> Status:
    """The inner folder's command."""
    found: Status = import_module(f"whview.folder.{words.command}").run(words)
    return found


def prepared(home: Home, words: Words, turned: Path) -> None:
    """Has the inner folder have what the catalogue wants, and what comes in; files that are put in are turned in a folder of their own."""
    with home.alone():
        said = taken(home)
        # Beside a night that makes the tables its own nothing new is laid before it.
        gone = fill(home, said) if at_work(home.inner) is None else []
        if words.command == "night" and words.commit:
            drop(home, said, gone, words)
        if words.command == "put":
            put_words(words, said, turned)
        if words.command == "lint":
            judge_changes(home, said, turned)
        if words.command == "night":
            take_changes(home, said)


def drop(home: Home, said: Said, gone: list[str], words: Words) -> None:
    """Has the night drop mirrors that others stand for now, and those of tables that somebody let go by name. A table that is declared no more
    and that nobody named ends the command, since no later version would have it."""
    named, now = words.options.get("--drop", []), {each.name for each in said.tables}
    tables = {mirror: table_kept_as(home, mirror) for mirror in gone}
    left = [table for table in tables.values() if table not in now and table not in named]
    if left:
        do = "declare it again, or let it go by `--drop {}` behind `night .. --commit`"
        raise Failure(BAD_INPUT, *(f"{home.text}: the table {each} is declared no more, and would be in no later version: {do.format(each)}" for each in left))
    others = [name for name in named if name not in tables.values()]
    if gone or others:
        words.options["--drop"] = [*gone, *others]


# ---- changes


def table_of(said: Said, name: str, told: str) -> SaidTable:
    """The table of a file's name."""
    found = next((each for each in said.tables if each.name == name), None)
    if found is None:
        raise Failure(BAD_WORDS, f"{told}: there is no table {name}; there are {', '.join(each.name for each in said.tables)}")
    return found


def put_words(words: Words, said: Said, to: Path) -> None:
    """Turns the files that are put in, and names them in the place of what was given."""
    named_as = words.option("--as")
    for at, file in enumerate(words.operands[1:], 1):
        match = CHANGES.fullmatch(f"{named_as.removesuffix('.csv')}.csv" if named_as else Path(file).name)
        if not match:
            raise Failure(BAD_WORDS, f"{file} is named otherwise than NAME.csv or NAME.1.csv, where NAME is its table; name that by --as NAME")
        table, source = table_of(said, match[1], file), Path(file)
        if file == INPUT:
            source = to / "input"
            source.write_bytes(sys.stdin.buffer.read())
        elif not source.is_file():
            raise Failure(BAD_WORDS, f"there is no file {file}")
        turned = to / f"{table.mirror}.{at}.csv"
        turn(source, table, "standard input" if file == INPUT else file, turned)
        words.operands[at] = str(turned)
    words.options.pop("--as", None)
    words.folders = list(map(Path, words.operands))


def judge_plain(file: Path) -> None:
    """Refuses what is no file of its own: a link leads where somebody else wants, and a FIFO waits for a writer."""
    if file.is_symlink() or not file.is_file():
        raise Failure(BAD_INPUT, f"{file} is no plain file")


def judge_changes(home: Home, said: Said, to: Path) -> None:
    """Refuses files of changes/ with a fault, or that somebody is writing."""
    for file in sorted(home.changes.glob("*.csv")) if home.changes.is_dir() else ():
        judge_plain(file)
        match = CHANGES.fullmatch(file.name)
        table = table_of(said, match[1] if match else file.stem, str(file))
        judge_written(file, str(file), home.changes)
        turn(file, table, str(file), to / "judged.csv")


def take_changes(home: Home, said: Said) -> None:
    """Takes the files of changes/, each once: it is claimed by a name of its own, which is that of its batch, and goes when the inner folder has it."""
    if not home.changes.is_dir():
        return
    with tempfile.TemporaryDirectory(prefix="whview") as folder:
        judge_changes(home, said, Path(folder))
    home.claimed.mkdir(exist_ok=True)
    for file in sorted(home.changes.glob("*.csv")):
        file.rename(home.claimed / f"{uuid4().hex}-{file.name}")
    for file in sorted(home.claimed.glob("*.csv")):
        take_claimed(home, said, file)


def take_claimed(home: Home, said: Said, file: Path) -> None:
    """Has the inner folder take a file once, and lets it go; one that it does not take lies where it lay."""
    batch, _, name = file.name.partition("-")
    match = CHANGES.fullmatch(name)
    table = table_of(said, match[1] if match else name, str(file))
    with tempfile.TemporaryDirectory(prefix="whview") as folder:
        turned = Path(folder) / f"{table.mirror}.csv"
        try:
            judge_plain(file)
            turn(file, table, name, turned)
            put = Words(["put", str(home.inner), str(turned), "--batch", batch])
            if run(put) != DONE:
                raise Failure(NOT_WRITTEN, f"{name} was not taken")
        except Failure:
            # Somebody may have laid another file there meanwhile.
            give_back(file, home.changes, name)
            file.unlink(missing_ok=True)
            raise
    file.unlink()


# ---- copies


def copied(home: Home, words: Words) -> Status:
    """A backup, or a folder that is made of one: the inner folder's, changes that wait, and the catalogue, which comes last."""
    to = words.folders[1]
    try:
        to.mkdir()
    except OSError as error:
        raise Failure(BAD_WORDS, f"{to}: {error.strerror}") from None
    words.folder, words.folders = home.inner, [home.inner, to / home.inner.name]
    words.operands = [str(home.inner), str(to / home.inner.name)]
    # Nobody turns changes in meanwhile, so each is in the inner folder or waits.
    with home.alone():
        status = run(words)
        if status != DONE:
            return status
        shutil.copytree(home.inner / TAKEN, to / home.inner.name / TAKEN)
        if words.option("--version") is None:
            copy_changes(home, Home(to))
        write(to / SQL, [home.text.read_bytes()])
    return status


def copy_changes(home: Home, to: Home) -> None:
    """Copies changes that wait, and those that a stopped night has claimed, each with the name that is its batch."""
    for folder, other in ((home.changes, to.changes), (home.claimed, to.claimed)):
        for file in sorted(folder.glob("*.csv")) if folder.is_dir() else ():
            if file.is_symlink() or not file.is_file():
                warn([f"{file} is no plain file, and is left out"])
                continue
            other.mkdir(parents=True, exist_ok=True)
            write(other / file.name, [file.read_bytes()])
