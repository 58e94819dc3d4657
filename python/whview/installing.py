"""`install` and `uninstall`: the command, the program that is built and the package, so that they run from any folder without the sources.

All of it lies in PREFIX/lib/whview, which a rename puts in place whole. PREFIX/bin/whview leads there, and two files complete words in shells.
"""

import compileall
import os
import shutil
import sys
from argparse import ArgumentParser, RawDescriptionHelpFormatter
from pathlib import Path

from . import VERSION, completion, program
from .finding import Failure, of_system, warn
from .program import ROOT
from .status import BAD_WORDS, DONE, NO_ANSWER, NOT_WRITTEN

# What is put below the prefix besides the folder itself, and what leads into that or is printed there.
LIB, BIN = Path("lib/whview"), Path("bin/whview")
COMPLETIONS = {"bash": Path("share/bash-completion/completions/whview"), "zsh": Path("share/zsh/site-functions/_whview")}
USUAL = "~/.local"
ABOUT = {
    "install": f"""Puts the command, the program that is built and what they need below a folder, so that whview runs without the sources.

The program is the one that `whview use` chose, and has to be built. Below the prefix come {BIN}, {LIB}/ with the papers that
messages name (docs/), and what completes words in bash and zsh. What an earlier install put there is replaced as a whole; nothing else is touched.
""",
    "uninstall": "Takes away what `whview install` put below a folder, and nothing else.\n",
}


def is_ours(place: Path, prefix: Path) -> bool:
    """Whether a file at the place of one of ours was put there by an install."""
    if place == prefix / BIN:
        return place.is_symlink() and os.readlink(place) == f"../{LIB}/whview"
    return place.is_file() and completion.MARK in place.read_text(errors="replace")


def judge(prefix: Path) -> None:
    """Refuses to write over what no install put there."""
    lib = prefix / LIB
    if os.path.lexists(lib) and not (lib / "program/kind").is_file():
        raise Failure(BAD_WORDS, f"{lib} is there and is none of ours; nothing was changed")
    for place in (prefix / BIN, *(prefix / file for file in COMPLETIONS.values())):
        if os.path.lexists(place) and not is_ours(place, prefix):
            raise Failure(BAD_WORDS, f"{place} is there and is none of ours; nothing was changed")


def taken() -> program.Chosen:
    """The program that is put in place; it is not built for this."""
    word = program.setting()
    if word not in (program.PROVED, program.UNPROVED):
        raise Failure(NO_ANSWER, f"{program.SETTING} names the program {word}; one is installed that whview has built: proved or unproved")
    found = program.there(word)
    if found is None:
        raise Failure(NO_ANSWER, f"the {word} program is not built: `whview use {word}` builds it; nothing was changed")
    return program.Chosen(found, word)


def lay(part: Path, found: program.Chosen) -> None:
    """Writes the folder as it is to be."""
    (part / "program").mkdir(parents=True)
    shutil.copy(ROOT / "whview", part / "whview")
    shutil.copytree(ROOT / "python", part / "python", ignore=shutil.ignore_patterns("__pycache__"))
    (part / "docs").mkdir()
    for paper in sorted((ROOT / "docs").glob("*.*")):
        shutil.copy(paper, part / "docs")
    compileall.compile_dir(part / "python", quiet=2, stripdir=str(part), prependdir=str(LIB))
    shutil.copy(found.path, part / "program/whview")
    (part / "program/kind").write_text(f"{found.kind}\n")


def turn(part: Path, lib: Path) -> None:
    """Puts the folder in place, where another one may be."""
    old = lib.with_name(f"whview.old.{os.getpid()}")
    is_there = os.path.lexists(lib)
    if is_there:
        os.rename(lib, old)
    os.rename(part, lib)
    if is_there:
        shutil.rmtree(old)


def put(file: Path, text: str) -> None:
    """Writes a file whole."""
    file.parent.mkdir(parents=True, exist_ok=True)
    part = file.with_name(f"{file.name}.{os.getpid()}")
    part.write_text(text)
    os.rename(part, file)


def install(prefix: Path) -> int:
    """Installs, and tells what is where."""
    found = taken()
    judge(prefix)
    lib, link = prefix / LIB, prefix / BIN
    part = lib.with_name(f"whview.part.{os.getpid()}")
    try:
        lay(part, found)
        turn(part, lib)
    finally:
        shutil.rmtree(part, ignore_errors=True)
    link.parent.mkdir(parents=True, exist_ok=True)
    if not link.is_symlink():
        link.symlink_to(f"../{LIB}/whview")
    for shell, file in COMPLETIONS.items():
        put(prefix / file, completion.text(shell))
    print(f"whview {VERSION} with {found.told} is installed: {link}")
    if str(link.parent) not in os.environ.get("PATH", "").split(os.pathsep):
        warn([f"whview: {link.parent} is not on the path (PATH)"])
    return DONE


def uninstall(prefix: Path) -> int:
    """Takes away what an install put below the prefix."""
    lib = prefix / LIB
    if not (lib / "program/kind").is_file():
        raise Failure(BAD_WORDS, f"whview is not installed below {prefix}")
    judge(prefix)
    for place in (prefix / BIN, *(prefix / file for file in COMPLETIONS.values())):
        place.unlink(missing_ok=True)
    shutil.rmtree(lib)
    print(f"whview is no more below {prefix}")
    return DONE


def run(command: str, words: list[str]) -> int:
    """Carries `install` or `uninstall` out."""
    own = str(ROOT.parents[1]) if program.KIND.is_file() else USUAL
    given = ArgumentParser(f"whview {command}", description=ABOUT[command], formatter_class=RawDescriptionHelpFormatter)
    given.add_argument("--prefix", type=Path, default=Path(own), help="the folder below which it lies (%(default)s)", metavar="DIR")
    prefix = given.parse_args(words).prefix.expanduser().absolute()
    try:
        if command == "install" and program.KIND.is_file():
            raise Failure(BAD_WORDS, "this whview is installed itself; a checkout of the sources installs it elsewhere")
        return {"install": install, "uninstall": uninstall}[command](prefix)
    except Failure as failure:
        warn([f"whview: {line}" for line in failure.lines])
        return int(failure.status)
    except OSError as error:
        warn([f"whview: {of_system(error)}"])
        return NOT_WRITTEN
    finally:
        sys.stdout.flush()
