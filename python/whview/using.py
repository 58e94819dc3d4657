"""`use` and `--version`: which program is taken where none is named."""

import os
import sys
from argparse import ArgumentParser, RawDescriptionHelpFormatter

from . import VERSION, program
from .finding import Failure, warn
from .program import KEPT, KIND, PROVED, SETTING, UNPROVED
from .status import BAD_WORDS, DONE

ABOUT = """Says which program is taken from now on where none is named.

The proved one is proved and built where it is missing, which takes half an hour or more the first time; the one that is not proved runs the
same sources, and is built within minutes. Without a word it is told which is taken. For once, the setting WHVIEW_PROGRAM says it, by one of
these words or as a file, and `--unproved` behind a command.
"""


def versions() -> int:
    """Prints the version, and what is known of the program."""
    word = program.setting()
    if word not in (PROVED, UNPROVED):
        print(f"whview {VERSION}, by the program {word}")
        return DONE
    there = program.there(word)
    print(f"whview {VERSION}, by the {word} program{f' {there}' if there else ', which is not built'}")
    return DONE


def use(word: str) -> int:
    """Keeps the word, and has the program built."""
    if KIND.is_file():
        kind = KIND.read_text().strip()
        raise Failure(BAD_WORDS, f"what is installed has one program, the {kind} one; `whview install` of a checkout puts another in its place")
    KEPT.parent.mkdir(exist_ok=True)
    part = KEPT.with_name(f"{KEPT.name}.{os.getpid()}")
    part.write_text(f"{word}\n")
    part.rename(KEPT)
    print(f"whview takes the {word} program from now on: {program.built(word)}")
    if os.environ.get(SETTING):
        warn([f"whview: {SETTING}={os.environ[SETTING]} is set, and goes before it"])
    return DONE


def run(command: str, words: list[str]) -> int:
    """Carries `use` out."""
    given = ArgumentParser("whview use", description=ABOUT, formatter_class=RawDescriptionHelpFormatter)
    given.add_argument("program", nargs="?", choices=(PROVED, UNPROVED))
    asked = given.parse_args(words)
    try:
        return use(asked.program) if asked.program else versions()
    except Failure as failure:
        warn([f"whview: {line}" for line in failure.lines])
        return int(failure.status)
    finally:
        sys.stdout.flush()
