"""A program that stays and computes the next night of a folder: `whview live` over the base tables of a version, by the version's catalogue.

A night is carried out in it up to its commit, and what it changes in the derived views is told. Then it is kept or given up.
"""

from __future__ import annotations

import re
from collections.abc import Callable, Mapping
from io import BufferedReader
from pathlib import Path

from ..bundle import part
from ..catalogue.from_toml import FILE as CATALOGUE
from ..catalogue.from_toml import Catalogue
from ..limits import limit_of
from ..program import temporary
from .blocks import opened
from .places import Unkept
from .sizes import of_report
from .talk import Lost, Talk, nothing

# For how many seconds an opening is waited for, and a night.
OPENING, NIGHT = 600, 600
STEPS = re.compile(rb"begun\n(?:(?:job [0-9]+|done|paged [0-9]+)\n)*ready\n")
END = b"\n@end\n"
VERSION = re.compile(rb"version [0-9]+\n")
ROWS = re.compile(r"view,rows\n((?:[A-Za-z_][A-Za-z0-9_]*,[0-9]+\n)*)versions [0-9 ]+\n")


def told_after(version: Path) -> dict[str, int]:
    """How many rows each view of a version has, as its night told."""
    try:
        found = of_report((version / "report.txt").read_text())
    except (OSError, ValueError, TypeError):
        found = {}
    if not found:
        raise Unkept("its report does not tell how many rows its views have")
    return {name: size.after for name, size in found.items()}


def base_files(version: Path, catalogue: Catalogue) -> dict[str, BufferedReader]:
    """The open files of a version's base tables, by the names of their views."""
    paths = {view.name: version / "data" / f"{view.name}.csv" for view in catalogue.views if view.is_base}
    return {name: opened(path) for name, path in paths.items() if path.is_file()}


class Computing:
    """A running program, and how many rows each view has in the version that it is at."""

    def __init__(self, program: Path, version: Path) -> None:
        wanted, catalogue = told_after(version), Catalogue(version, lenient=True)
        files = base_files(version, catalogue)
        named = (f"@data {name} < /dev/fd/{file.fileno()}\n" for name, file in files.items())
        parts = [part("catalogue", (version / CATALOGUE).read_bytes()), *(each.encode() for each in named)]
        with temporary(parts) as opening:
            handles = [file.fileno() for file in files.values()]
            self.talk = Talk(program, opening, ["--most", str(limit_of(catalogue.max_bytes))], handles)
        for file in files.values():
            file.close()
        try:
            self.rows = self.rows_now()
            self.judge(wanted)
        except BaseException:
            self.end()
            raise

    def rows_now(self) -> dict[str, int]:
        """How many rows each view has."""
        answer = self.talk.ask(b"tables\n", OPENING).decode(errors="replace")
        found = ROWS.fullmatch(answer)
        if not found:
            raise Unkept(f"the program does not take its tables: {answer.strip()[:80]}")
        return {name: int(count) for name, _, count in (line.partition(",") for line in found[1].splitlines())}

    def judge(self, wanted: Mapping[str, int]) -> None:
        """Judges that each view has as many rows as a night told."""
        if self.rows != wanted:
            raise Unkept("the program has other numbers of rows than its report tells")

    def night(self, parts: bytes, meanwhile: Callable[[], None] = nothing) -> bytes | None:
        """What the night of these parts changes in each derived view; or None of one that cannot be kept, which is given up. What is to be done
        meanwhile is done each second.
        """
        if END in b"\n" + parts or not parts.endswith(b"\n"):
            return None
        answer = self.talk.ask(b"night\n" + parts + b"@end\n", NIGHT, meanwhile)
        if STEPS.fullmatch(answer):
            return self.talk.ask(b"changes\n", NIGHT, meanwhile).removesuffix(b"end\n")
        if answer.startswith(b"begun\n"):
            self.give_up()
        return None

    def commit(self, version: Path) -> None:
        """Keeps the night, which made a version."""
        self.ended(b"commit\n")
        self.rows = self.rows_now()
        self.judge(told_after(version))

    def give_up(self) -> None:
        """Gives the night up."""
        self.ended(b"giveup\n")

    def ended(self, command: bytes) -> None:
        """Ends the night by a command."""
        answer = self.talk.ask(command, NIGHT)
        if not VERSION.fullmatch(answer):
            raise Lost(f"the program answers {answer[-80:].decode(errors='replace').strip()!r}")

    def end(self) -> None:
        """Ends the program."""
        self.talk.end()
