"""A small stand-in for the program, which carries nights out: `night` by itself, and `live` as one that stays. The machine of the trials does it.

`reckons` writes a script that runs it. What goes wrong with it once is told as to the other stand-in.
"""

import re
import sys
import time
from pathlib import Path

from trials.oracle.dialogue import Dialogue
from whview.strategy.plans import Catalogue

from .stand_in import ROOT, goes_wrong

SCRIPT = """#!{python} -B
import sys
sys.path[:0] = [{root!r}, {root!r} + "/python"]
from tests.folder.reckoner import main
main({path!r}, sys.argv)
"""
HOW = {"desks": 16, "keys": 256, "kept": 2}
NAMED = re.compile(r"^@data (\w+) < (.+)$", re.MULTILINE)
PART = re.compile(r"^(?=@[^@])", re.MULTILINE)
REFUSED = "refused range sales\nleft given-up\n"


def reckons(path: Path) -> Path:
    """A program that carries nights out, as a script at this path."""
    path.write_text(SCRIPT.format(python=sys.executable, root=str(ROOT), path=str(path)))
    path.chmod(0o755)
    return path


def with_files(text: str) -> str:
    """A bundle with the lines of the files that it names."""
    return NAMED.sub(lambda found: f"@data {found[1]}\n{Path(found[2]).read_text().removesuffix(chr(10))}", text)


def totals(tables) -> list[int]:
    """How many rows these tables have."""
    return [sum(table.values()) for table in tables]


def steps(dialogue: Dialogue, before) -> str:
    """What each expression of a night reads or installs, and the work."""
    machine, (_, strategy) = dialogue.machine, dialogue.machine.nights[-1]
    after = machine.versions[-1]
    changes = [sum(abs(new.get(row, 0) - old.get(row, 0)) for row in {*new, *old}) for new, old in zip(after, before)]
    catalogue = Catalogue([view.over for view in machine.views], list(zip(totals(before), totals(after), changes)), 1, 1)
    names, installed, told, work = [view.name for view in machine.views], set(), [], 0
    for view, sources in strategy:
        rows = changes[view] if sources is None else catalogue.comp_cost(view, sources, installed)
        installed |= {view} if sources is None else set()
        named = f"inst {names[view]}" if sources is None else f"comp {names[view]} from {' '.join(names[u] for u in sources)}"
        told, work = [*told, f"{named}: {rows}\n"], work + rows
    return "".join(told) + f"work {work}\nversion 1\n"


def night(text: str, is_of_changes: bool) -> str:
    """What is printed of a night."""
    dialogue, before = Dialogue(text, HOW), None
    before = dialogue.machine.versions[-1]
    changes = [part for part in PART.split(text) if part.startswith("@changes ")]
    told = dialogue.answer("".join(["night\n", *changes, "@end\n"]).encode())
    if not told.endswith("ready\n"):
        return REFUSED
    shown = dialogue.answer(b"changes\n").removesuffix("end\n")
    dialogue.answer(b"commit\n")
    return steps(dialogue, before) + (shown if is_of_changes else tables(dialogue))


def tables(dialogue: Dialogue) -> str:
    """The tables of the derived views."""
    views, found = dialogue.machine.views, dialogue.machine.versions[-1]
    derived = [(view, table) for view, table in zip(views, found) if view.over]
    return "".join(f"view {view.name}\n{dialogue.table(view, [(table[row], *row) for row in sorted(table)])}" for view, table in derived)


def stay(path: str, opening: str) -> None:
    """Answers commands until there are no more."""
    dialogue = Dialogue(with_files(Path(opening).read_text()), HOW)
    for line in sys.stdin.buffer:
        how = goes_wrong(path, line.decode())
        if how == "die":
            sys.exit(3)
        while how == "stick":
            time.sleep(1)
        print(f"{how}\n" if how else dialogue.take(line.removesuffix(b"\n")), end="", flush=True)


def main(path: str, words: list[str]) -> None:
    """Carries a command out."""
    with Path(f"{path}.words").open("a") as file:
        file.write(f"{words[1]}\n")
    if words[1] == "live":
        stay(path, words[words.index("--input") + 1])
        return
    said = night(sys.stdin.buffer.read().decode(), "changes" in words)
    print(said, end="", flush=True)
    sys.exit(said == REFUSED)
