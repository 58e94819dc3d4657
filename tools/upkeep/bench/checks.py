"""`whview check` against the goals of docs/PERFORMANCE.md: 60 MB against a plain reader of lines, 64 views, and long lists that no one
writes by hand."""

import os
from itertools import chain, islice, repeat
from pathlib import Path
from tempfile import TemporaryDirectory

from upkeep.bench import best, in_turn, peer
from upkeep.words import ROOT, program

ROUNDS, MORE = 10, 30
VIEWS, BASES, CHILDREN = 64, 16, 6
STORED = ROOT / "crates/whview_main/stdin"


def views(at_once):
    """64 views, of which 48 are over the six before them, with a Comp from all six at once, or from one after another."""
    over = {v: range(v - CHILDREN, v) for v in range(BASES, VIEWS)}
    yield "@catalogue\n"
    for v in range(VIEWS):
        yield f'[[view]]\nname = "view_{v}"\n'
        if v in over:
            yield f"over = [{', '.join(f'{chr(34)}view_{u}{chr(34)}' for u in over[v])}]\n"
    yield "@sizes\nview,pre,post,change\n"
    yield from (f"view_{v},{1000 + v},{1100 + v},300\n" for v in range(VIEWS))
    yield "@strategy\n"
    if at_once:
        yield from (f"comp view_{v} from {' '.join(f'view_{u}' for u in over[v])}\n" for v in over)
    for u in range(VIEWS):
        if not at_once:
            yield from (f"comp view_{v} from view_{u}\n" for v in over if u in over[v])
        yield f"inst view_{u}\n"


def inputs():
    """Each input by its name, in pieces."""
    stored = STORED.read_text().partition("\n")[2]
    before, _, after = stored.partition("@strategy\n")
    head = before + after[after.index("@") :] + "@strategy\n"
    one_way = "".join(views(False))
    comps = (line for line in one_way.splitlines(keepends=True) if line.startswith("comp"))
    line = "12345,some text of a row,67890,another text\n"
    yield "60 MB", chain([stored, "@data A\n"], repeat(line, 60_000_000 // len(line)))
    yield "one_way", [one_way]
    yield "at_once", views(True)
    yield "insts", chain([head], repeat("inst A\n", 8_500_000))
    yield "comps", chain([head], repeat("comp V from B\n", 4_200_000))
    yield "sources", chain([head, "comp V from"], repeat(" A", 15_000_000), "\n")
    yield "mixed", chain([one_way.partition("@strategy")[0], "@strategy\n"], repeat("inst view_0\n", 4_900_000), comps)


def write(path, pieces):
    """Writes pieces, many at a time, and answers the file with its bytes."""
    pieces = iter(pieces)
    with path.open("w") as file:
        while block := "".join(islice(pieces, 100_000)):
            file.write(block)
    return path


def measure(asked):
    check = [program(asked.program), "check"]
    with TemporaryDirectory() as room:
        files = {name: write(Path(room) / name, pieces) for name, pieces in inputs()}
        long = {name: (check, file) for name, file in files.items() if name not in ("one_way", "at_once")}
        runs = in_turn({"plain": ([peer(room, "marks.rs")], files["60 MB"]), **long}, asked.rounds)
        short = {name: (check, files[name]) for name in ("one_way", "at_once")}
        quick = in_turn({"nothing": (["/bin/true"], os.devnull), **short}, asked.rounds * MORE)
        sizes = {name: file.stat().st_size for name, file in files.items()}
    plain = best(runs.pop("plain"))
    for name, each in runs.items():
        memory = max(ran.kilobytes for ran in each) * 1024 / sizes[name]
        print(f"{name}: {best(each) / plain:.2f} times the plain program, memory {memory:.2f} times the input")
    for name in short:
        print(f"64 views, {name}: {(best(quick[name]) - best(quick['nothing'])) * 1000:.2f} ms over starting a process")
