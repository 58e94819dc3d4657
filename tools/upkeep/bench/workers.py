"""A wave of eight equal jobs by 1, 2, 4 and 8 workers.

Eight summaries over the same two base views, each of which joins 2,000 changes of the one with 400 rows of the other: eight Comps that
read much and add little, and no other expression that takes time. The same night without changes is what all else takes (starting,
reading, printing), and is taken off. The programs run in turn; what is printed are the medians and their ratio to one worker's.
"""

from pathlib import Path
from statistics import median
from tempfile import TemporaryDirectory

from upkeep.bench import in_turn, one_text
from upkeep.words import program

ROUNDS, WORKERS = 9, (1, 2, 4, 8)
VIEWS = 8
CHANGES, MATCHES, KEYS = 2000, 400, 50


def bundle(changes):
    """The night, with so many rows more in a."""
    views = '[[view]]\nname = "a"\ncolumns = ["x", "y"]\n[[view]]\nname = "b"\ncolumns = ["y", "z", "w"]\n'
    for v in range(VIEWS):
        views += (
            f'[[view]]\nname = "v{v}"\nover = ["a", "b"]\njoin = [["a.y", "b.y"]]\ngroup = [["w", "b.w"]]\ncount = "n"\n'
            f'sum = [["s", ["*", ["+", "a.x", {v}], 3]]]\n'
        )
    data = "y,z,w\n" + "".join(f"{key},{z},{z % 7}\n" for key in range(KEYS) for z in range(MATCHES))
    change = "#,x,y\n" + "".join(f"1,{x},{x % KEYS}\n" for x in range(changes))
    steps = "".join(f"comp v{v} from a\n" for v in range(VIEWS)) + "inst a\n"
    steps += "".join(f"comp v{v} from b\n" for v in range(VIEWS)) + "inst b\n" + "".join(f"inst v{v}\n" for v in range(VIEWS))
    return f"@catalogue\n{views}@data a\nx,y\n@data b\n{data}@changes a\n{change}@changes b\n#,y,z,w\n@strategy\n{steps}".encode()


def measure(asked):
    night = [program(asked.program), "night", "--workers"]
    with TemporaryDirectory() as room:
        full, empty = Path(room) / "full", Path(room) / "empty"
        full.write_bytes(bundle(CHANGES))
        empty.write_bytes(bundle(0))
        commands = {"else": ([*night, "1"], empty), **{count: ([*night, str(count)], full) for count in WORKERS}}
        runs = in_turn(commands, asked.rounds)
    one_text([runs[count] for count in WORKERS])
    seconds = {name: median(ran.seconds for ran in each) for name, each in runs.items()}
    rest = seconds.pop("else")
    for count, took in seconds.items():
        share = (took - rest) / (seconds[1] - rest)
        print(f"{count} workers: {(took - rest) * 1000:8.1f} ms for the waves, {share:.2f} of one worker's; all else {rest * 1000:.1f} ms")
