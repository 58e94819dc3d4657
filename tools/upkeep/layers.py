"""The crates by their rooms: the edges between them that no longer way implies, and the chain of crates that has most lines.

With --write they are put into docs/ARCHITECTURE.md, in the place of those that stand there.
"""

import re
import sys

from upkeep.sources import ROOT, uses

PAGE = ROOT / "docs/ARCHITECTURE.md"
# The block of the page that has them.
BLOCK = re.compile(r"(?<=^## The rooms\n)(?P<before>.*?^```text\n).*?(?=^```$)", re.DOTALL | re.MULTILINE)


def rooms():
    """The headings of crates.txt, each with the crates below it."""
    found = {}
    for line in (ROOT / "crates.txt").read_text().splitlines():
        if line.startswith("# "):
            room = line[2:]
        elif line:
            found.setdefault(room, []).append(line.partition(":")[0].split()[0])
    return found


def edges():
    """For each crate those of the repository that it uses."""
    known = uses()
    return {crate: [each for each in used if each in known] for crate, used in known.items()}


def below(used):
    """For each crate all that it stands on. A crate stands in crates.txt after those that it uses."""
    found = {}
    for crate, direct in used.items():
        found[crate] = set(direct).union(*(found[each] for each in direct))
    return found


def reduced(used):
    """For each crate those that it uses and that no other of these stands on."""
    under = below(used)
    return {crate: [each for each in direct if not any(each in under[other] for other in direct)] for crate, direct in used.items()}


def lines_of(crate, root=ROOT):
    """How many lines of source, specs and proofs a crate has."""
    folders = (root / "crates" / crate / kind for kind in ("src", "specs", "proofs"))
    files = (path for folder in folders for kind in ("rt", "antt") for path in folder.rglob(f"*.{kind}"))
    return sum(path.read_bytes().count(b"\n") for path in files)


def longest(used, lines):
    """The chain of crates, each over the one before, that has most lines."""
    chains = {}
    for crate, direct in used.items():
        before = max((chains[each] for each in direct), key=lambda chain: sum(lines[each] for each in chain), default=[])
        chains[crate] = [*before, crate]
    return max(chains.values(), key=lambda chain: sum(lines[each] for each in chain))


def layers():
    """The lines that are printed."""
    used, lines = edges(), {crate: lines_of(crate) for crate in uses()}
    direct = reduced(used)
    for room, crates in rooms().items():
        for crate in crates:
            yield f"{room if crate == crates[0] else '':9} {crate:17} {', '.join(direct[crate])}".rstrip()
    few, all_edges = (sum(map(len, each.values())) for each in (direct, used))
    yield f"{few} edges, of {all_edges} between crates in crates.txt: each other one is there by a longer way"
    chain = longest(used, lines)
    told = ", ".join(f"{crate} {lines[crate] / 1000:.0f}" for crate in chain)
    total = sum(lines[crate] for crate in chain)
    yield f"longest chain, in thousands of lines of source, specs and proofs: {told}; together {total / 1000:.0f}"


def with_layers(page):
    """The text of the page with the crates as they are now."""
    return BLOCK.sub(lambda found: found["before"] + "".join(f"{line}\n" for line in layers()), page)


if __name__ == "__main__":
    if sys.argv[1:] == ["--write"]:
        PAGE.write_text(with_layers(PAGE.read_text()))
    else:
        print("\n".join(layers()))
