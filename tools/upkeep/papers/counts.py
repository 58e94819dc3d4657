"""Whether numbers of crates, edits, examples and the like are those that are counted."""

import ast
import re
from collections import defaultdict

from upkeep.layers import lines_of
from upkeep.papers.paper import Judged, line_of
from upkeep.sources import uses

# Fewer than these are as a rule some of them.
FEW, FEW_EDITS = 10, 30
WORDS = "ten eleven twelve thirteen fourteen fifteen sixteen seventeen eighteen nineteen".split()
TENS = "twenty thirty forty fifty sixty seventy eighty ninety".split()
NUMBER = {word: at for at, word in enumerate(WORDS, FEW)} | {word: 10 * at for at, word in enumerate(TENS, 2)}
ONES = "one two three four five six seven eight nine".split()
SAID = re.compile(
    rf"(?<![\w.,*^-])(?P<number>\d+(?:,\d{{3}})*|(?:{'|'.join(TENS)})(?:-(?:{'|'.join(ONES)}))?|{'|'.join(WORDS)})"
    r" (?:must-fail |wrong |public |worked )?(?P<what>crates|edits|examples|bundles|calls|laws|cases|scenarios)\b",
    re.IGNORECASE,
)
MADE = re.compile(r"^(\d+) (call|law)s?(?: and (\d+) laws?)?: ", re.MULTILINE)
CRATE = re.compile(r"\b(?:wh|test)_\w+|\bwhview(?:_main)?\b")
# How a map tells the lines of crates, in thousands.
LINES = re.compile(r"^longest chain, in thousands of lines\b[^:\n]*: (?P<crates>.*); together (?P<all>\d+)$", re.MULTILINE)
# What one tool tries, as papers tell it on a line that names this tool: the word, the tool, and the file and the name of the list.
OF_A_TOOL = {
    "cases": ("trials/run capture", "trials/capture/cases.py", "OF"),
    "scenarios": ("trials/run cluster", "trials/cluster/scenarios.py", "SCENARIOS"),
}


def number_of(word):
    """The number that digits or words say."""
    if word[0].isdigit():
        return int(word.replace(",", ""))
    ten, _, one = word.lower().partition("-")
    return NUMBER[ten] + (ONES.index(one) + 1 if one else 0)


def rooms(root):
    """How many crates stand below each heading of crates.txt."""
    found, room = defaultdict(int), ""
    for line in (root / "crates.txt").read_text().splitlines():
        room = line[2:] if line.startswith("# ") else room
        found[room] += not line.startswith("#") and ":" in line
    return found


def entries(node, named):
    """How many entries a list or a table of Python has, those of the tables in it counted and not these."""
    if isinstance(node, ast.Name):
        return entries(named[node.id], named) if node.id in named else 1
    if isinstance(node, ast.Dict):
        return sum(entries(value, named) for value in node.values)
    if isinstance(node, (ast.List, ast.Tuple, ast.Set)):
        return sum(entries(each.value, named) if isinstance(each, ast.Starred) else 1 for each in node.elts)
    return 1


def length(path, name):
    """How many entries the list of this name has in a file of Python, or None where there is none."""
    named = lists(path)
    return entries(named[name], named) if name in named else None


def lists(path):
    """What is assigned to each name in a file of Python, and to those that it takes from other files of its package."""
    body, found = ast.parse(path.read_text()).body if path.exists() else [], {}
    for each in body:
        if isinstance(each, ast.ImportFrom) and each.module and each.module.startswith("trials.") and each.module.rpartition(".")[0].endswith(path.parent.name):
            others = lists(path.parent / f"{each.module.rpartition('.')[2]}.py")
            found.update({alias.name: others[alias.name] for alias in each.names if alias.name in others})
    assigned = [each for each in body if isinstance(each, ast.Assign)]
    return {**found, **{target.id: each.value for each in assigned for target in each.targets if isinstance(target, ast.Name)}}


class Counted:
    """What is counted in a tree: of each word the numbers that a paper may say, and by crate those that it may say beside the crate."""

    def __init__(self, root, papers):
        self.root, self.all, self.of_crate = root, defaultdict(set), defaultdict(lambda: defaultdict(set))
        crates = list(uses(root))
        self.all["crates"] = {len(crates), *rooms(root).values()}
        edits = {crate: (self.files(f"crates/{crate}/must-fail", "edit"), self.files(f"tools/edits/{crate}", "edit")) for crate in crates}
        self.note("edits", edits)
        own, tests = (self.files(folder, "bundle") for folder in ("examples", "tests/bundles"))
        self.all["examples"] = {own, own + tests}
        self.all["bundles"] = {own, tests, own + tests}
        made = {crate: self.made(papers.get(f"crates/{crate}/README.md")) for crate in crates}
        self.note("calls", {crate: (calls, 0) for crate, (calls, _) in made.items()})
        self.note("laws", {crate: (0, laws) for crate, (_, laws) in made.items()})

    def files(self, folder, kind):
        """How many files of a kind a folder has; a lent edit stands elsewhere too."""
        return sum(not path.name.startswith("lent-") for path in (self.root / folder).glob(f"*.{kind}"))

    @staticmethod
    def made(page):
        """How many calls and laws the page of a crate has, as tools/calls counted them."""
        found = MADE.search(page.text) if page else None
        if not found:
            return 0, 0
        first = int(found[1])
        return (first, int(found[3] or 0)) if found[2] == "call" else (0, first)

    def note(self, what, pairs):
        """Notes two numbers of each crate, and their sums."""
        for crate, (one, other) in pairs.items():
            self.of_crate[crate][what] = {one, other, one + other}
        one, other = (sum(pair[at] for pair in pairs.values()) for at in (0, 1))
        self.all[what] = {one, other, one + other}

    def right(self, what, line):
        """The numbers that a line may say, or None where nothing is counted for it."""
        if what in OF_A_TOOL:
            tool, file, name = OF_A_TOOL[what]
            found = length(self.root / file, name) if tool in line else None
            return {found} if found else None
        beside = (self.of_crate[crate][what] for crate in CRATE.findall(line) if crate in self.of_crate)
        return self.all[what].union(*beside)


def judged_counts(papers, counted):
    """Each number of something that is counted, but those of few."""
    for paper in papers.values():
        lines = paper.by_hand.split("\n")
        for found in SAID.finditer(paper.by_hand):
            line, number, what = line_of(paper.by_hand, found.start()), number_of(found["number"]), found["what"].lower()
            right = counted.right(what, lines[line - 1]) if number >= (FEW_EDITS if what == "edits" else FEW) else None
            if right is not None:
                told = " or ".join(f"{each:,}" for each in sorted(right - {0}))
                yield Judged(paper.name, line, "" if number in right else f"says {found[0]!r}, where {told} are counted")


def judged_lines(papers, root):
    """The thousands of lines of crates that a map tells: within a tenth of those that they have, and half a thousand for rounding."""
    for paper in papers.values():
        for found in LINES.finditer(paper.by_hand):
            told = {crate: int(thousands) for crate, thousands in re.findall(r"(\w+) (\d+)", found["crates"])}
            has = {crate: lines_of(crate, root) for crate in told}
            for what, thousands, lines in (*((crate, told[crate], has[crate]) for crate in told), ("all", int(found["all"]), sum(has.values()))):
                fault = f"says {thousands} thousand lines of {what}, where {lines:,} are counted"
                near = abs(1000 * thousands - lines) <= lines / 10 + 500
                yield Judged(paper.name, line_of(paper.by_hand, found.start()), "" if near else fault)
