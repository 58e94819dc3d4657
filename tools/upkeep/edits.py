"""Wrong bodies: a crate's must-fail/ has those that the gate tries first, and tools/edits/CRATE those that it tries where time is left."""

import os
import subprocess
import sys
import time
from collections import Counter
from concurrent.futures import ThreadPoolExecutor
from pathlib import Path

from upkeep.words import ROOT

APART = ROOT / "tools" / "edits"
# What of must-fail/ has its turn another time waits here while the gate runs.
ASIDE = ROOT / "out" / "edits"
LENT = "lent-"
COMMITS_THAT_CHANGE = 12
SECONDS_OF_AN_UNKNOWN_CRATE = 30.0
# The step of the turns. No number of commits brings it back to its place, so each edit has its turn whatever a landing has.
GOLDEN = 0.6180339887498949


def uses():
    """What crates.txt says: the crates, by their order there, and the libraries that each uses."""
    lines = (line.partition("#")[0].partition(":") for line in (ROOT / "crates.txt").read_text().splitlines())
    return {head.split()[0]: rest.split() for head, colon, rest in lines if colon}


def crates():
    """The crates of the repository that have edits, by their order in crates.txt."""
    return [name for name in uses() if apart(name) or standing(name)]


def standing(crate):
    """The edits of a crate that stand in must-fail/."""
    return sorted((ROOT / "crates" / crate / "must-fail").glob("*.edit"))


def apart(crate):
    """The other edits of a crate."""
    return sorted((APART / crate).glob("*.edit"))


def lend(edits):
    """Copies edits to where rt finds them, under names that .gitignore has."""
    for edit in edits:
        folder = ROOT / "crates" / edit.parent.name / "must-fail"
        folder.mkdir(exist_ok=True)
        (folder / f"{LENT}{edit.name}").write_bytes(edit.read_bytes())


def set_aside(edits):
    """Moves edits of must-fail/ to where rt does not find them."""
    for edit in edits:
        folder = ASIDE / edit.parents[1].name
        folder.mkdir(parents=True, exist_ok=True)
        edit.rename(folder / edit.name)


def give_back():
    """Takes back what this or an earlier run lent, and puts back what it set aside."""
    for lent in ROOT.glob(f"crates/*/must-fail/{LENT}*.edit"):
        lent.unlink()
        if not any(lent.parent.iterdir()):
            lent.parent.rmdir()
    for edit in ASIDE.glob("*/*.edit"):
        folder = ROOT / "crates" / edit.parent.name / "must-fail"
        folder.mkdir(exist_ok=True)
        edit.rename(folder / edit.name)


def git(*words):
    """What git says, or nothing where it knows no answer."""
    try:
        ran = subprocess.run(["git", *words], cwd=ROOT, capture_output=True, text=True)
    except OSError:
        return ""
    return ran.stdout.strip() if ran.returncode == 0 else ""


def changed_crates():
    """The crates that have changed since the branch left the one that it lands on, or else in the last commits."""
    head, left = git("rev-parse", "HEAD"), git("merge-base", "HEAD", "origin/HEAD")
    since = left if left and left != head else f"HEAD~{COMMITS_THAT_CHANGE}"
    parts = [Path(path).parts for path in git("diff", "--name-only", since).splitlines()]
    return {it[1] for it in parts if it[0] == "crates" and len(it) > 2} | {it[2] for it in parts if it[:2] == ("tools", "edits") and len(it) > 3}


def turn():
    """A number that is another one after each landing."""
    if git("rev-parse", "--is-shallow-repository") == "false":
        return int(git("rev-list", "--count", "HEAD"))
    return int(git("rev-parse", "HEAD")[:8] or "0", 16)


def rotated(things, at):
    start = int(at * GOLDEN % 1 * len(things))
    return things[start:] + things[:start]


def seconds_of_loop():
    """The processor seconds of a loop of arithmetic, by which machines are compared."""

    def one():
        began, number = time.process_time(), 1
        for step in range(2_000_000):
            number = (number * 1_103_515_245 + step) % 2_147_483_648
        return time.process_time() - began

    return min(one() for _ in range(3))


def seconds_of_edits():
    """The seconds that one more edit of each crate takes on this machine, and on it where the crate is not listed."""
    table = dict(line.split() for line in (APART / "seconds").read_text().splitlines() if line and not line.startswith("#"))
    pace = seconds_of_loop() / float(table.pop("loop"))
    return {crate: float(seconds) * pace for crate, seconds in table.items()}, SECONDS_OF_AN_UNKNOWN_CRATE * pace


def crate_of(edit):
    """The crate of an edit, wherever that stands."""
    return edit.parents[1].name if edit.parent.name == "must-fail" else edit.parent.name


def mixed(names, listed):
    """The edits of these crates, in an order in which each stretch has some of all."""
    placed = [((place + 0.5) / len(listed(crate)), edit) for crate in names for place, edit in enumerate(listed(crate))]
    return [edit for _, edit in sorted(placed)]


class Turn:
    """What a run of the gate tries. A crate's edits are tried one after the other, perhaps when all else is done, so none gets more than
    the seconds; all together get so many for each check that runs side by side."""

    def __init__(self, seconds, side_by_side):
        self.seconds, self.left, self.used = seconds, seconds * side_by_side, Counter()
        self.costs, self.unknown = seconds_of_edits()
        touched = changed_crates()
        self.changed, self.others = ([crate for crate in crates() if (crate in touched) == wanted] for wanted in (True, False))
        self.at = turn()

    def drawn(self, listed):
        """The edits, as `listed` gives those of a crate, that there is time for. Changed crates come first, with two thirds of what is
        left, so that no other is left out for ever."""
        edits = []
        for names, kept_back in ((self.changed, self.left / 3 if self.others else 0), (self.others, 0)):
            for edit in rotated(mixed(names, listed), self.at):
                if self.left > kept_back and self.used[crate_of(edit)] < self.seconds:
                    self.take(crate_of(edit))
                    edits.append(edit)
        return edits

    def take(self, crate):
        cost = self.costs.get(crate, self.unknown)
        self.left -= cost
        self.used[crate] += cost


def take_turn(seconds):
    """Leaves in must-fail/ what has its turn, and lends what of the others there is time for."""
    give_back()
    taken = Turn(seconds, lanes())
    tried = taken.drawn(standing)
    lent = taken.drawn(apart)
    waiting = [edit for crate in crates() for edit in standing(crate) if edit not in set(tried)]
    set_aside(waiting)
    lend(lent)
    all_apart = sum(len(apart(crate)) for crate in crates())
    print(f"edits: {len(tried)} of must-fail/ and {len(lent)} apart have their turn, {len(waiting)} and {all_apart - len(lent)} wait for another")
    print(f"  changed of late: {' '.join(taken.changed) or 'no crate'}", flush=True)


def lanes():
    """How many checks run side by side: one a processor, where each finds 4 GiB, unless RT_JOBS says it."""
    free = int(next(line.split()[1] for line in open("/proc/meminfo") if line.startswith("MemAvailable")))
    return int(os.environ.get("RT_JOBS") or max(1, min(len(os.sched_getaffinity(0)), free // 4_194_304)))


def libraries_below(names):
    """The libraries that these crates use, each after those that it uses itself."""
    known, found = uses(), []

    def add_below(crate):
        for library in known[crate]:
            if library in known and library not in found:
                add_below(library)
                found.append(library)

    for name in names:
        add_below(name)
    return found


def try_crate(crate, running):
    """Tries all edits of a crate, prints what rt says, and returns how many are refused and how many are not."""
    count = len(standing(crate))
    began = time.monotonic()
    words = {"stdout": subprocess.PIPE, "stderr": subprocess.STDOUT, "stdin": subprocess.DEVNULL, "text": True}
    ran = subprocess.Popen(["rt", "must-fail", crate], cwd=ROOT, **words)
    running.append(ran)
    said = ran.communicate()[0]
    refused = said.count(": refused, as it must be")
    print(f"{said}{crate}: {refused} of {count} refused, in {time.monotonic() - began:.0f} seconds\n", end="", flush=True)
    return refused, count - refused


def try_crates(names):
    unknown = sorted(set(names) - set(crates()))
    if unknown:
        sys.exit(f"tools/try_edits: {' '.join(unknown)}: no crate that has edits")
    # One after the other: rt must-fail keeps no other rt out of the libraries that it builds.
    for library in libraries_below(names):
        ran = subprocess.run(["rt", "lib"], cwd=ROOT / "crates" / library, capture_output=True, text=True)
        if ran.returncode:
            sys.exit(f"{ran.stdout[-2000:]}{ran.stderr[-2000:]}tools/try_edits: {library} is not proved")
    for crate in names:
        lend(apart(crate))
    running = []
    with ThreadPoolExecutor(lanes()) as pool:
        try:
            # the greatest crates stand last in crates.txt, and take longest
            tasks = [pool.submit(try_crate, crate, running) for crate in reversed(crates()) if crate in names]
            tried = [task.result() for task in tasks]
        except BaseException:
            pool.shutdown(wait=False, cancel_futures=True)
            for ran in running:
                ran.terminate()
            raise
    refused, wrong = (sum(numbers) for numbers in zip(*tried))
    print(f"edits: {refused} refused, {wrong} not")
    return 1 if wrong else 0


# ---- without the prover


def mistake(edit):
    """Why the edit cannot be tried, or None."""
    if (ROOT / "crates" / edit.parent.name / "must-fail" / edit.name).exists():
        return "it stands in must-fail/ too"
    texts, file, old, pairs = {}, None, None, 0
    for line in edit.read_text().split("\n"):
        if line.startswith("file: "):
            file = ROOT / "crates" / edit.parent.name / line[len("file: ") :].strip()
        elif line.startswith("old: "):
            old = line[len("old: ") :]
        elif line.startswith("new:"):
            if not file or not old or not file.is_file():
                return "a text with no file"
            text = texts.get(file) or file.read_text()
            if text.count(old) != 1:
                return f"a text that stands {text.count(old)} times in {file.name}: {old.strip()}"
            new = line[len("new:") :]
            texts[file] = text.replace(old, new[1:] if new.startswith(" ") else new)
            old, pairs = None, pairs + 1
    return None if pairs else "nothing to replace"
