"""What is known of a folder that has a history, and what has to hold of it between two steps: each version has the tables of the one that
it was made from with its changes, and the batches; each change is in one version, in changes/ or in quarantine/, as often as it was given;
versions stay as they are, but for those that a night was told not to keep; and what is none of the folder's versions is told.
"""

import json
import re
from collections import Counter
from copy import copy
from typing import NamedTuple

from trials.folder.stopping.judge import contents, current, demand
from trials.folder.stopping.stopped_shop import VIEWS, Hand, after, base_tables, changes_in, table, views_of

PARENT, OF = (re.compile(form, re.MULTILINE) for form in (r"^parent ([0-9]+) ", r"^kind rollback ([0-9]+)$"))
BATCH = ".batch"


class Version(NamedTuple):
    """What is known of a version: its tables, what it carried out, which batches led to it, and its bytes."""

    tables: dict
    changes: Counter
    batches: frozenset
    bytes: dict


class History:
    """A folder, and what is known of its versions, also of those that are there no more."""

    def __init__(self, tool, start, folder):
        self.tool, self.folder = tool, start.copied(folder)
        self.hand = Hand(folder, start.given, 500)
        self.strays, self.damaged, self.known = {}, set(), {}
        for number, path in self.versions().items():
            self.known[number] = Version(base_tables(path), changes_in(path / "changes"), frozenset(), contents(path))
        self.there = set(self.known)

    # ---- what is there

    def versions(self):
        """The versions but for what was put there as a stray."""
        found = {int(path.name): path for path in (self.folder / "versions").iterdir() if path.name.isdigit() and path.name not in self.strays}
        return dict(sorted(found.items()))

    @property
    def current(self):
        return current(self.folder)

    def carried(self):
        return sum((version.changes for version in self.known.values()), Counter())

    def aside(self):
        return sum((changes_in(path) for path in (self.folder / "quarantine").glob("[!.]*")), Counter())

    def is_put(self, batch):
        """Whether a batch waits, or led to the current version."""
        return (self.folder / "changes" / f"{batch}{BATCH}").exists() or batch in self.known[self.current].batches

    def remembered(self):
        """What is known now, for whoever goes back to it."""
        return copy(self.known), Counter(self.hand.given), set(self.damaged)

    def go_back(self, remembered, there):
        """Knows what was known then; these versions are there."""
        known, given, damaged = remembered
        self.known, self.hand.given, self.damaged = copy(known), Counter(given), set(damaged)
        self.strays, self.there = {}, set(there)

    # ---- the commands

    def ran(self, *words):
        """A command that is told of no fault of its own. What it made and removed is judged."""
        told = self.tool.run(words[0], self.folder, *words[1:])
        return self.told_of(told, words)

    def told_of(self, told, words):
        demand("Traceback" not in told.told, f"{words}: a traceback: {told.told}")
        demand(told.status <= 0 or told.told.strip() or told.printed.strip(), f"{words}: nothing is said of status {told.status}")
        self.learn(int(words[words.index("--keep") + 1]) if "--keep" in words else None)
        return told

    def went(self, status, *words):
        """The same, which ends with this status."""
        told = self.ran(*words)
        demand(told.status == status, f"{words} ends with {told.status} and not {status}: {told.told}")
        return told

    # ---- what has to hold

    def learn(self, keep=None):
        """Judges the versions that are new, and that all others are as they were; those go that are not the newest ones to be kept."""
        there = self.versions()
        for number, path in there.items():
            if number not in self.known:
                self.judge_new(number, path, (path / "manifest.txt").read_text())
            demand(contents(path) == self.known[number].bytes, f"versions/{number} is not what it was")
        gone, stay = self.there - set(there), sorted(self.there | set(there))
        demand(not gone & set(stay[-keep:] if keep else stay), f"versions {sorted(gone)} are gone with {keep} to be kept of {stay}")
        self.there = set(there)

    def judge_new(self, number, path, manifest):
        """A night has the tables of its parent with its changes, and a rollback those of the version that it names."""
        of, parent = OF.search(manifest), PARENT.search(manifest)
        before = self.known[int((of or parent)[1])]
        changes, notes = changes_in(path / "changes"), {note.name.removesuffix(BATCH) for note in path.glob(f"batches/*{BATCH}")}
        demand(not of or not (changes or notes), f"versions/{number} is a rollback, and has changes")
        demand(not notes & before.batches, f"versions/{number} has batches that it was made from: {notes & before.batches}")
        made = Version(after(before.tables, changes), changes, before.batches | notes, contents(path))
        self.known[number] = made
        demand(base_tables(path) == made.tables, f"versions/{number} has not the tables that it has to have")
        names = [line.split()[0] for line in (path / "batches.txt").read_text().splitlines()] if (path / "batches.txt").is_file() else []
        demand(sorted(names) == sorted(made.batches), f"versions/{number} has the batches {names}, and not {sorted(made.batches)}")
        # The tables that a folder began with have no views, nor has a rollback to them.
        if not of or any((path / "views").iterdir()):
            views = {name: table(path / f"views/{name}.csv") for name in VIEWS}
            demand(views == views_of(made.tables), f"the views of versions/{number} are wrong")

    def judge(self):
        self.learn()
        there = changes_in(self.folder / "changes") + self.carried() + self.aside()
        lost, more = self.hand.given - there, there - self.hand.given
        demand(not lost and not more, f"lost: {list(lost)[:3]}; there too often: {list(more)[:3]}")
        demand(self.current == max(self.there), f"current is {self.current} of {sorted(self.there)}")
        touched = [name for name, was in self.strays.items() if self.looks(name) != was]
        demand(not touched, f"{touched} is touched, which is a stray")
        told = self.ran("lint").told
        demand(all(f"versions/{name}:" in told for name in self.strays), f"a stray is not told: {told}")
        log = json.loads(self.went(0, "log", "--format", "json").printed)
        demand([entry["version"] for entry in log] == sorted(self.there, reverse=True), f"log tells {log} of {sorted(self.there)}")

    def judge_all_files(self):
        """`verify` tells what is damaged and what is a stray, and no more."""
        told = self.ran("verify")
        lines = told.printed.splitlines()[:-1]
        wrong = {line.split(":")[0].split("/")[1] for line in lines}
        wanted = {str(number) for number in self.damaged & self.there}
        strays = {name for name in self.strays if (self.folder / "versions" / name).is_dir()}
        demand(wanted <= wrong <= wanted | strays, f"verify tells {lines} where {wanted} and {strays} are wrong")
        demand(strays <= wrong, f"verify does not tell of {strays - wrong}: {lines}")
        demand(told.status == int(bool(lines)), f"verify ends with {told.status}: {lines}")

    def looks(self, name):
        path = self.folder / "versions" / name
        return contents(path) if path.is_dir() else path.read_text()
