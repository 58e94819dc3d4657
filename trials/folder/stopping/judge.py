"""What has to hold of a folder, whatever happened to a night of it."""

import os
import re
import subprocess
import traceback
from collections import Counter

from trials.folder.stopping.stopped_shop import VIEWS, after, base_tables, changes_in, table, views_of

SCRAP = ("*.part", "*.gone", "commit", "versions/*.part", "versions/*.gone", "quarantine/.*")
TAKEN_OVER, MANY = 2, 100


class Wrong(Exception):
    """What does not hold."""


def demand(holds, text):
    if not holds:
        raise Wrong(text)


def judged(name, folder, work):
    """What work in a folder answers, and what does not hold of it, or None; then the folder is removed."""
    answer = wrong = None
    try:
        answer = work()
    except Wrong as found:
        wrong = f"{name}: {found}"
    except (OSError, LookupError, ValueError, StopIteration) as found:
        place = traceback.extract_tb(found.__traceback__)[-1]
        wrong = f"{name}: {found!r} at {place.filename}:{place.lineno}"
    if not wrong:
        subprocess.run(["rm", "-rf", folder], check=True)
    return answer, wrong


def contents(folder):
    """The bytes of all files of a folder by their paths, and where its links lead."""
    return {str(path.relative_to(folder)): of_path(path) for path in folder.rglob("*") if path.is_symlink() or path.is_file()}


def of_path(path):
    return os.readlink(path) if path.is_symlink() else path.read_bytes()


def versions(folder):
    """The whole versions of a folder by their numbers, rising."""
    found = {int(path.name): path for path in (folder / "versions").glob("*") if path.name.isdigit()}
    return dict(sorted(found.items()))


def current(folder):
    """The number of the version that a reader is sent to, or None."""
    try:
        return int(os.readlink(folder / "current").removeprefix("versions/"))
    except FileNotFoundError:
        return None


def state(folder):
    """Where the tables are that the next night begins with."""
    number = current(folder)
    return folder if number is None else folder / f"versions/{number}"


def rolled_back_to(version):
    """The version whose tables one has again, where its manifest says so, or None."""
    file = version / "manifest.txt"
    found = re.search(r"^kind rollback ([0-9]+)$", file.read_text(), re.MULTILINE) if file.is_file() else None
    return int(found[1]) if found else None


class Judge:
    """Judges one copy of a start against what is known of the start."""

    def __init__(self, start, folder):
        self.start, self.folder = start, folder
        self.before = {number: contents(path) for number, path in versions(start.folder).items()}
        self.known = {number: base_tables(path) for number, path in versions(start.folder).items()}
        self.was = current(start.folder)

    # ---- at every moment

    def readable(self, nights=1):
        """What a reader sees is a whole version, and where there is none the tables that the folder began with."""
        self.kept()
        self.chained()
        seen, there = current(self.folder), versions(self.folder)
        if seen is not None:
            demand(seen in there, f"current leads to versions/{seen}, which is not there")
            first = -1 if self.was is None else self.was
            last = max(self.before, default=TAKEN_OVER) + nights
            demand(first <= seen <= last, f"current leads from {self.was} to {seen}")
        elif self.start.whole and not there:
            demand(base_tables(self.folder) == base_tables(self.start.folder), "data/ is not as it was, and there is no version")

    def is_stopped(self):
        """Whether a night has left something that the next one has to finish or undo."""
        return self.is_behind() or any((self.folder / "versions").glob("*.part"))

    def kept(self):
        """Versions that were there are byte for byte as they were, or gone where nights prune."""
        there = versions(self.folder)
        for number, was in self.before.items():
            if number in there:
                # The current version of before there were manifests gets one.
                added = set() if "manifest.txt" in was else {"manifest.txt", ".manifest.txt"}
                found = {name: content for name, content in contents(there[number]).items() if name not in added}
                demand(found == was, f"versions/{number} is not what it was")
            else:
                demand(self.start.keep, f"versions/{number} is gone")

    def chained(self):
        """Each version is the one before it with its changes, and its views are those of its tables."""
        known = dict(self.known)
        for number, path in versions(self.folder).items():
            if number not in self.known:
                known[number] = base_tables(path)
                self.judge_new(number, path, known)

    def judge_new(self, number, path, known):
        if number == 0:
            demand(any(known[0] == history.first for history in self.start.histories), "versions/0 is not what the folder began with")
        elif (of := rolled_back_to(path)) is not None:
            demand(known[number] == known.get(of, known[number]), f"versions/{number} has not the tables of versions/{of}")
            demand(not changes_in(path / "changes"), f"versions/{number} is a rollback, and has changes")
        elif number - 1 in known:
            changes = changes_in(path / "changes")
            demand(known[number] == after(known[number - 1], changes), f"versions/{number} is not the one before it with its changes")
        if number or any((path / "views").glob("*.csv")):
            seen = {name: table(path / "views" / f"{name}.csv") for name in VIEWS}
            demand(seen == views_of(known[number]), f"the views of versions/{number} are not those of its tables")

    # ---- when a night is over

    def said(self, told, statuses):
        """How a night ended: with one of these statuses, without a traceback, and with a reason where it is not 0."""
        demand("Traceback" not in told.told, f"a traceback: {told.told}")
        demand(told.status in statuses, f"the status is {told.status} and not {statuses}: {told.told}")
        demand(told.status == 0 or told.told.strip(), f"nothing is said of status {told.status}")

    def is_as_before(self):
        """Whether the tables are those that the night began with, and no version is there that counts from the next night on."""
        as_before = self.was is None and base_tables(state(self.folder)) == base_tables(self.start.folder)
        return (current(self.folder) == self.was or as_before) and not self.is_behind()

    def is_behind(self):
        """Whether there is a newer version than the one that a reader is sent to."""
        there = versions(self.folder)
        return bool(there) and current(self.folder) != max(there)

    def undone(self, given):
        """The folder is as before the night: its version, and its changes with what came since."""
        demand(self.is_as_before(), "another version is there")
        self.placed(given)
        lying, had = changes_in(self.folder / "changes"), changes_in(self.start.folder / "changes")
        demand(not had - lying, f"changes are not back: {list(had - lying)[:2]}")
        left = [path.name for path in (self.folder / "versions").glob("*.part")]
        demand(not left, f"{left} is left")

    def done(self, given):
        """The folder's nights are done, and nothing of a night that was stopped is left."""
        self.readable(MANY)
        self.placed(given)
        there = versions(self.folder)
        demand(current(self.folder) == max(there), f"current is {current(self.folder)} of {sorted(there)}")
        left = sorted(str(path.relative_to(self.folder)) for scrap in SCRAP for path in self.folder.glob(scrap))
        demand(not left, f"there is left: {left}")
        demand(not self.start.keep or len(there) <= self.start.keep, f"versions {sorted(there)} are there")
        self.added(there[max(there)])

    def added(self, version):
        """The table of a view that is new has come into the version."""
        for name, rows in (self.start.added or {}).items():
            demand(table(version / "data" / f"{name}.csv") == rows, f"the table of {name} is not what was put in")

    def placed(self, given):
        """Each change is in one version, in changes/ or in quarantine/, once, and the tables have those of the versions and no others."""
        aside = sum((changes_in(path) for path in (self.folder / "quarantine").glob("[!.]*")), Counter())
        lying = changes_in(self.folder / "changes")
        there = versions(self.folder)
        history = self.history(there)
        all_given = given + history.given
        carried = sum((changes_in(path / "changes") for path in there.values()), Counter())
        for found in (lying + carried + aside).items():
            demand(found[1] == 1 and found[0] in all_given, f"{found[0]} is there {found[1]} times, and {all_given[found[0]]} were given")
        lost = all_given - lying - carried - aside
        demand(not lost or self.start.keep, f"lost: {list(lost)[:3]}")
        if there:
            tables = self.tables_of(there, history, all_given - lying - aside)
            demand(base_tables(there[max(there)]) == tables, "the tables are not the first ones with all changes that were carried out")

    def tables_of(self, there, history, carried):
        """What the newest version's tables have to be: the first ones with all changes that were carried out, where none was gone back to."""
        if not any(rolled_back_to(path) is not None for path in there.values()):
            return after(history.first, carried)
        tables = {0: history.first}
        for number, path in there.items():
            if number:
                of = rolled_back_to(path)
                tables[number] = after(tables[number - 1], changes_in(path / "changes")) if of is None else tables[of]
        return tables[max(there)]

    def history(self, there):
        """Which of the histories that the start can be told with the folder's first version has."""
        if 0 not in there:
            return self.start.histories[0]
        first = base_tables(there[0])
        return next(history for history in self.start.histories if history.first == first)
