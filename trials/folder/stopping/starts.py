"""The folders that the nights begin with, and what is known of each: its first tables, the changes given, how a night ends."""

import re
import shutil
import subprocess
from collections import Counter
from dataclasses import dataclass
from pathlib import Path
from typing import NamedTuple

from trials.folder.stopping import old_layout
from trials.folder.stopping.stopped_shop import SHOP, Hand, base_tables
from whview.folder.identity import identity_of, sign

# A night of a trial makes its version also where an earlier one took all changes.
COMMIT = ("--commit", "--always")
LEAVING = [(-1, ("4", "jam", "2"))]
WRONG = (("no such", "1"), ("wrong", "1.5"))
NOT_LOOKED_AT = re.compile(r"^(data/[a-z]+\.csv):.* move it away$", re.MULTILINE)
STORES = {"stores": Counter({("High Street",): 1, ("Quay",): 1})}


class History(NamedTuple):
    """How a folder's past may be told: the tables of versions/0, and the changes that were carried out before those of the start."""

    first: dict
    given: Counter


@dataclass
class Start:
    """A folder, what its night is told, and how that ends when nothing happens to it."""

    name: str
    folder: Path
    given: Counter
    histories: list
    options: tuple = COMMIT
    command: str = "night"
    statuses: tuple = (0,)
    # A file that somebody still writes; tables of views that are new; how many versions are to stay.
    written: str = ""
    added: dict = None
    keep: int = 0
    # Whether data/ can be read while there is no version, whether the night is one of a copy, and whether nothing was stopped before.
    whole: bool = True
    other: bool = False
    fresh: bool = True

    @property
    def words(self):
        return (self.command, *self.options)

    def copied(self, place):
        """A copy of the folder, which is it as far as it can tell, but for one that is to be a copy; what is one file under two names
        stays so.
        """
        subprocess.run(["cp", "-a", self.folder, place], check=True)
        identity = identity_of(self.folder)
        if identity.name and not self.other:
            sign(place, identity)
        return place


class Starts:
    """Makes the folders, those with versions by nights of the tool."""

    def __init__(self, tool, room):
        self.tool, self.room, self.made = tool, room, []

    def start(self, name, hand, first=None, **more):
        """A start of a folder as it is now."""
        histories = [History(first or base_tables(SHOP), Counter()), *more.pop("told_otherwise", [])]
        self.made.append(Start(name, hand.folder, Counter(hand.given), histories, **more))

    def bare(self, name):
        """A folder of the shop that was never committed, without changes."""
        folder = self.room / name.replace(" ", "_")
        shutil.copytree(SHOP, folder)
        shutil.rmtree(folder / "changes")
        (folder / "changes").mkdir()
        return Hand(folder)

    def filled(self, name, nights):
        """A folder with versions made by so many nights, and changes for the next one."""
        hand = self.bare(name)
        for night in range(nights):
            hand.put("orders")
            hand.put("lines", [(1, hand.row("lines"))] + (LEAVING if night == 0 else []))
            told = self.tool.run("night", hand.folder, *COMMIT)
            if told.status:
                raise ValueError(f"night {night + 1} of the folder {name!r} ends with {told.status}: {told.told}")
        hand.put("orders")
        hand.put("lines")
        return hand

    def all(self):
        self.firsts()
        self.taken_over()
        self.stopped_commits()
        self.later()
        self.sent_back()
        return self.made

    def firsts(self):
        self.start("first night", self.filled("first night", 0))
        planned = self.filled("planned night", 0)
        (planned.folder / "strategy.txt").unlink()
        self.start("planned night", planned)

    def taken_over(self):
        """Folders that were committed once and twice before there were versions."""
        for name, commits in (("committed once", 1), ("committed twice", 2)):
            hand = self.bare(name)
            for _ in range(commits):
                past = History(*old_layout.committed(hand))
            hand.given.clear()
            first = base_tables(hand.folder)
            hand.put("orders")
            self.start(name, hand, first, told_otherwise=[past])

    def stopped_commits(self):
        """Commits of that time that were stopped after each of their steps; some have the next night's changes beside them."""
        for steps in range(old_layout.STEPS):
            self.stopped_commit(f"commit stopped after {steps}", steps)
        for steps in range(old_layout.OLD_CHANGES_ARE_AWAY, old_layout.STEPS):
            self.stopped_commit(f"commit stopped after {steps}, more since", steps, "products")
        for steps in range(1, old_layout.OLD_CHANGES_ARE_AWAY):
            self.stopped_commit(f"commit stopped after {steps}, more beside", steps, "products", statuses=(0, 3))

    def stopped_commit(self, name, steps, more=None, **known):
        hand = self.bare(name)
        past = History(*old_layout.committed(hand))
        hand.given.clear()
        first = base_tables(hand.folder)
        old_layout.stopped_commit(hand, steps)
        if more:
            hand.put(more)
        self.start(name, hand, first, told_otherwise=[past], whole=False, fresh=False, **known)

    def later(self):
        """Nights of folders that have versions."""
        self.start("later night", self.filled("later night", 2))
        self.start("keeping 2", self.filled("keeping 2", 3), options=(*COMMIT, "--keep", "2"), keep=2)
        self.start("keeping 1", self.filled("keeping 1", 2), options=(*COMMIT, "--keep", "1"), keep=1)
        several = self.filled("several files", 2)
        for view in ("orders", "orders", "products"):
            several.put(view)
        self.start("several files", several)
        self.start("file of two names", self.with_two_names())
        self.start("preview", self.filled("preview", 1), options=())
        self.start("a view is new", self.with_a_new_view(), added=STORES)
        self.start("a copy", self.filled("a copy", 2), other=True)
        self.start("before manifests", self.without_manifests())
        self.start("rollback", self.filled("rollback", 3), options=("1",), command="rollback")
        self.start("rollback twice", self.rolled_back(), options=("1",), command="rollback")

    def without_manifests(self):
        """A folder as nights left it before versions had manifests."""
        hand = self.filled("before manifests", 2)
        for file in [hand.folder / ".identity", *hand.folder.glob("versions/*/manifest.txt")]:
            file.unlink()
        return hand

    def rolled_back(self):
        """A folder in which a version was gone back to already, and another night was kept."""
        hand = self.filled("rollback twice", 2)
        for words in (("rollback", "1"), ("night", *COMMIT)):
            told = self.tool.run(words[0], hand.folder, *words[1:])
            if told.status:
                raise ValueError(f"{words} ends with {told.status}: {told.told}")
        hand.put("orders")
        return hand

    def with_two_names(self):
        """A folder where a file of changes has a second name beside."""
        hand = self.filled("file of two names", 2)
        (hand.folder / "export.csv").hardlink_to(hand.folder / "changes/orders.csv")
        return hand

    def with_a_new_view(self):
        """A folder whose catalogue has one base view more than its version."""
        hand = self.filled("a view is new", 1)
        with (hand.folder / "catalogue.toml").open("a") as file:
            file.write('\n[[view]]\nname = "stores"\ncolumns = ["store:text"]\n')
        with (hand.folder / "strategy.txt").open("a") as file:
            file.write("inst stores\n")
        (hand.folder / "data").mkdir(exist_ok=True)
        (hand.folder / "data/stores.csv").write_text("store\nHigh Street\nQuay\n")
        return hand

    def sent_back(self):
        """Nights that put their changes back: refused, with a fault, and with a file that is still written; and one that puts some aside."""
        for name, row, status in (("refused night", (-1, WRONG[0]), 1), ("night with a fault", (1, WRONG[1]), 3)):
            hand = self.filled(name, 2)
            hand.put("products", [(1, hand.row("products")), row])
            self.start(name, hand, statuses=(status,))
        aside = self.filled("records put aside", 2)
        aside.put("products", [(1, aside.row("products")), (-1, WRONG[0]), (1, WRONG[1])])
        self.start("records put aside", aside, options=(*COMMIT, "--quarantine"))
        written = self.filled("file still written", 2)
        self.start("file still written", written, statuses=(6,), written="changes/orders.csv")


def mended(folder, given, told):
    """Does what an operator does where a night is sent back: tables that are not looked at go away, and so do rows that are wrong."""
    for name in NOT_LOOKED_AT.findall(told):
        (folder / name).unlink()
    for path in sorted((folder / "changes").glob("products*.csv")):
        without_wrong_rows(path)
    for change in [change for change in given if change.cells in WRONG]:
        del given[change]


def without_wrong_rows(path):
    """Puts a file without the rows that are wrong in the place of one that has some."""
    lines = path.read_text().splitlines(keepends=True)
    right = [line for line in lines if not line.rstrip().endswith(tuple(",".join(cells) for cells in WRONG))]
    if right != lines:
        coming = path.parents[2] / f"{path.parents[1].name}.coming"
        coming.write_text("".join(right))
        coming.rename(path)
