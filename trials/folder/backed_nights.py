"""Nights whose changes are put in, each twice as one batch, beside those of what is restored of a backup; and at last a column that comes."""

import random
import subprocess
from pathlib import Path
from tempfile import TemporaryDirectory

from trials.drawn.shop import BASES, VIEWS, Shop, expected, lay, put_changes, table, write
from upkeep.words import ROOT

NIGHTS, ORDERS, LINES = 4, 200, 600
NEW = 'columns = ["product:text", "price", "kind:text"]\nfill = {kind = "none, so far"}'


class Wrong(Exception):
    """What does not hold."""


class Trial:
    """A shop in a folder, and the exports that are put in."""

    def __init__(self, built: Path, room: Path):
        self.built, self.room, self.folder = built, room, room / "shop"
        self.shop = Shop(random.Random(41), ORDERS, LINES)
        lay(self.folder)

    def run(self, *words: object) -> str:
        ran = subprocess.run([ROOT / "whview", "folder", *words, "--program", self.built], capture_output=True, text=True)
        if ran.returncode:
            raise Wrong(f"{words} ends with {ran.returncode}: {ran.stderr}")
        return ran.stdout

    def put(self, changes: dict, night: int) -> None:
        """Puts the changes of a night in, and once more."""
        files = [self.room / f"{name}.csv" for name in changes]
        for file, (name, rows) in zip(files, changes.items()):
            write(file, BASES[name], rows)
        for _ in range(2):
            told = self.run("put", self.folder, *files, "--batch", f"night-{night}")
        if "nothing is changed" not in told:
            raise Wrong(f"a batch is taken twice: {told}")

    def judge(self, folder: Path, bases: dict = BASES) -> None:
        """Compares all views of a folder with sqlite3's."""
        for name, rows in expected(self.shop.rows).items():
            if (name in bases or name in VIEWS) and table(folder / "current" / ("data" if name in BASES else "views") / f"{name}.csv") != rows:
                raise Wrong(f"{name} of {folder.name} differs from sqlite3's")

    def night(self, number: int) -> None:
        """A night of the folder, and of what is restored of a backup that was made before it."""
        again = self.room / f"again-{number}"
        if number > 1:
            self.run("backup", self.folder, self.room / f"backup-{number}", *(["--all"] if number % 2 else []))
            self.run("restore", self.room / f"backup-{number}", again)
        for folder in [self.folder, again][: 1 + (number > 1)]:
            self.run("night", folder, "--commit")
            self.judge(folder)

    def column(self) -> None:
        """A column comes to the products, and views over them are made anew."""
        catalogue = self.folder / "catalogue.toml"
        catalogue.write_text(catalogue.read_text().replace('columns = ["product:text", "price"]', NEW))
        self.run("night", self.folder, "--commit")
        self.judge(self.folder, {name: BASES[name] for name in BASES if name != "products"})
        rows = {(*row, "none, so far"): count for row, count in expected(self.shop.rows)["products"].items()}
        if table(self.folder / "current/data/products.csv") != rows:
            raise Wrong("the products have not what fill says in their new column")


def tried(built: Path) -> str:
    with TemporaryDirectory() as room:
        trial = Trial(built, Path(room))
        changes = {name: [(1, row) for row in rows] for name, rows in trial.shop.rows.items()}
        for number in range(1, NIGHTS + 1):
            trial.put(changes, number)
            trial.night(number)
            changes = trial.shop.night(ORDERS // 20, LINES // 20)
        # The last changes are none that a night carried out.
        put_changes(trial.folder, changes)
        trial.run("night", trial.folder, "--commit")
        trial.column()
    return f"{NIGHTS} nights of changes that were put in twice: six views are sqlite3's, also of what was restored of a backup before each"
