"""What a folder whose catalogue is SQL does beside nights of views: kinds come again as they were written, faults are told where they stand, a catalogue that
changes keeps all rows, and changes come once."""

import csv
import io
import shutil
import tempfile
from pathlib import Path

from trials.declared.cases import TABLES
from trials.declared.shop import KINDS, NULL, come_and_go, first
from trials.declared.warehouse import Told, Warehouse, called

VIEW = "CREATE VIEW by_city AS SELECT city, count(*) AS n, sum(score) AS score FROM customers GROUP BY city;\n"
OTHER = "CREATE VIEW by_letter AS SELECT substr(name, 1, 1) AS letter, upper(city) AS city, count(*) AS n FROM customers GROUP BY 1, 2;\n"


class Ways:
    """A shop in a folder, and what is wrong with it."""

    def __init__(self, folder, built):
        self.kept = Warehouse(folder, built, first(), TABLES + VIEW, KINDS)
        self.wrong = []

    def right(self, is_right, told):
        """Notes what is wrong where something is not right."""
        self.wrong += [] if is_right else [told]

    def fails(self, why, *words):
        """Notes a command that goes through, or fails for another reason; answers what it tells."""
        try:
            called(*words)
        except Told as told:
            self.right(why in str(told), f"{words[0]} tells {told}, and not {why}")
            return str(told)
        self.wrong.append(f"{words[0]} goes through, where {why}")
        return ""

    # ---- ways

    def kinds(self):
        """Tables are read as they were written."""
        self.kept.night()
        for name, rows in self.kept.tables.items():
            self.right(sorted(self.kept.rows(name)[1]) == sorted(rows), f"{name} is read otherwise than it was written: {self.kept.rows(name)[1][:3]}")
        told = called("sql", self.kept.folder, "SELECT round(sum(total), 2) AS t, count(total) AS n, max(created) AS m FROM orders WHERE total > 9.5")
        own = [row for row in self.kept.tables["orders"] if row[4] != NULL and float(row[4]) > 9.5]
        wanted = [f"{round(sum(float(row[4]) for row in own), 2)}", str(len(own)), max(row[3] for row in own)]
        self.right(next(csv.reader(io.StringIO(told.split("\n", 1)[1]))) == wanted, f"sql answers {told}, and not {wanted}")
        self.right("vip" in called("sql", self.kept.folder, "SELECT count(*) AS vip FROM customers WHERE vip"), "sql has no truth values")
        self.fails("numbers with a point", "read", self.kept.folder, "orders", "--where", "total>3")
        self.right(called("read", self.kept.folder, "by_city", "--where", "city=City 1", "--format", "jsonl").count("\n") == 1, "read --where finds another number of rows")

    def faults(self):
        """A cell of another kind is told with its line, and nothing is taken."""
        file = self.kept.folder / "changes" / "orders.csv"
        for cell, why in (("12.345,x", "2 of them behind the point"), ("1,2026-13-01 00:00:00", "is a moment")):
            total, created = (cell.split(",")[0], "2026-01-01 00:00:00") if cell.endswith("x") else cell.split(",")
            file.write_text(f"#,id,customer,state,created,total\n1,900,1,open,{created},{total}\n")
            told = self.fails(why, "night", self.kept.folder, "--commit", "--program", self.kept.program)
            self.right("changes/orders.csv:2:1: " in told and file.exists(), f"a fault is told as {told}")
        file.write_text("#,id,customer,state,created,total\n-1,900,1,open,2026-01-01 00:00:00,1\n")
        self.fails("900", "night", self.kept.folder, "--commit", "--program", self.kept.program)
        self.right(file.exists(), "a file of changes that was refused is gone")
        file.unlink()

    def once(self):
        """Changes come once, wherever a night stops; so do batches."""
        claimed = self.kept.folder / "changes" / ".taken"
        claimed.mkdir(exist_ok=True)
        left = claimed / "0123abcd-visits.csv"
        left.write_text("#,at,customer,page,seconds\n1,2026-05-01 10:00:00,1,/new,5\n")
        copy = Path(shutil.copy(left, self.kept.folder / "copy"))
        self.kept.night()
        # As if the night had stopped once the inner folder had the file.
        shutil.move(copy, left)
        self.kept.night()
        many = sum(row[2] == "/new" for row in self.kept.rows("visits")[1])
        self.right(many == 1 and not left.exists(), f"changes of a stopped night came {many} times")
        file = self.kept.folder / "visits.csv"
        file.write_text("#,at,customer,page,seconds\n1,2026-05-02 10:00:00,NA,/batch,5\n")
        for _ in range(2):
            called("put", self.kept.folder, file, "--batch", "monday")
        self.kept.night()
        many = sum(row[2] == "/batch" for row in self.kept.rows("visits")[1])
        self.right(many == 1, f"a batch came {many} times")
        self.kept.tables["visits"] = self.kept.rows("visits")[1]
        self.kept.noted()

    def changed(self):
        """Another catalogue: views come and go, all rows stay, and nights go on; older versions are read as they were."""
        before = self.kept.rows("by_city")[1]
        number = called("log", self.kept.folder).split("\n")[1].split()[0]
        (self.kept.folder / "catalogue.sql").write_text(TABLES.replace("boss integer)", "boss integer, phone text)") + OTHER)
        kinds = {**KINDS, "customers": {**KINDS["customers"], "phone": "text"}}
        self.kept.kinds, self.kept.tables["customers"] = kinds, [[*row, NULL] for row in self.kept.tables["customers"]]
        self.kept.noted()
        self.kept.night()
        made = [OTHER]
        self.wrong += self.kept.differences(self.kept.database(made), ["by_letter", "customers", "orders", "lines"])
        self.fails("has no view", "read", self.kept.folder, "by_city")
        come_and_go(self.kept.tables)
        self.kept.put_changes()
        self.kept.night()
        self.wrong += self.kept.differences(self.kept.database(made), ["by_letter", "customers", "orders", "lines", "visits"])
        old = list(csv.reader(io.StringIO(called("read", self.kept.folder, "by_city", "--version", number))))[1:]
        self.right(sorted(row[1:] for row in old) == sorted(before), f"version {number} is read as {old}")

    def reported(self):
        """A report has the cells of tables as they are declared."""
        self.kept.tables["orders"][0][4] = "77.25"
        self.kept.put_changes()
        self.kept.night()
        called("report", self.kept.folder, "--program", self.kept.program)
        page = max((self.kept.folder / "kept" / "reports").glob("*.html"), key=lambda file: int(file.stem)).read_text()
        shown = page.partition('id="rows-orders"')[2].partition("</details>")[0]
        self.right(">77.25<" in shown and "7725" not in shown, f"a report shows {shown[:300]}")

    def let_go(self):
        """A table that is declared no more stays until somebody lets it go by name."""
        catalogue = self.kept.folder / "catalogue.sql"
        before, more = catalogue.read_text(), "CREATE TABLE spare (id integer NOT NULL);\n"
        (self.kept.folder / "data" / "spare.csv").write_text("#,id\n1,7\n")
        catalogue.write_text(before + more)
        self.kept.night()
        catalogue.write_text(before)
        self.fails("the table spare is declared no more", "night", self.kept.folder, "--commit", "--always", "--program", self.kept.program)
        self.fails("that is of no base view any more", "night", self.kept.folder, "--commit", "--always", "--drop", "stranger", "--drop", "spare", "--program", self.kept.program)
        called("night", self.kept.folder, "--commit", "--always", "--drop", "spare", "--program", self.kept.program)

    def beside(self):
        """What is given back lies over no other file, and links are not followed."""
        changes = self.kept.folder / "changes"
        late, linked = changes / "visits.csv", changes / "lines.csv"
        late.write_text("#,at,customer,page,seconds\n1,2026-05-03 10:00:00,1,/late,5\n")
        claimed = changes / ".taken" / "4567-visits.csv"
        claimed.write_text("#,at,customer,page,seconds\n1,never,1,/wrong,5\n")
        self.fails("visits.csv", "night", self.kept.folder, "--commit", "--program", self.kept.program)
        files = [file for file in changes.rglob("*visits*.csv") if "/wrong" in file.read_text()]
        self.right([file.parent.name for file in files] == ["changes"], f"what was refused is in {files}")
        for file in files:
            file.unlink()
        self.kept.night()
        self.right(sum(row[2] == "/late" for row in self.kept.rows("visits")[1]) == 1, "a file that came beside another is lost")
        self.kept.tables["visits"] = self.kept.rows("visits")[1]
        self.kept.noted()
        linked.symlink_to(self.kept.folder / "data" / "lines.csv")
        self.fails("is no plain file", "night", self.kept.folder, "--commit", "--program", self.kept.program)
        linked.unlink()

    def copied(self):
        """A backup has all of it, with changes that wait, and is read and goes on as the folder does."""
        to = self.kept.folder / "backup"
        waiting = self.kept.folder / "changes" / "visits.csv"
        waiting.write_text("#,at,customer,page,seconds\n1,2026-05-04 10:00:00,1,/waits,5\n")
        called("backup", self.kept.folder, to)
        waiting.unlink()
        self.fails("File exists", "backup", self.kept.folder, to)
        again = self.kept.folder / "again"
        called("restore", to, again)
        for each in (to, again):
            self.right(called("read", each, "by_letter") == called("read", self.kept.folder, "by_letter"), f"{each.name} is read otherwise")
        called("night", again, "--commit", "--always", "--program", self.kept.program)
        self.right('/waits' in called("read", again, "visits"), "changes that waited are in no backup")


def ways_mistakes(built):
    """What is wrong with these."""
    with tempfile.TemporaryDirectory() as folder:
        ways = Ways(folder, built)
        tried = (ways.kinds, ways.faults, ways.once, ways.changed, ways.let_go, ways.beside, ways.reported, ways.copied)
        for way in tried:
            try:
                way()
            except Told as told:
                ways.wrong.append(f"{way.__name__}: {told}")
    return [each[:700] for each in ways.wrong], f"{len(tried)} ways of a folder"
