"""A small stand-in for `whview live`: it keeps base tables, whose views are without definitions, and answers nights, sessions and pages.

`stays` writes a script that runs it. What the script is told in a file beside it goes wrong once, at the next command of that kind: `die`,
`stick`, or a text that is answered instead.
"""

import csv
import io
import re
import sys
import time
import tomllib
from collections import Counter
from pathlib import Path

from whview.bundle import parts_of

ROOT = Path(__file__).resolve().parents[2]
SCRIPT = """#!{python} -B
import sys
sys.path[:0] = [{root!r}, {root!r} + "/python"]
from tests.folder.stand_in import main
main({path!r}, sys.argv)
"""


def stays(path: Path) -> Path:
    """A program that stays, as a script at this path."""
    path.write_text(SCRIPT.format(python=sys.executable, root=str(ROOT), path=str(path)))
    path.chmod(0o755)
    return path


def spoil(path: Path, command: str, how: str) -> None:
    """Has the next such command of the script go wrong in this way."""
    part = path.with_name(f"{path.name}.part")
    part.write_text(f"{command} {how}")
    part.rename(path.with_name(f"{path.name}.spoilt"))


def record(cells) -> str:
    """A record as the program prints it."""
    written = io.StringIO()
    csv.writer(written, lineterminator="\n").writerow(cells)
    return written.getvalue()


class View:
    """A base view: its columns with their kinds, and its rows in each version."""

    def __init__(self, name, columns):
        parted = [column.partition(":") for column in columns]
        self.name, self.columns = name, [(column, kind or "int") for column, _, kind in parted]
        self.versions = [Counter()]

    def row(self, cells, number):
        """A row, with the numbers of its texts."""
        return tuple(int(cell) if kind == "int" else number(cell) for cell, (_, kind) in zip(cells, self.columns, strict=True))

    def bag(self, lines, number):
        """The rows of a part, with how often each stands in it."""
        header, *records = filter(None, csv.reader(io.StringIO("\n".join(lines), newline="")))
        found, is_counted = Counter(), header[0] == "#"
        assert header[is_counted:] == [name for name, _ in self.columns]
        for cells in records:
            found[self.row(cells[is_counted:], number)] += int(cells[0]) if is_counted else 1
        return found


class Live:
    """The program over an opening. Of each view there are as many versions as are kept."""

    def __init__(self, text, kept):
        once, nights = parts_of(text)
        self.kept, self.number, self.desks, self.texts = kept, 0, {}, {}
        self.views = {each["name"]: View(each["name"], each["columns"]) for each in tomllib.loads("\n".join(once["catalogue"]))["view"]}
        assert nights[0]["strategy"] == [f"inst {name}" for name in self.views]
        for name, view in self.views.items():
            view.versions = [view.bag(once[f"data {name}"], self.text)]

    def text(self, text):
        """The number of a text."""
        return self.texts.setdefault(text, len(self.texts))

    def answer(self, line, lines):
        """What is answered to a command; the lines behind it are taken where it is a night."""
        match line.split(" ", 4):
            case ["open", desk]:
                self.desks[desk] = self.number
                return f"session {self.number}\n"
            case ["close", desk]:
                del self.desks[desk]
                return "closed\n"
            case ["commit"]:
                return f"version {self.commit()}\n"
            case ["tables"]:
                return self.tables()
            case ["page", desk, name, limit, after]:
                return self.page(desk, self.views[name], int(limit), after.removeprefix("after "))
            case ["night"]:
                return self.night(iter(lines.__next__, "@end\n"))
        return "unknown\n"

    def tables(self):
        rows = "".join(f"{name},{view.versions[-1].total()}\n" for name, view in self.views.items())
        return f"view,rows\n{rows}versions {' '.join(map(str, range(max(0, self.number + 1 - self.kept), self.number + 1)))}\n"

    def night(self, lines):
        """Carries a night out up to its commit."""
        once, nights = parts_of("".join(lines))
        self.coming = {name: Counter(view.versions[-1]) for name, view in self.views.items()}
        for heading, part in nights[0].items():
            name = heading.removeprefix("changes ")
            self.coming[name].update(self.views[name].bag(part, self.text))
            if min(self.coming[name].values(), default=0) < 0:
                return f"refused Absent {name}\n"
        return "begun\ndone\npaged 1\nready\n"

    def commit(self):
        self.number += 1
        for name, view in self.views.items():
            view.versions = [*view.versions, +self.coming[name]][-self.kept :]
        return self.number

    def page(self, desk, view, limit, after):
        """The rows behind one that is named."""
        version = self.desks[desk]
        if version <= self.number - self.kept:
            return f"expired {version} current {self.number} idle\n"
        (cells,) = csv.reader([after])
        rows, told = view.versions[version - self.number - 1], list(self.texts)
        bound = view.row(cells, lambda text: self.texts.get(text, len(told)))
        found = sorted(row for row in rows if row > bound)
        shown = [[rows[row], *(told[cell] if kind == "text" else cell for cell, (_, kind) in zip(row, view.columns))] for row in found[:limit]]
        header = ["#", *(name for name, _ in view.columns)]
        return "".join(map(record, [header, *shown])) + ("more\n" if found[limit:] else "end\n")


def goes_wrong(path, line):
    """What goes wrong with a command, or an empty text."""
    spoilt = Path(f"{path}.spoilt")
    if not spoilt.is_file():
        return ""
    command, _, how = spoilt.read_text().partition(" ")
    if not re.match(command, line):
        return ""
    spoilt.unlink()
    return how


def main(path, words):
    """Answers commands until there are no more."""
    options = dict(zip(words[2::2], words[3::2]))
    live = Live(Path(options["--input"]).read_bytes().decode(), int(options["--versions"]))
    for line in sys.stdin:
        how = goes_wrong(path, line)
        if how == "die":
            sys.exit(3)
        while how == "stick":
            time.sleep(1)
        print(f"{how}\n" if how else live.answer(line.removesuffix("\n"), sys.stdin), end="", flush=True)
