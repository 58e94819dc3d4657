"""What `whview live` answers to lines, by docs/FORMATS.md alone: a machine over its events, to which a night is a Begin and then what one
worker does, and a dictionary of texts that grows."""

import re

from trials.oracle.given import Opening
from trials.oracle.later_nights import Fault, night_in, row_named
from trials.oracle.machine import Machine
from whview.catalogue.parts import line as record
from whview.strategy.rules import broken

MOST_NUMBER = 10**6
ROWS = re.compile(r"\[([^]]*)\]")
# Five words, each behind blanks, the one blank that ends them, and what stands behind it.
BEHIND = re.compile(rb"(?:[ \t]*[^ \t]+){5}[ \t]?(.*)", re.DOTALL)


def is_number(word):
    return word.isascii() and word.isdecimal() and int(word) <= MOST_NUMBER


def event_in(words):
    """The event that these words ask for, or None."""
    match words:
        case ["commit" | "giveup"]:
            return tuple(words)
        case ["open" | "close", desk] if is_number(desk):
            return words[0], int(desk)
        case ["read", desk, view, limit] if is_number(desk) and is_number(limit):
            return "read", int(desk), view, int(limit)
    return None


class Dialogue:
    """An opened warehouse, and the lines of a night whose end has not come, if one has begun. It ends at `quit`."""

    def __init__(self, text, how, kind=Machine):
        self.opening = Opening(text, **how)
        self.machine, self.parts, self.line, self.has_ended = kind(self.opening), None, b"", False

    def answer(self, given):
        """What is printed for these lines, of which the last has its line feed."""
        return "".join(self.take(line) for line in given.split(b"\n")[:-1])

    def take(self, line):
        """What is printed for a line."""
        if self.has_ended:
            return ""
        if self.parts is None:
            self.line = line
            return self.told([word.decode(errors="replace") for word in re.split(b"[ \t]", line) if word])
        if line != b"@end":
            self.parts.append(line)
            return ""
        parts, self.parts = self.parts, None
        return self.night(b"".join(part + b"\n" for part in parts).decode())

    def told(self, words):
        match words:
            case []:
                return ""
            case ["night"]:
                self.parts = []
                return ""
            case ["quit"]:
                self.has_ended = True
                return ""
            case ["tables"]:
                return self.tables(*self.machine.tables())
            case ["changes"]:
                return self.changes(self.machine.written())
            case ["page", desk, view, limit] if is_number(desk) and is_number(limit):
                return self.behind(int(desk), view, int(limit), None)
            case ["page", desk, view, limit, "after", *_] if is_number(desk) and is_number(limit):
                return self.behind(int(desk), view, int(limit), BEHIND.fullmatch(self.line)[1])
        event = event_in(words)
        return self.replied(*event) if event else "unknown\n"

    def replied(self, name, *words):
        told = self.machine.reply(name, *words)
        return self.page(words[1], told) if told.startswith("page") else f"{told}\n"

    # ---- nights

    def night(self, text):
        """A night up to before its commit. One that does not begin leaves no text behind."""
        before = len(self.opening.numbers)
        told = self.begun(text)
        if told != "begun":
            self.forget(before)
            return f"{told}\n"
        return "".join(f"{each}\n" for each in ["begun", *self.carried_on()])

    def begun(self, text):
        try:
            night = self.read(text)
        except Fault as fault:
            return f"fault {fault}"
        return broken(self.opening.views, night[1]) or self.begin(night)

    def read(self, text):
        return night_in(text, self.opening)

    def begin(self, night):
        """Begins a night behind the others, and forgets it where it does not begin."""
        self.machine.nights.append(night)
        told = self.machine.reply("begin")
        if told != "begun":
            self.machine.nights.pop()
        return told

    def forget(self, before):
        """Takes all texts back but so many."""
        for text in list(self.opening.numbers)[before:]:
            del self.opening.numbers[text]

    def carried_on(self):
        """The replies to the steps of a night, up to where nothing more is in turn, or to the first refusal."""
        while (told := self.step()) is not None:
            yield told
            if told.startswith("refused"):
                return
        yield "ready"

    def step(self):
        """The reply to what the first worker does next, or to the next page; None where nothing is in turn."""
        told = self.machine.reply("take", 0)
        if told == "refused Busy":
            return self.machine.reply("done", 0)
        if told != "refused NoJob":
            return told
        told = self.machine.reply("page")
        return None if told == "refused NotReady" else told

    # ---- pages

    def behind(self, desk, name, limit, cells):
        """A page behind the row of these cells, or from the beginning of the view."""
        before = len(self.opening.numbers)
        try:
            row = self.row(name, cells)
        except Fault as fault:
            return f"fault {fault}\n"
        finally:
            self.forget(before)
        told = self.machine.reply("behind", desk, name, limit, row)
        return self.page(name, told) if told.startswith("page") else f"{told}\n"

    def row(self, name, cells):
        """The row of these cells, where there are some, and the view is one."""
        if cells is None or name not in self.opening.names:
            return None
        return row_named(cells, self.opening.views[self.opening.names[name]], self.opening.number)

    def tables(self, sizes, versions):
        said = [f"{view.name},{size}" for view, size in zip(self.opening.views, sizes)]
        return "\n".join(["view,rows", *said, " ".join(["versions", *map(str, versions)])]) + "\n"

    def changes(self, written):
        """The change of each derived view under its name, as a table."""
        derived = [(view, change) for view, change in zip(self.opening.views, written) if view.over]
        return "".join(f"changes {view.name}\n{self.table(view, [(change[row], *row) for row in sorted(change)])}" for view, change in derived) + "end\n"

    def page(self, name, told):
        """A page as a table, whose cells are texts where the machine has their numbers."""
        view = self.opening.views[self.opening.names[name]]
        rows = [list(map(int, row.split())) for row in ROWS.findall(told)]
        return self.table(view, rows) + told.rpartition(" ")[2] + "\n"

    def table(self, view, rows):
        """Rows, each behind its count, under the header of their view."""
        said = [["#", *(column for column, _ in view.columns)], *([row[0], *self.shown(view, row[1:])] for row in rows)]
        return "".join(map(record, said))

    def shown(self, view, cells):
        texts = list(self.opening.numbers)
        return [texts[cell] if kind == "text" else cell for cell, (_, kind) in zip(cells, view.columns)]
