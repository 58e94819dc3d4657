"""Openings of small warehouses, and streams of commands over them, drawn by going along with what they are answered."""

import random

from trials.drawn.schedules import KEYS, LIMITS, Small
from trials.drawn.views import WORDS, chance
from trials.oracle.dialogue import Dialogue
from whview.catalogue.evaluator import NoContents
from whview.catalogue.parts import Warehouse
from whview.catalogue.parts import line as record
from whview.catalogue.views import View

MORE_WORDS = ["ash\n@end\nquit", "night", "@strategy"]
MOST_COMMANDS = 55
# Events that a schedule alone has, words too few or too many, numbers that are none, and lines that are nothing at all.
UNKNOWN = [b"begin", b"take 0", b"done 0", b"page", b"commit 1", b"giveup 0", b"close 0 0", b"read 0 b0 1 1", b"night 1", b"quit now"]
UNKNOWN += [b"open", b"close", b"read 0 b0", b"read b0 0 1", b"read 0 b0 x", b"open x", b"open -1", b"open +1", b"open 1000001"]
UNKNOWN += [b"tables now", b"changes now", b"night changes", b"page 0 b0", b"page 0 b0 1 b0", b"page 0 b0 1 before 1", b"page b0 0 1", b"page 0 b0 x after 1", b"page 0 b0 1 after1"]
UNKNOWN += [b"Commit", b"nights", b"@end", b"@night", b"@strategy", b"# quit", b"commit\r", b"quit\r", b"\r", b"\xff\xfe", b"\x00", b"B\xc3\xa4ume"]
UNKNOWN += [b"x" * 70000]
BLANK = [b"", b" ", b"\t \t"]
# Parts that a night may not have, and lines that a part may not have; some may be there after all.
STRANGE = [b"@zz oak\n", b"@\n", b"@Strategy\n", b"@night\n", b"@data b0\nc0\n", b"@data\n", b"@catalogue\n[[", b"@sizes\n", b"@plan\n"]
STRANGE += [b"@schedule\n", b"@changes zz\n#\n", b"@changes v1\n#\n", b"@changes b0\n#,c0\n", b"@changes\n"]
LINES = [b"oak\n", b"1\n", b"0,1,1\n", b"-1,1\n", b"1.5,1\n", b"1,1,oak\n", b"1,1,oak,1\n", b"9223372036854775808,1\n", b"\n"]
LINES += [b"comp v1 from\n", b"comp zz from b0\n", b"inst\n", b"inst b0\n", b"inst b0 v1\n"]
COUNTED = [b"0", b"+0", b"x", b"", b"1.0", b"+1", b"9223372036854775807", b"-9223372036854775809"]
# What is given as the cells of a row: too few or too many, numbers that are none, other bytes, and more than one record.
CELLS = [b"", b"oak", b"1", b"1,oak", b"oak,1", b"1,1", b"1,1,1,1,1", b",", b"x,x", b"\xff", b'"oak"', b'"oak', b"oak\r", b"oak\r1,oak", b"1\r1,2", b"1\r0,2"]
# How large the machine is.
HOW = {"desks": [1, 2, 2, 3, 3, 16], "keys": [*KEYS, 256], "kept": [2, 2, 3, 4]}
# What is still to come behind the last command, and how the input ends there.
ENDS = {"quit": b"quit\nopen 0\nnight\n@end\n", "end": b"", "amid": b"night\n@strategy\ninst b0", "begun": b"night\n", "unended": b""}


class Growing(Small):
    """Draws rows of few texts, of which nights bring more."""

    def __init__(self, source):
        super().__init__(source)
        self.words = source.sample([*WORDS, *MORE_WORDS], 3)

    def base(self, width):
        """Two columns at most, texts among the first, where no number has to be there."""
        if self.kind in ("cells", "many"):
            return super().base(width)
        kinds = self.source.choice([["int"], ["text"], ["text"], ["int", "text"], ["text", "int"], ["text", "text"]])
        return self.add(View(f"b{len(self.views)}", [(f"c{place}", kind) for place, kind in enumerate(kinds)]))

    def grow(self):
        """Some texts more, and perhaps one less, so that one that a refused night brought comes later or never."""
        for _ in range(self.source.randint(0, 2)):
            self.words += [self.source.choice([f"tree {len(self.words)}", *WORDS, *MORE_WORDS])] * 2
        if len(self.words) > 2 and chance(self.source, 0.4):
            self.words.pop(self.source.randrange(len(self.words)))


class Talk:
    """An opening and how it is opened, the commands with what each is answered, and how the input ends."""

    def __init__(self, seed):
        self.source = random.Random(seed)
        self.drawer = Growing(self.source)
        self.drawer.draw_views()
        self.warehouse = Warehouse(self.drawer.views)
        self.how = {name: self.source.choice(numbers) for name, numbers in HOW.items()}
        self.opening = self.drawn_opening()
        self.end = self.source.choice(list(ENDS))
        self.commands, self.answers, self.refused = [], [], ""
        # How many nights had begun when the last one was sent, and its changes.
        self.sent = None, []
        try:
            self.dialogue = Dialogue(self.opening.decode(), self.how)
        except NoContents as refused:
            self.refused = f"refused {refused}\n"
        else:
            self.go_along()
        self.behind = ENDS[self.end]

    @property
    def words(self):
        """The options of the command line, in an order that gives the same; one that says what stands without it may be left out."""
        options = [("--desks", self.how["desks"], 16), ("--page-keys", self.how["keys"], 256), ("--versions", self.how["kept"], 2)]
        source = random.Random(len(self.opening))
        told = [[name, str(number)] for name, number, usual in source.sample(options, 3) if number != usual or chance(source, 0.5)]
        return [word for option in told for word in option]

    @property
    def bytes(self):
        """The whole input. Where its last line is not ended the last command is answered at its end."""
        given = b"".join(self.commands) + self.behind
        return given.removesuffix(b"\n") if self.end == "unended" else given

    @property
    def answer(self):
        """All that is printed, and the status."""
        return (self.refused, 1) if self.refused else ("".join(self.answers), 0)

    # ---- the opening

    def drawn_opening(self):
        records = [[] if view.over else self.drawer.records(view) for view in self.drawer.views]
        parts = [self.warehouse.catalogue(), *self.tables("data", records)]
        self.has_own = chance(self.source, 0.6)
        if self.has_own:
            parts.append(self.warehouse.listed(self.strategy()))
        self.source.shuffle(parts)
        return self.source.choice([b"", b"", b"\n", b" \t\n\r\n"]) + b"".join(parts)

    def tables(self, kind, records):
        """The parts of the base views that have records, each by itself."""
        alone = lambda v: [each if u == v else [] for u, each in enumerate(records)]
        return [part for v in range(len(records)) if (part := self.warehouse.tables(kind, alone(v)))]

    def strategy(self):
        """One that is correct, or, now and then, that may be so no more."""
        found = self.warehouse.walked(self.source)
        while not found:
            found = self.warehouse.walked(self.source)
        if chance(self.source, 0.1):
            one, other = self.source.randrange(len(found)), self.source.randrange(len(found))
            found[one], found[other] = found[other], found[one]
        return found

    # ---- the commands

    def go_along(self):
        for _ in range(self.source.randint(4, MOST_COMMANDS)):
            self.commands.append(self.command())
            self.answers.append(self.dialogue.answer(self.commands[-1]))

    def command(self):
        """What goes on with the nights, what a desk does, or something else."""
        night = self.dialogue.machine.night
        onward = self.night if not night else self.ended if night.stage is None else self.given_back
        return self.source.choices([onward, self.at_desk, self.any_command], [6, 11, 3])[0]()

    def ended(self):
        """The end of a night that can be committed."""
        return self.line(self.source.choice(["commit", "commit", "giveup", "changes"]))

    def given_back(self):
        """What comes behind a refusal amid a night, which leaves it open."""
        return self.line(self.source.choice(["giveup", "giveup", "commit", "changes"]))

    def any_command(self):
        kind = self.source.randrange(10)
        if kind < 3:
            return self.source.choice(UNKNOWN) + b"\n"
        if kind == 3:
            return self.source.choice(BLANK) + b"\n"
        if kind < 6:
            return self.night()
        if kind < 8:
            return self.line(self.source.choice(["commit", "giveup"]))
        desk = self.source.choice([*range(self.how["desks"]), self.how["desks"], 1000000])
        name = self.source.choice([*(view.name for view in self.drawer.views), "zz", "0"])
        if kind == 8:
            return self.source.choice([self.line("tables"), self.line("changes"), self.page(desk, name, self.source.choice(LIMITS))])
        return self.line(*self.source.choice([("open", desk), ("close", desk), ("read", desk, name, self.source.choice(LIMITS))]))

    def at_desk(self):
        """What a desk does next: it opens a session, or reads or closes the one that it has."""
        machine, desk = self.dialogue.machine, self.source.randrange(min(self.how["desks"], 3))
        session = machine.sessions[desk]
        if not session:
            return self.line("open", desk)
        if self.source.random() < (0.07 if machine.unexpired(session.version) else 0.4):
            return self.line("close", desk)
        if self.source.random() < 0.06:
            return self.line("read", desk, self.source.choice(["zz", machine.views[-1].name]), self.source.choice(LIMITS))
        seen = machine.views[session.view].name if session.view is not None else None
        name = seen if seen and self.source.random() < 0.6 else self.source.choice(machine.views).name
        if chance(self.source, 0.3):
            return self.page(desk, name, self.source.choice(LIMITS[1:-2]))
        return self.line("read", desk, name, self.source.choice(LIMITS[1:-2]))

    def page(self, desk, name, limit):
        """A page from the beginning of a view or behind a row: one of a version's, perhaps with another cell, or one with a fault."""
        view = next((view for view in self.drawer.views if view.name == name), self.drawer.views[0])
        if chance(self.source, 0.2):
            return self.line("page", desk, name, limit)
        cells = self.source.choice(CELLS) if chance(self.source, 0.15) else self.cells(view)
        blank = self.source.choice([b" ", b" ", b" ", b"  ", b"\t"])
        return blank.join([b"page", *(str(word).encode() for word in (desk, name, limit)), b"after "]) + cells + b"\n"

    def cells(self, view):
        """The cells of a row, as a record writes them; a text that ends the line is left out."""
        machine, texts = self.dialogue.machine, list(self.dialogue.opening.numbers)
        rows = sorted(self.source.choice(machine.versions[-2:])[machine.names[view.name]])
        row = list(self.source.choice(rows)) if rows else [0] * len(view.columns)
        if row and chance(self.source, 0.3):
            place = self.source.randrange(len(row))
            row[place] = max(0, row[place] + self.source.choice([-1, 1, 10**6]))
        shown = [(texts[cell : cell + 1] or ["yew"])[0] if kind == "text" else cell for cell, (_, kind) in zip(row, view.columns)]
        return record([cell.replace("\n", " ") if isinstance(cell, str) else cell for cell in shown]).removesuffix("\n").encode()

    def line(self, *event):
        """An event as a line; some have other blanks or leading zeros."""
        if self.source.random() < 0.9:
            return " ".join(map(str, event)).encode() + b"\n"
        blank = lambda least: "".join(self.source.choice(" \t") for _ in range(self.source.randint(least, 2)))
        words = ["0" * self.source.randint(0, 2) + str(word) if isinstance(word, int) else word for word in event]
        return f"{blank(0)}{blank(1).join(words)}{blank(0)}\n".encode()

    # ---- nights

    def night(self):
        """A night with changes that fit, or perhaps not; some have a fault."""
        self.drawer.grow()
        parts = self.tables("changes", self.changes())
        if chance(self.source, 0.4 if self.has_own else 0.97):
            parts.append(self.warehouse.listed(self.strategy()))
        self.source.shuffle(parts)
        for _ in range(self.source.choices([0, 1, 2], [15, 4, 1])[0]):
            parts = self.with_fault(parts)
        return self.line("night") + b"".join(parts) + b"@end\n"

    def changes(self):
        """The changes of each view. Where the night before did not begin, perhaps its own in another order."""
        nights, wild = len(self.dialogue.machine.nights), self.source.random() < 0.08
        if self.sent[0] == nights and chance(self.source, 0.5):
            found = [self.source.sample(each, len(each)) for each in self.sent[1]]
        else:
            found = [[] if view.over else self.drawer.changes(view, self.table(v), wild) for v, view in enumerate(self.drawer.views)]
        self.sent = nights, found
        return found

    def table(self, v):
        """The rows of a base view that stand now, with texts as texts."""
        view, texts = self.drawer.views[v], list(self.dialogue.opening.numbers)
        shown = lambda row: tuple(texts[cell] if kind == "text" else cell for cell, (_, kind) in zip(row, view.columns))
        return {shown(row): count for row, count in self.dialogue.machine.versions[-1][v].items()}

    def with_fault(self, parts):
        """The parts with something that most often is a fault: a strange part, one that stands twice, a line or a header."""
        match self.source.randrange(5):
            case 0:
                return [self.source.choice([b"oak\n", b" x\n@strategy\n"]), *parts]
            case 1:
                place = self.source.randint(0, len(parts))
                return [*parts[:place], self.source.choice(STRANGE), *parts[place:]]
            case 2 if parts:
                return [*parts, self.source.choice(parts)]
            case 3:
                return [part.replace(b"\n#,", self.source.choice([b"\n", b"\n#,c9,"]), 1) for part in parts]
        place = self.source.randrange(len(parts)) if parts else 0
        return [part + self.strange_line(part) if here == place else part for here, part in enumerate(parts)]

    def strange_line(self, part):
        """A line that most often is a fault: the last record of changes with another count, or any."""
        _, comma, cells = part.splitlines(keepends=True)[-1].partition(b",")
        if comma and b'"' not in part and chance(self.source, 0.6):
            return self.source.choice(COUNTED) + comma + cells
        return self.source.choice(LINES)


# ---- by hand

WORKED = """\
@catalogue
[[view]]
name = "a"
columns = ["x:text"]
[[view]]
name = "v"
over = ["a"]
group = [["x", "a.x"]]
count = "n"
@data a
x
oak
@strategy
comp v from a
inst a
inst v
"""
# The texts of the night that is refused are forgotten, so the next one's get their numbers: fir stands before elm.
DIALOGUE = [
    ("open 0\n", "session 0\n"),
    ("night\n@changes a\n#,x\n1,elm\n1,fir\n-1,yew\n@end\n", "refused Absent\n"),
    ("night\n@changes a\n#,x\n1,fir\n1,elm\n@end\n", "begun\njob 0\ndone\npaged 2\npaged 2\nready\n"),
    ("read 0 a 9\n", "#,x\n1,oak\nend\n"),
    ("changes\n", "changes v\n#,x,n\n1,fir,1\n1,elm,1\nend\n"),
    ("night\n@changes a\n#,x\n1,ash\n@end\n", "refused NightOpen\n"),
    ("commit\n", "version 1\n"),
    ("changes\n", "changes v\n#,x,n\nend\n"),
    (" \t\n", ""),
    ("open 1\n", "session 1\n"),
    ("read 1 v 2\n", "#,x,n\n1,oak,1\n1,fir,1\nmore\n"),
    ("read 1 v 2\n", "#,x,n\n1,elm,1\nend\n"),
    ("page 1 v 1 after oak,1\n", "#,x,n\n1,fir,1\nmore\n"),
    ("page 1 v 2 after oak,2\n", "#,x,n\n1,fir,1\n1,elm,1\nend\n"),
    ("page 1 v 1\n", "#,x,n\n1,oak,1\nmore\n"),
    ("page 0 v 9 after elm,1\n", "#,x,n\nend\n"),
    ("page 1 v 9 after yew,1\n", "#,x,n\nend\n"),
    ("page 1 v 9 after oak\n", "fault csv 2\n"),
    ("page 1 v 9 after oak,one\n", "fault number 2\n"),
    ("page 1 w 9 after oak\n", "refused NoView\n"),
    ("tables\n", "view,rows\na,3\nv,3\nversions 0 1\n"),
    ("begin\n", "unknown\n"),
    ("night\n@data a\nx\n@end\n", "fault part data\n"),
    ("night\n@strategy\ninst a\ninst v\n@end\n", "broken S1 at 3\n"),
    ("commit\r\n", "unknown\n"),
    ("night\n@end\n", "begun\njob 0\ndone\nready\n"),
    ("read 0 v 1\n", "expired 0 current 1 active\n"),
    ("page 0 v 1 after oak,1\n", "expired 0 current 1 active\n"),
    ("tables\n", "view,rows\na,3\nv,3\nversions 1\n"),
    ("giveup\n", "version 2\n"),
    ("close 0\n", "closed\n"),
    ("read 0 v 1\n", "refused NoSession\n"),
    ("open 2\n", "refused NoDesk\n"),
]


class Worked(Talk):
    """A stream whose answers were worked out by hand."""

    def __init__(self):
        self.opening, self.how, self.end, self.refused = WORKED.encode(), {"desks": 2, "keys": 256, "kept": 2}, "quit", ""
        self.commands, self.answers = [command.encode() for command, _ in DIALOGUE], [answer for _, answer in DIALOGUE]
        self.behind = ENDS[self.end]
