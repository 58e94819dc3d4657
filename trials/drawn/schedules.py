"""Small warehouses with one night to five, drawn, and schedules over them, drawn by going along with the machine."""

import random

from trials.drawn.views import Drawer
from trials.oracle.given import KEPT, Given
from trials.oracle.machine import Machine
from whview.bundle import part
from whview.catalogue.evaluator import NoContents, added
from whview.catalogue.parts import Warehouse
from whview.catalogue.views import Place, View
from whview.strategy.rules import broken

CELLS = [3037000500, 2**62, 2**62, 2**62, 2**63 - 1, -(2**63)]
COUNTS = [1, 2**27, 2**28, 2**28, 2**55, 2**56]
KEYS = [1, 1, 2, 2, 3, 4, 256]
VERSIONS = [None, None, 2, 3, 3, 4]
STAGES = ["at its beginning", "between stages", "in a wave", "among pages", "at its end"]
LIMITS = [0, 1, 1, 2, 2, 3, 5, 256, 257, 1000000]


class Small(Drawer):
    """Draws few rows of each base view; some of them have great numbers or stand very often, or one view has very many."""

    def __init__(self, source):
        super().__init__(source)
        self.kind = source.choices(["plain", "cells", "counts", "many"], [70, 14, 13, 3])[0]

    def draw_views(self):
        for _ in range(1 if self.kind == "many" else self.source.choice([1, 1, 2, 2, 3])):
            self.base(self.source.randint(1, 2))
        if self.kind == "cells" and self.source.random() < 0.5:
            self.add(View(f"v{len(self.views)}", [("n", "int"), ("sum", "int")], [0], group=[], sums=[Place(0)]))
        for _ in range(1 if self.kind == "many" else self.source.choice([0, 1, 1, 2, 2, 3, 4])):
            most = 1 if self.kind == "many" else self.source.choice([1, 1, 2, 2, 3])
            over = self.source.sample(range(len(self.views)), min(most, len(self.views)))
            self.source.choice([self.joined, self.summary])(over)

    def row(self, view):
        if self.kind == "many":
            return (self.source.randrange(2000), *super().row(view)[1:])
        great = self.kind == "cells" and self.source.random() < self.greatness
        return tuple(self.source.choice(CELLS) if great and isinstance(cell, int) else cell for cell in super().row(view))

    def count(self):
        if self.kind == "counts" and self.source.random() < self.greatness:
            return self.source.choice(COUNTS)
        return self.source.choice([1, 1, 1, 2])

    def records(self, view):
        """Before the nights what is great is rare, so that most views have contents."""
        self.greatness = 0.15
        most = 600 if self.kind == "many" else 6
        return [(self.row(view), self.count()) for _ in range(self.source.randint(most // 2, most))]

    def changes(self, view, table, wild):
        """Rows that leave and rows that come, some that do both, and in a wild night more than there are or can be."""
        if wild and self.source.random() < 0.7:
            there = self.source.sample(list(table), min(1, len(table)))
            return [(row, 2**63 - 1) for row in there] + [(self.row(view), -3)] * self.source.randint(0, 1)
        if self.source.random() < 0.25:
            return []
        self.greatness = 0.4
        most = 500 if self.kind == "many" else 3
        there = self.source.sample(list(table.items()), min(len(table), self.source.randint(0, most)))
        found = [(row, -self.source.choice([1, count])) for row, count in there]
        found += [(self.row(view), self.count()) for _ in range(self.source.randint(0, most))]
        if self.source.random() < 0.2:
            found += [(row, -count) for row, count in found[:1]]
        self.source.shuffle(found)
        return found


def stage_of(night):
    if night.stage is None:
        return "at its end"
    if night.drawn:
        return "in a wave"
    if isinstance(night.stage, int) and len(night.left) < len(night.changes[night.stage]):
        return "among pages"
    return "between stages" if night.place else "at its beginning"


class Drawn:
    """A bundle that was drawn: its bytes, what a reader of its own makes of them, and what its nights are to come to."""

    def __init__(self, seed):
        self.source = random.Random(seed)
        drawer = Small(self.source)
        drawer.draw_views()
        self.warehouse = Warehouse(drawer.views)
        told = self.source.choice(VERSIONS)
        self.more = (told or KEPT) - KEPT
        nights = self.source.choice([1, 2, 2, 3]) + self.more
        self.fates = [self.source.choice([None, None, None, 0, 1, 2, 3, 5, 8]) for _ in range(nights)]
        self.once, self.nights = self.drawn_parts(drawer)
        self.desks, self.workers = (self.source.choice([1, 2, 2, 3, 3, 16]) for _ in range(2))
        self.keys = self.source.choice([*KEYS, self.source.randint(1, 256)])
        head = f"desks {self.desks}\nworkers {self.workers}\nkeys {self.keys}\n" + (f"versions {told}\n" if told else "")
        self.given, self.given_up = Given(self.bundle(head).decode()), []
        self.given.events = self.events()
        self.bytes = self.bundle(head + "".join(map(self.line, self.given.events)))

    # ---- the bundle

    def drawn_parts(self, drawer):
        """The parts that stand once, and those of each night, whose changes fit where the nights before end as they are to: a wild one
        is refused and changes nothing."""
        views, nights = drawer.views, []
        records = [[] if view.over else drawer.records(view) for view in views]
        once = [self.warehouse.catalogue(), self.warehouse.tables("data", records)]
        tables = [added(each) for each in records]
        for fate in self.fates:
            wild = self.source.random() < 0.06
            changes = [[] if view.over else drawer.changes(view, tables[v], wild) for v, view in enumerate(views)]
            nights.append([self.warehouse.tables("changes", changes), self.warehouse.listed(self.strategy())])
            after = [added([*table.items(), *each]) for table, each in zip(tables, changes)]
            if fate is None and all(0 <= count < 2**63 for table in after for count in table.values()):
                tables = after
        return once, nights

    def strategy(self):
        """One that is correct, or, now and then, that may be so no more."""
        found = self.warehouse.walked(self.source)
        while not found:
            found = self.warehouse.walked(self.source)
        if self.source.random() < 0.02:
            one, other = self.source.randrange(len(found)), self.source.randrange(len(found))
            found[one], found[other] = found[other], found[one]
        return found

    def bundle(self, schedule):
        """The parts in an order that gives the same."""
        source = random.Random(len(self.once[0]))
        parts = [piece for night in self.nights for piece in (b"@night\n", *source.sample(night, len(night)))][1:]
        for piece in [*self.once, part("schedule", schedule.encode())]:
            parts.insert(0 if source.random() < 0.8 else source.randint(0, len(parts)), piece)
        return b"".join(parts)

    def line(self, event):
        """An event as a line; some have other blanks, leading zeros, a line end of two bytes, or blank lines above them."""
        if self.source.random() < 0.9:
            return " ".join(map(str, event)) + "\n"
        blank = lambda least: "".join(self.source.choice(" \t") for _ in range(self.source.randint(least, 2)))
        words = ["0" * self.source.randint(0, 2) + str(word) if isinstance(word, int) else word for word in event]
        above = self.source.choice(["", "\n", " \t\n"])
        return above + blank(0) + blank(1).join(words) + blank(0) + self.source.choice(["\n", "\n", "\r\n"])

    # ---- the events

    def events(self):
        """Some events where there is no machine, else some that go on with the nights, some of desks, and some of any kind."""
        if any(broken(self.given.views, strategy) for _, strategy in self.given.nights):
            return [self.any_event() for _ in range(3)]
        try:
            machine = Machine(self.given)
        except NoContents:
            return [self.any_event() for _ in range(3)]
        found, vain = [], 0
        self.gone = 0
        while len(found) < 70 + 30 * self.more and vain < 6:
            draw = self.source.choices([self.onward, self.at_desk, self.any_event], [11, 4, 4])[0]
            found.append(draw(machine))
            if found[-1] == ("giveup",) and machine.night:
                self.given_up.append(stage_of(machine.night))
            told = machine.reply(*found[-1])
            vain += told == "refused NoNight" or found[-1] == ("begin",) and not machine.night
        return found

    def onward(self, machine):
        """What goes on with the nights, or gives one up where that is its fate."""
        night = machine.night
        if not night:
            self.gone = 0
            return ("begin",)
        self.gone += 1
        fate = self.fates[machine.begun - 1]
        if fate is not None and self.gone > fate or self.gone > 40:
            return ("giveup",)
        if night.stage is None:
            return ("commit",)
        if not night.wave:
            return ("page",)
        busy = [("done", worker) for worker, job in enumerate(machine.jobs) if job is not None]
        free = [("take", worker) for worker, job in enumerate(machine.jobs) if job is None]
        return self.source.choice(free if free and night.drawn < len(night.wave) and self.source.random() < 0.6 else busy or free)

    def at_desk(self, machine):
        """What a desk does next: it opens a session, or reads or closes the one that it has."""
        desk = self.source.randrange(self.desks)
        if not machine.sessions[desk]:
            return ("open", desk)
        if self.source.random() < 0.15:
            return ("close", desk)
        session = machine.sessions[desk]
        seen = machine.views[session.view].name if session.view is not None else None
        name = seen if seen and self.source.random() < 0.6 else self.source.choice(machine.views).name
        return ("read", desk, name, self.source.choice(LIMITS[1:-2]))

    def any_event(self, _=None):
        """An event of any kind, with numbers that there may not be."""
        desk, worker = (self.source.choice([*range(count)] * 4 + [count, 1000000]) for count in (self.desks, self.workers))
        name = self.source.choice([*(view.name for view in self.warehouse.views), "zz", "0"])
        kinds = ["begin", "take", "take", "done", "done", "page", "commit", "open", "read", "read", "read", "close"]
        kind = self.source.choice(kinds if self.source.random() < 0.97 else ["giveup"])
        match kind:
            case "take" | "done":
                return (kind, worker)
            case "open" | "close":
                return (kind, desk)
            case "read":
                return (kind, desk, name, self.source.choice(LIMITS))
        return (kind,)
