"""Inputs that are cut, and what is printed for each beginning of one, by the rules of docs/FORMATS.md for what a cut can leave
unfinished: the words, a heading, a part that is missing, and a line or a record that is not whole.

In each input the parts stand in an order in which those before the last ones are whole, and have no fault, once these have begun.
"""

import csv

from trials.drawn import nights
from trials.oracle import machine
from trials.oracle.given import Given
from whview.bundle import parts_of
from whview.catalogue.views import Place, View
from whview.strategy import plans
from whview.strategy.rules import Comp, Inst, broken
from whview.strategy.sizes import BadSizes, sizes_in


class Told(Exception):
    """What is printed in place of a result, and the status."""

    def __init__(self, text, status):
        super().__init__(text)
        self.answer = (text + "\n", status)


class Input:
    """An input of one command, perhaps with options of a number each: which headings it has, and which of them it wants, in the
    order in which one is missed."""

    command, options, headings, wanted = "", (), (), ()

    def __init__(self, what, bundle):
        self.what, self.given = what, f"{' '.join([self.command, *self.options])}\n{bundle}"

    def are_taken(self, words):
        """Whether a beginning of the words is taken: it is whole, and so is its last option. A bare `--` may end it."""
        command, *options = words.split() or [""]
        whole = options[:-1] if options[-1:] == ["--"] else options
        return command == self.command and len(whole) % 2 == 0 and whole == list(self.options[: len(whole)])

    def parts(self, bundle):
        """The parts that stand once, and those of each night."""
        for line in bundle.splitlines():
            heading = line[1:].rstrip(" ")
            if line.startswith("@") and heading not in self.headings:
                raise Told(f"fault part {heading.split(' ')[0] or 'text'}", 3)
        once, each = parts_of(bundle)
        for heading in self.wanted:
            if not all(heading in parts for parts in (each if heading == "strategy" else [once])):
                raise Told(f"fault part {heading}", 3)
        return once, each

    def expected(self, cut):
        """The text and the status for a beginning of the input. What the command line parser prints is not fixed: none with a status 2."""
        words, _, bundle = cut.partition("\n")
        if not self.are_taken(words):
            return "", 2
        try:
            return self.verdict(bundle, *self.parts(bundle))
        except Told as told:
            return told.answer


# ---- lines and records


def strategy_in(lines, names):
    """The expressions of these lines over the views of these names."""
    strategy = []
    for number, line in enumerate(lines, 1):
        match line.split():
            case ["comp", view, "from", source, *more] if {view, source, *more} <= set(names):
                strategy.append((names.index(view), tuple(map(names.index, [source, *more]))))
            case ["inst", view] if view in names:
                strategy.append((names.index(view), None))
            case []:
                pass
            case _:
                raise Told(f"fault strategy {number}", 3)
    return strategy


def number_in(cell, record):
    if not cell.lstrip("-").isdecimal():
        raise Told(f"fault number {record}", 3)
    return int(cell)


def records_in(lines, columns, counted):
    """The records of a part, each a row and its count."""
    if lines is None:
        return []
    records = [cells for cells in csv.reader(lines) if cells]
    header = ["#", *columns] if counted else columns
    if not records or records[0] != header:
        raise Told("fault header", 3)
    found = []
    for record, cells in enumerate(records[1:], 2):
        if len(cells) != len(header):
            raise Told(f"fault csv {record}", 3)
        numbers = [number_in(cell, record) for cell in cells]
        found.append((tuple(numbers[1:]), numbers[0]) if counted else (tuple(numbers), 1))
    return found


# ---- check and plan


class Checked(Input):
    """An input whose sizes stand last, over views of these names; `whole` is what is printed where nothing is missing."""

    command, headings, wanted = "check", ("catalogue", "strategy", "sizes"), ("catalogue", "sizes")

    def __init__(self, what, bundle, names, whole):
        super().__init__(what, bundle)
        self.names, self.whole = names, whole

    def verdict(self, _, once, each):
        try:
            sizes_in(once["sizes"], self.names)
        except BadSizes as fault:
            raise Told(str(fault), 3) from fault
        return self.whole, 0


class Planned(Checked):
    command = "plan"


# ---- certify


class Certified(Input):
    """An input whose plan is right and stands last: its views, their children and sizes, and its pair lines."""

    command, headings, wanted = "certify", ("catalogue", "sizes", "plan"), ("catalogue", "sizes", "plan")

    def __init__(self, what, bundle, names, over, sizes, pairs):
        super().__init__(what, bundle)
        self.names, self.pairs = names, pairs
        self.catalogue = plans.Catalogue(over, sizes, 1, 1)

    def numbers(self, words):
        """The views of these names, or None where a word is no name of a view."""
        return [self.names.index(word) for word in words] if all(word in self.names for word in words) else None

    def expression(self, text):
        """`comp V from U` or `inst V` as an expression, or None."""
        match text.split():
            case ["comp", view, "from", source] if numbers := self.numbers([view, source]):
                return Comp(numbers[0], (numbers[1],))
            case ["inst", view] if numbers := self.numbers([view]):
                return Inst(*numbers)

    def node(self, line):
        match line.split():
            case ["bound"]:
                return plans.Bound()
            case ["branch", lower, higher] if numbers := self.numbers([lower, higher]):
                return plans.Branch(*numbers)
            case ["cycle", *_]:
                found = [self.expression(text) for text in line.removeprefix("cycle").split(";")]
                return plans.Cycle(tuple(found)) if all(found) else None

    def pair(self, line):
        match line.split():
            case ["pair", *names, least] if len(names) == 3 and self.numbers(names) and least.isdecimal():
                return (*self.numbers(names), int(least))

    def plan(self, lines):
        """The scope, the work, the list and the lines of the certificate."""
        scopes = {"scope all": self.pair, "scope one-way": self.node}
        if not lines or lines[0] not in scopes:
            raise Told("fault plan 1", 3)
        words = lines[1].split() if len(lines) > 1 else []
        if len(words) != 2 or words[0] != "work" or not words[1].isdecimal():
            raise Told("fault plan 2", 3)
        listed, certificate = [], []
        for number, line in enumerate(lines[2:], 3):
            expression = None if certificate else self.expression(line)
            proof = scopes[lines[0]](line)
            if not expression and not proof:
                raise Told(f"fault plan {number}", 3)
            (listed if expression else certificate).append(expression or proof)
        if lines[0] == "scope one-way" and plans.tree_end(certificate) is not None:
            raise Told(f"fault plan {len(lines) + 1}", 3)
        return lines[0].removeprefix("scope "), int(words[1]), listed, certificate

    def verdict(self, _, once, each):
        """What is told of a plan whose list is a beginning of a correct one."""
        scope, work, listed, certificate = self.plan(once["plan"])
        for rule, kind in ((1, Comp), (2, Inst)):
            if any(node not in listed for node in self.catalogue.nodes if isinstance(node, kind)):
                raise Told(f"broken S{rule} at {len(listed) + 1}", 1)
        if self.catalogue.work_of(listed) != work:
            raise Told("rejected work", 1)
        if scope == "all":
            wrong = [place for place, pair in enumerate(self.pairs, 1) if certificate[place - 1 : place] != [pair]]
        else:
            wrong = list(filter(None, [self.catalogue.judge_tree(certificate, work)]))
        if wrong:
            raise Told(f"rejected at {wrong[0]}", 1)
        return f"certified {scope} work {work}\n", 0


# ---- night and replay


class Carried(Input):
    """The night of two tables and their join, whose data stand last."""

    command, wanted = "night", ("catalogue", "strategy")
    headings = ("catalogue", "strategy", "data a", "data b", "changes a", "changes b")
    bases = {"a": ["x", "y"], "b": ["y", "z"]}

    def verdict(self, _, once, each):
        strategy = strategy_in(each[0]["strategy"], ["a", "b", "v"])
        night = self.night(once, each[0])
        if told := broken(night.views, strategy):
            raise Told(told, 1)
        for view, table in zip(night.views, night.new):
            if any(count < 0 for count in table.values()):
                raise Told(f"refused absent {view.name}\nleft untouched", 1)
        return night.report(strategy) + night.shown() + self.after(night), 0

    @staticmethod
    def after(_):
        """What is printed behind the tables."""
        return ""

    def night(self, once, parts):
        records = [records_in(once.get(f"data {name}"), columns, False) for name, columns in self.bases.items()]
        changes = [records_in(parts.get(f"changes {name}"), columns, True) for name, columns in self.bases.items()]
        views = [View(name, [(column, "int") for column in columns]) for name, columns in self.bases.items()]
        views.append(View("v", [("x", "int"), ("z", "int")], [0, 1], [(1, 2)], keep=[Place(0), Place(3)]))
        return nights.Night(views, [*records, []], [*changes, []])


class CarriedBesideReaders(Carried):
    """The same night by two workers, and beside two readers."""

    options = ("--workers", "2", "--readers", "2")

    @staticmethod
    def after(night):
        return night.readers(2)


class Replayed(Input):
    """Nights over one table and views of these names: by turns their schedule, their data and their changes stand last."""

    command, wanted = "replay", ("catalogue", "strategy", "schedule")
    headings = ("catalogue", "data a", "changes a", "strategy", "night", "schedule")
    head = (("desks", 1, 16), ("workers", 1, 16), ("keys", 1, 256))
    versions = ("versions", 2, 4)
    numbers = {"begin": 0, "page": 0, "commit": 0, "giveup": 0, "take": 1, "done": 1, "open": 1, "close": 1}

    def __init__(self, what, bundle, names):
        super().__init__(what, bundle)
        self.names = names

    def verdict(self, bundle, once, each):
        records_in(once.get("data a"), ["x"], False)
        for parts in each:
            records_in(parts.get("changes a"), ["x"], True)
            strategy_in(parts["strategy"], self.names)
        self.judge_schedule(once["schedule"])
        return machine.answer(Given(bundle))

    def is_event(self, words):
        if words[0] == "read":
            return len(words) == 4 and is_number(words[1], 0, 10**6) and is_number(words[3], 0, 10**6)
        return len(words) - 1 == self.numbers.get(words[0]) and all(is_number(word, 0, 10**6) for word in words[1:])

    @staticmethod
    def is_said(words, name, least, most):
        return len(words) == 2 and words[0] == name and is_number(words[1], least, most)

    def is_below(self, place, words):
        """Whether a line of these words may stand below as many others: in the head, right below it, or as an event."""
        if place < len(self.head):
            return self.is_said(words, *self.head[place])
        return self.is_event(words) or (place == len(self.head) and self.is_said(words, *self.versions))

    def judge_schedule(self, lines):
        """Tells the first line that is none of a schedule."""
        for place, words in enumerate(map(str.split, lines)):
            if not self.is_below(place, words):
                raise Told(f"fault schedule {place + 1}", 3)
        if len(lines) < len(self.head):
            raise Told(f"fault schedule {len(lines) + 1}", 3)


def is_number(word, least, most):
    return word.isdecimal() and least <= int(word) <= most
