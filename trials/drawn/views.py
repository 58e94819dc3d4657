"""Views that are drawn over those drawn before, and rows and changes of base views."""

from itertools import product

from whview.catalogue.views import SIGNS, Place, Text, View

WORDS = ["oak", "elm, old", 'the "ash"', "fir\n@data pine", "", "view yew\nview v1", "Linde\r\n#", "Bäume"]


def chance(source, part):
    """Whether something is so, in this part of all draws. The least draw says no: what hypothesis shrinks has less of it."""
    return source.random() >= 1 - part


class Drawer:
    """Draws views over those drawn before, and the rows of the base views. The source of what is chosen is Python's random or, where what fails is
    shrunk, hypothesis, which has the same calls."""

    def __init__(self, source, words=WORDS):
        self.source, self.words = source, words
        self.views = []

    def base(self, width):
        kinds = ["int"] + [self.source.choice(["int", "text"]) for _ in range(width - 2)] + ["text"]
        columns = [(f"c{place}", kind) for place, kind in enumerate(kinds[:width])]
        return self.add(View(f"b{len(self.views)}", columns))

    def add(self, view):
        self.views.append(view)
        return len(self.views) - 1

    def kinds(self, over):
        """The kinds of the combined row's columns."""
        return [kind for u in over for _, kind in self.views[u].columns]

    def places(self, over, kind):
        return [place for place, found in enumerate(self.kinds(over)) if found == kind]

    def number(self, over, depth):
        choice = self.source.randrange(5 if depth else 3)
        if choice >= 3:
            return [self.source.choice("+-*"), self.number(over, depth - 1), self.number(over, depth - 1)]
        if choice and self.places(over, "int"):
            return Place(self.source.choice(self.places(over, "int")))
        return self.source.randint(-3, 3)

    def compared(self, over):
        texts = self.places(over, "text")
        if texts and chance(self.source, 0.5):
            right = Text(self.source.choice(self.words)) if chance(self.source, 0.6) else Place(self.source.choice(texts))
            return [self.source.choice(["=", "<>", "<>"]), Place(self.source.choice(texts)), right]
        return [self.source.choice(list(SIGNS)), self.number(over, 2), self.number(over, 1)]

    def predicate(self, over, depth):
        choice = self.source.randrange(6)
        if choice < 2:
            return True
        if choice < 4 or not depth:
            return self.compared(over)
        if choice == 4:
            return ["not", ["all", self.compared(over), self.predicate(over, depth - 1)]]
        return ["any", self.predicate(over, depth - 1), self.compared(over)]

    def join_pairs(self, over):
        """Equalities between each view and one before it, where they have columns of one kind."""
        kinds, pairs, start = self.kinds(over), [], len(self.views[over[0]].columns)
        for u in over[1:]:
            end = start + len(self.views[u].columns)
            fitting = [pair for pair in product(range(start), range(start, end)) if kinds[pair[0]] == kinds[pair[1]]]
            if fitting and chance(self.source, 0.9):
                pairs.append(self.source.choice(fitting))
            start = end
        return pairs

    def joined(self, over):
        kinds = self.kinds(over)
        keep, columns = [], []
        for _ in range(self.source.randint(2, 4)):
            place = self.source.randrange(len(kinds))
            choice = self.source.random()
            kept = Text(self.source.choice(self.words)) if choice < 0.1 else self.number(over, 2) if choice < 0.4 else Place(place)
            keep.append(kept)
            is_text = isinstance(kept, Text) or (isinstance(kept, Place) and kinds[kept] == "text")
            columns.append((f"k{len(keep)}", "text" if is_text else "int"))
        return self.add(View(f"v{len(self.views)}", columns, over, self.join_pairs(over), self.predicate(over, 2), keep=keep))

    def summary(self, over):
        kinds = self.kinds(over)
        group = self.source.sample(range(len(kinds)), min(self.source.choice([0, 1, 1, 2]), len(kinds)))
        sums = [self.number(over, 1) for _ in range(self.source.randint(0, 2))]
        columns = [(f"g{place}", kinds[found]) for place, found in enumerate(group)] + [("n", "int")]
        columns += [(f"s{place}", "int") for place, _ in enumerate(sums)]
        view = View(f"v{len(self.views)}", columns, over, self.join_pairs(over), self.predicate(over, 1), group=group, sums=sums)
        return self.add(view)

    def row(self, view):
        drawn = {"int": lambda: self.source.randint(0, 3), "text": lambda: self.source.choice(self.words)}
        return tuple(drawn[kind]() for _, kind in view.columns)

    def records(self, view):
        """The records of a base view; few have none."""
        count = 0 if chance(self.source, 0.1) else self.source.randint(4, 10)
        return [(self.row(view), self.source.choice([1, 1, 1, 2])) for _ in range(count)]

    def changes(self, view, records):
        """Rows that leave, which are there, and rows that come; one view in five does not change."""
        if chance(self.source, 0.2):
            return []
        there = [row for row, count in records for _ in range(count)]
        leaving = self.source.sample(there, self.source.randint(0, len(there) // 2))
        coming = [(self.row(view), self.source.choice([1, 1, 2])) for _ in range(self.source.randint(0, 4))]
        changes = [(row, -1) for row in leaving] + coming
        self.source.shuffle(changes)
        return changes
