"""A reader of the bundles of `whview replay` and of the openings of `whview live` that have no fault."""

from trials.oracle.tables import bag_of
from whview.bundle import parts_of, words_of
from whview.catalogue.from_bundle import views_of

KEPT = 2  # where a schedule does not say how many versions are kept


def event_of(words):
    """An event: its name and its numbers, of which a read has a view's name among them."""
    return [int(word) if word.isdecimal() else word for word in words]


class Base:
    """What the parts that stand once begin from: views and base tables, with texts as their numbers."""

    def __init__(self, once):
        self.numbers = {}
        self.views = views_of("\n".join(once["catalogue"]), self.number)
        self.names = {view.name: v for v, view in enumerate(self.views)}
        self.tables = [self.bag(view, once.get(f"data {view.name}")) for view in self.views]

    def number(self, text):
        """The number of a text: texts are numbered as they first appear."""
        return self.numbers.setdefault(text, len(self.numbers))

    def bag(self, view, lines):
        """The rows of a part, and how often each stands in it."""
        return dict(bag_of("".join(line + "\n" for line in lines or []), view.columns, self.number))

    def strategy(self, lines):
        """Each expression as its view and its sources, of which an Inst has none."""
        sources = lambda names: tuple(self.names[name] for name in names) or None
        return [(self.names[words[1]], sources(words[3:])) for words in words_of(lines)]


class Given(Base):
    """A bundle: its views, base tables, nights and schedule."""

    def __init__(self, text):
        once, nights = parts_of(text)
        super().__init__(once)
        self.nights = []
        for parts in nights:
            changes = [None if view.over else self.bag(view, parts.get(f"changes {view.name}")) for view in self.views]
            self.nights.append((changes, self.strategy(parts["strategy"])))
        lines = words_of(once["schedule"])
        self.desks, self.workers, self.keys = (int(number) for _, number in lines[:3])
        told = lines[3:4] if lines[3:] and lines[3][0] == "versions" else []
        self.kept = int(told[0][1]) if told else KEPT
        self.events = [event_of(words) for words in lines[3 + len(told) :]]


class Opening(Base):
    """An opening: its views and base tables, and the lines of the strategy of nights that write none, or None. It has no nights."""

    def __init__(self, text, desks, keys, kept):
        once, (parts,) = parts_of(text)
        super().__init__(once)
        self.own, self.nights = parts.get("strategy"), []
        self.desks, self.workers, self.keys, self.kept = desks, 1, keys, kept
