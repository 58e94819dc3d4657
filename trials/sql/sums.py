"""Nights whose sums and counts leave 64 bits, and come back or do not."""

from trials.drawn.scripts import Night, carried_by
from trials.ended import faults
from trials.servers.engines import SQLiteEngine
from trials.tables.given_nights import Night as Given
from whview.sql.catalogue import Catalogue


ADDED_UP = """@catalogue
[[view]]
name = "a"
columns = ["x", "k"]
[[view]]
name = "b"
columns = ["k", "y"]
[[view]]
name = "s"
over = ["a", "b"]
join = [["a.k", "b.k"]]
group = [["k", "b.k"]]
count = "n"
sum = [["x", "a.x"]]
[[view]]
name = "j"
over = ["a", "b"]
join = [["a.k", "b.k"]]
keep = [["k", "b.k"]]
@strategy
comp s from a
comp j from a
inst a
comp s from b
comp j from b
inst b
inst j
inst s
"""
TOP = 2**63 - 1
UP = [(TOP, 1), (TOP - 1, 1), (TOP - 2**32, 1)]
DOWN = [(-number, 1) for number, _ in UP]
ONE, BOTH = [(0, -1)], [(0, -1), (1, -1)]

# What is added up; the numbers in `a` before the night, and how many rows `b` has; the changes of both, numbers and counts; and how
# the night is refused. Each number of `a` is joined with each row of `b`.
SUMS = [
    ("a change up and back", [7], 1, [*UP, *DOWN], [], None),
    ("a change down and back", [7], 1, [*DOWN, *UP, (-8, 1)], [], None),
    ("a change up to 2^63 and back", [0], 1, [(2**62, 1), (2**62 + 1, 1), (-2, 1)], [], None),
    ("a change that the group brings back", [-TOP], 1, [(TOP, 1), (5, 1)], [], None),
    ("up to the most", [TOP - 5], 1, [(3, 1), (2, 1)], [], None),
    ("down to the least", [-TOP], 1, [(2**32, 1), (-(2**32), 1), (-1, 1)], [], None),
    ("an expression up and another back", [7], 2, UP, BOTH, None),
    ("an expression up and another half back", [0], 2, UP[:1], ONE, None),
    ("an expression down and another half back", [7], 2, [(-TOP - 1, 1)], ONE, None),
    ("products up and back", [7], 1, [(TOP, 200), (1 - TOP, 100), (2 - TOP, 100)], [], None),
    ("products down and back", [7], 2, [(-TOP - 1, 250), (TOP, 250)], ONE, None),
    ("a group that comes", [], 1, [*UP, *DOWN[:2]], [], None),
    ("a group that leaves", [TOP, 2, -TOP], 1, [(TOP, -1), (-TOP, -1), (2, -1)], [], None),
    ("one over the most", [TOP - 5], 1, [(3, 1), (1, 1), (2, 1)], [], "refused range s"),
    ("one under the least", [-TOP], 1, [(1, 1), (-3, 1)], [], "refused range s"),
    ("a new group of 2^63", [], 1, [(2**62, 1), (2**62 - 1, 1), (1, 1)], [], "refused range s"),
    ("far over", [7], 1, UP, [], "refused range s"),
    ("far under", [7], 1, DOWN, [], "refused range s"),
    ("an expression up and another too little back", [7], 3, UP[:2], ONE, "refused range s"),
    ("counts that multiply to 2^80", [7], 1, [(9, 2**40)], [(1, 2**40)], "refused large s"),
]
# The same of counts, which are larger than whview takes.
COUNTS = [
    ("counts up and back", [7], 1, [(0, TOP), (0, TOP), (0, -TOP), (0, 1 - TOP)], [], None),
    ("counts down and back", [7], 1, [(0, -TOP), (0, -TOP), (0, TOP), (0, TOP), (0, 2)], [], None),
    ("counts of 2^63", [7], 1, [(0, TOP), (0, 1)], [], "refused large a"),
    ("counts under the least", [7], 1, [(0, -TOP), (0, -2)], [], "refused large a"),
    ("joined counts up and back", [], 2, [(0, 2**62 - 1), (1, 2**62)], ONE, None),
    ("joined counts of 2^63", [], 1, [(0, TOP), (1, 1)], [], "refused large j"),
]


class FixedNight(Night):
    """A night over `a` and `b`, by the program or else by the definitions."""

    def __init__(self, started, numbers, others, changes, other_changes, told):
        records = [[((number, 1), 1) for number in numbers], [((1, y), 1) for y in range(others)], [], []]
        self.given = records, [[((number, 1), count) for number, count in changes], [((1, y), count) for y, count in other_changes], [], []]
        self.meant = told
        super().__init__(None, started)

    def draw(self, _):
        catalogue = Catalogue(ADDED_UP)
        Given.__init__(self, catalogue.views, *self.given, catalogue.correct())

    def answered(self, started, is_after):
        if started:
            return super().answered(started, is_after)
        return (None, self.meant) if is_after and self.meant else (self.defined(is_after), None)


def sum_mistakes(started, engines):
    """What is made of sums that leave 64 bits, where it is not what is meant, or by an engine not what the program makes of them."""
    wrong = []
    for by, listed in ((started, SUMS), (None, COUNTS)):
        for name, *given in listed:
            night = FixedNight(by, *given)
            wrong += [] if night.told == night.meant else [f"{name}: {night.told!r} by the program"]
            told = [(engine.dialect.engine, carried_by(night, engine).mistake()) for engine in engines]
            wrong += [f"{name} by {engine}: {mistake}" for engine, mistake in told if mistake]
    return wrong + product_mistakes(started)


def product_mistakes(started):
    """What SQLite makes of a product that leaves 64 bits too far and comes back, where it is not a refusal that the program is spared."""
    night = FixedNight(started, [7], 1, [(TOP, 2**10), (-TOP, 2**10)], [], None)
    wrong = [] if night.told is None else [f"a large product: {night.told!r} by the program"]
    night.told = "refused range s"
    return wrong + [f"a large product by sqlite: {told}" for told in faults(carried_by(night, SQLiteEngine()).mistake())]
