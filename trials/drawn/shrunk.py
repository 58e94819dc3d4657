"""Draws by hypothesis: what fails is shrunk, and told at its smallest."""

from random import Random

from hypothesis import HealthCheck, Phase, Verbosity, given, seed, settings
from hypothesis.strategies import composite, integers

# Into how many parts the numbers below one are divided.
PARTS = 1 << 16


class Choices(Random):
    """A source with those calls of Python's random that drawers use, each made of whole numbers that hypothesis draws, and shrinks to the least ones."""

    def __init__(self, draw):
        super().__init__(0)
        self.integer = lambda low, high: draw(integers(low, high))

    def random(self):
        return self.integer(0, PARTS - 1) / PARTS

    def randint(self, low, high):
        return self.integer(low, high)

    def randrange(self, start, stop=None):
        return self.integer(0, start - 1) if stop is None else self.integer(start, stop - 1)

    def choice(self, listed):
        return listed[self.integer(0, len(listed) - 1)]

    def shuffle(self, listed):
        listed[:] = self.sample(listed, len(listed))

    def sample(self, listed, k):
        """So many of them: the first ones where nothing else is drawn."""
        found = list(listed)
        for at in range(k):
            other = self.integer(at, len(found) - 1)
            found[at], found[other] = found[other], found[at]
        return found[:k]


@composite
def sources(draw):
    return Choices(draw)


def draws(count, beginning=0, **more):
    """A test that is given so many draws, each a `source`: of what fails it tells the smallest. The draws follow from what they begin with, and the first
    has the least numbers alone."""
    phases = (Phase.generate, Phase.shrink)
    tells = settings(max_examples=count, deadline=None, database=None, phases=phases, suppress_health_check=list(HealthCheck), report_multiple_bugs=False, **more)
    return lambda test: seed(beginning)(tells(given(source=sources())(test)))


class Wrong(AssertionError):
    """What is wrong with something that was drawn."""


def smallest(mistakes, count, beginning):
    """What is wrong with the smallest of so many draws that has something wrong, in a list that is empty where none has. `mistakes` lists what is wrong
    with what it draws from a source, which has the calls of Python's random."""

    @draws(count + 1, beginning, verbosity=Verbosity.quiet)
    def tried(source):
        if found := mistakes(source):
            raise Wrong("\n".join(found))

    try:
        tried()
    except Wrong as wrong:
        return [str(wrong)]
    return []
