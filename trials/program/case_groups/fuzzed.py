"""Bundles that a fuzzer found to run parts of the program that others do not, and kept in tests/fuzzed/: each has an answer, by the forms
of docs/FORMATS.md and by the rules.
"""

from typing import NamedTuple

from trials.program.fuzzed.targets import TARGETS, Target


class Kept(NamedTuple):
    target: Target
    name: str
    given: bytes

    def mistake(self, started):
        wrong = self.target.mistake(started, self.given)
        return f"{self.target.name} {self.name} {wrong}" if wrong else None


def cases():
    for target in TARGETS.values():
        for name, given in target.kept():
            yield Kept(target, name, given)
