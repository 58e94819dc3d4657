"""Nights by plans that nights of before have kept: what they leave is right, whatever becomes of the file, and what the plan rests on has it planned anew."""

import json

from trials.capture.application import CATALOGUE
from trials.ended import faults
from trials.tables.given_nights import lay
from whview.sql.kept import FILE, Kept

KEPT, FEW, MANY = "when it was planned", "UPDATE lines SET pieces = pieces + 1 WHERE id % 9 = {n};", "UPDATE lines SET pieces = pieces + 1;"
# What is made of the file, by names.
SPOILT = {
    "cut": lambda text: text[: len(text) // 2], "empty": lambda text: "", "of another form": lambda text: text.replace('"form": 1', '"form": 9'),
    "with a step less": lambda text: with_steps(text, lambda steps: steps[1:]), "the other way round": lambda text: with_steps(text, lambda steps: steps[::-1]),
    "of another warehouse": lambda text: with_steps(text, lambda _: ["comp v from t", "inst t", "inst v"]),
}


def with_steps(text, change):
    """The file with other expressions, and a sum that is right for these."""
    said = {name: value for name, value in json.loads(text).items() if name not in ("form", "sum")}
    return Kept(**{**said, "expressions": change(said["expressions"])}).text()


class Nights:
    """Nights of an application, each planned, and what is wrong with them."""

    def __init__(self, live, program):
        self.live, self.program, self.wrong, self.path = live, program, live.fresh(), lay(live.path / "kept", CATALOGUE)
        (self.path / "strategy.txt").unlink()
        (self.path / FILE).unlink(missing_ok=True)

    def night(self, name, said, is_kept, *words, path=None):
        """A night once something was said, by a plan that was kept or by a new one."""
        self.live.asked(said)
        script = self.live.sure("--program", self.program, "--plan", *words, path or self.path)
        self.wrong += [] if (KEPT in script.told) is is_kept else [f"{name}: {'no' if is_kept else 'a'} kept plan: {script.told}"]
        self.wrong += [f"{name}: {text}" for text in faults(self.live.database.run(script.text)) or self.live.mistakes()]


def mistakes(live, program):
    """What is wrong with these nights."""
    nights = Nights(live, program)
    nights.night("the first night", FEW.format(n=0), False)
    for number in (1, 2):
        nights.night(f"a night like it, {number}", FEW.format(n=number), True)
    nights.night("one that is planned anew", FEW.format(n=3), False, "--anew")
    for name, spoilt in SPOILT.items():
        file = nights.path / FILE
        file.write_text(spoilt(file.read_text()))
        nights.night(f"a file {name}", FEW.format(n=4), False)
        nights.night(f"after a file {name}", FEW.format(n=5), True)
    nights.night("many rows", "INSERT INTO lines SELECT id, product, pieces FROM lines; INSERT INTO lines SELECT id, product, pieces FROM lines; " + MANY, False)
    nights.night("another cost", FEW.format(n=6), False, "--inst-cost", "7")
    return nights.wrong
