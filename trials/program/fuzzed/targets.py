"""What is fuzzed: the words of the program, what it begins with, and how a finding is judged."""

import re
import resource
import signal
import subprocess
from dataclasses import dataclass

from trials.bundles import examples
from trials.oracle import by_the_rules
from trials.oracle.answer_forms import is_an_answer
from upkeep.words import ROOT

KEPT = ROOT / "tests/fuzzed"
MOST_BYTES = 16384
# How long a processor may work at an answer, and how long it may take where other work has the processors.
SECONDS, PATIENCE = 10, 600
# A search by the usual budget takes longer than a run that seems to hang.
BUDGET = ["--budget", "2000"]
SEATS = ["--workers", "2", "--readers", "2", "--page-keys", "3"]


def limited():
    """Before a run begins: a processor may work at it for so long."""
    resource.setrlimit(resource.RLIMIT_CPU, (SECONDS, SECONDS + 1))


@dataclass(frozen=True)
class Target:
    """A name, and the words that each run is given; without words the first line of the input has them."""

    name: str
    words: tuple = ()

    def seeds(self):
        """The bundles to begin with, by names: those of the command, and what earlier runs have kept."""
        for example in examples():
            if len(example.bundle) <= MOST_BYTES and not self.words:
                yield example.name, " ".join(example.words).encode() + b"\n" + example.bundle
            elif len(example.bundle) <= MOST_BYTES and self.words[0] == example.words[0]:
                yield example.name, example.bundle
        yield from self.kept()

    def kept(self):
        """What earlier runs have kept, by names."""
        return [(path.name, path.read_bytes()) for path in sorted((KEPT / self.name).glob("*"))]

    def mistake(self, started, given):
        """What is wrong with the program's answer to a bundle, or None."""
        try:
            ran = subprocess.run([started, *self.words], input=given, capture_output=True, timeout=PATIENCE, preexec_fn=limited)
        except subprocess.TimeoutExpired:
            return f"no answer in {PATIENCE} seconds"
        if ran.returncode == -signal.SIGXCPU:
            return f"no answer in {SECONDS} seconds of a processor"
        command = self.words[0] if self.words else asked_in(given)
        text, status = ran.stdout, ran.returncode
        if status == 2 and not self.words and not ran.stderr:
            return None
        if not (self.words or command) or not is_an_answer(command, text, status, ran.stderr):
            return f"answered {text[:300]} {ran.stderr[:300]}, status {status}"
        return None if is_by_the_rules(command, given, text, status, bool(self.words)) else f"answered {text[:300]}, which is not by the rules"


def asked_in(given):
    """The command that the first line asks for, or "" where it asks for none."""
    return next((word for word in re.split(" +", given.partition(b"\n")[0].decode(errors="replace")) if word), "")


def is_by_the_rules(command, given, text, status, is_bundle):
    """Whether a night or a replay is answered by the rules, where these take the bundle."""
    if status not in (0, 1) or command not in ("night", "replay"):
        return True
    bundle = given if is_bundle else given.partition(b"\n")[2]
    if command == "night":
        told = by_the_rules.night(bundle)
        return told is None or b"\n" + told in b"\n" + text
    told = by_the_rules.replies(bundle)
    return told is None or told[0] == text


TARGETS = {
    target.name: target
    for target in (
        Target("check", ("check",)), Target("plan", ("plan", *BUDGET)), Target("certify", ("certify",)), Target("night", ("night",)),
        Target("night_with_workers_and_readers", ("night", *SEATS)), Target("replay", ("replay",)), Target("words"),
    )
}
