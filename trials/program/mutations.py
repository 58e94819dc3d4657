"""Changes the bundles of examples/ and tests/bundles/ at random and runs the program on what comes of it.

Each example is changed so many times: a byte, a line or a part is changed, doubled, left out or exchanged with another, once
to four times. Each answer has to be one of docs/FORMATS.md with its status, within ten seconds of a processor and nothing on standard
error, and the same whether the words stand in the command line or in the first line, and the input is standard input or a
file. What `plan` answers, `certify` and `check` have to take at the same work; what `replay` and `night` answer of a bundle without a
fault, replies, tables and refusals, the machine of trials/oracle/machine.py answers too, and a night the same by other workers, readers
and pages; and where whole parts alone change places, the answer has to be the example's own.
"""

import os
import random
import re
import signal
import subprocess
import tempfile
import time
from collections import Counter
from concurrent.futures import ProcessPoolExecutor

from trials.bundles import examples
from trials.drawn.mutations import changed, reordered
from trials.ended import ended, told
from trials.oracle import by_the_rules
from trials.oracle.answer_forms import is_an_answer
from trials.program.fuzzed.targets import PATIENCE, limited
from upkeep.words import program, words_with_program

# Of each example so many changes are drawn: ten thousand of all, also where other work has the processors.
COUNT, SEED = 60, 20261122
ENOUGH = 600
READERS = re.compile(rb"reader \d+ version 0 rows \d+\n")


def answer(started, words, given):
    try:
        ran = subprocess.run([started, *words], input=given, capture_output=True, timeout=PATIENCE, preexec_fn=limited)
    except subprocess.TimeoutExpired:
        return b"", "no answer", b""
    return ran.stdout, "no answer" if ran.returncode == -signal.SIGXCPU else ran.returncode, ran.stderr


def by_another_way(source, started, words, given):
    """The answer where the words stand in the input, or where the input is a file."""
    if source.random() < 0.5:
        return answer(started, [], " ".join(words).encode() + b"\n" + given)
    with tempfile.NamedTemporaryFile() as file:
        file.write(given)
        file.flush()
        return answer(started, [*words, "--input", file.name], b"")


def is_by_the_rules(words, given, text):
    """Whether replies are the machine's, and a night's tables or its refusal are, where the machine takes the bundle."""
    if words[0] == "replay":
        told = by_the_rules.replies(given)
        return told is None or told[0] == text
    told = by_the_rules.night(given)
    return told is None or (b"\n" + text).partition(b"\n" + told)[1] != b""


def seated(source, words):
    """The words of a night with other workers, readers and rows of a page."""
    drawn = {"--workers": source.choice([2, 3, 16]), "--readers": source.choice([0, 2, 16]), "--page-keys": source.choice([1, 7, 256])}
    return [words[0], *(str(word) for option in drawn.items() for word in option)], drawn["--readers"]


def is_the_same(source, started, words, given, got):
    """Whether a night that is seated in another way is answered by the same text, before its readers, of which each has a line."""
    other, readers = seated(source, words)
    text, status, errors = answer(started, other, given)
    plain = READERS.sub(b"", got[0])
    return (READERS.sub(b"", text), status, errors) == (plain, *got[1:]) and (status != 0 or len(READERS.findall(text)) == readers)


def mistake(source, started, words, given):
    """What is wrong with the answers to a bundle, or None, and the status."""
    got = answer(started, words, given)
    if not is_an_answer(words[0], *got):
        return f"{words} answered {got}", got[1]
    if (other := by_another_way(source, started, words, given)) != got:
        return f"{words} answered {got}, and by another way {other}", got[1]
    if words[0] in ("night", "replay") and got[1] in (0, 1) and not is_by_the_rules(words, given, got[0]):
        return f"{words} answered {got}, which is not by the rules", got[1]
    if words[0] == "night" and not is_the_same(source, started, words, given, got):
        return f"{words} answered {got}, and otherwise by other workers, readers and pages", got[1]
    if words[0] == "plan" and got[1] == 0 and b"\n@plan" not in b"\n" + given and given.endswith(b"\n"):
        scope, work = got[0].split(b"\n")[:2]
        certified = answer(started, ["certify"], given + b"@plan\n" + got[0])
        if certified != (b"certified " + scope.removeprefix(b"scope ") + b" " + work + b"\n", 0, b""):
            return f"of the plan {got[0]} certify says {certified}", got[1]
    return None, got[1]


def tried(started, example, seed, count, until):
    """The mistakes in the answers to changes of an example, and how often each status was; past the end nothing more is drawn."""
    source, wrong, statuses = random.Random(f"{seed} {example.name}"), [], Counter()
    own, status = example.answer.rsplit(b"status ", 1)
    for _ in range(count):
        if time.monotonic() > until:
            break
        given = changed(source, example.bundle)
        found, end = mistake(source, started, example.words, given)
        statuses[end] += 1
        wrong += [f"{found}\nof {example.name} changed to\n{given}"] if found else []
    for _ in range(count // 8):
        given = reordered(source, example.bundle)
        if given is not None and not own.startswith(b"fault part"):
            got = answer(started, example.words, given)
            statuses["reordered"] += 1
            wrong += [f"{got} of {example.name} reordered to\n{given}"] if got != (own, int(status), b"") else []
    return wrong, statuses


def main():
    given = words_with_program(__doc__, COUNT, SEED)
    given.add_argument("--seconds", type=int, default=ENOUGH, help="after so many seconds nothing more is drawn (%(default)s)")
    asked = given.parse_args()
    started, count, seed = program(asked.program), asked.count, asked.seed
    until = time.monotonic() + asked.seconds
    with ProcessPoolExecutor(len(os.sched_getaffinity(0))) as workers:
        jobs = [workers.submit(tried, started, example, seed, count, until) for example in examples()]
        results = [job.result() for job in jobs]
    wrong = [text for texts, _ in results for text in texts]
    statuses = sum((counts for _, counts in results), Counter())
    told(wrong, 20)
    ends = ", ".join(f"{statuses[end]} ended with {end}" for end in sorted(statuses, key=str))
    return ended("mutations", statuses.total(), len(wrong), f"; {ends}")
