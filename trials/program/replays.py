"""Draws warehouses with one night to five and schedules over them, some with a line of versions, and compares what `whview replay`
answers with a machine of its own, which goes by the rules alone. A program of before that line answers it as a fault.

Schedules are drawn by trials/drawn/schedules.py and answered by trials/oracle/machine.py. Before that, and alone with
`--selftest`, the machine answers the schedules of the bundles, and each of the falsified machines of trials/spoilt/machines.py,
which go against one rule each, has to answer one of the first drawn schedules in another way. All together have each kind of
reply, and nights given up at each stage. `--write` writes each bundle and its answer, as FOLDER/NAME and FOLDER/NAME.stdout,
for a program that is not proved: in its crate `rt try --cases FOLDER -- replay` takes them.
"""

import os
import subprocess
from collections import Counter
from concurrent.futures import ProcessPoolExecutor
from pathlib import Path

from trials.bundles import examples
from trials.drawn.schedules import STAGES, Drawn
from trials.ended import ended, told
from trials.oracle.given import Given
from trials.oracle.machine import answer
from trials.spoilt.machines import FALSIFIED
from upkeep.words import program, words_with_program

COUNT, SEED, NOTICED, BLOCK = 4000, 20261125, 1000, 50
REFUSALS = "NoSession SessionOpen NoView NoDesk NoWorker Limit NightOpen NoNight NotReady NoJob Busy Idle Large Range Absent".split()
KINDS = ["begun", "job", "done", "paged", "version", "session", "closed", "page end", "page more", "expired active", "expired idle"]
KINDS += [f"refused {name}" for name in REFUSALS] + ["broken", "refused large", "refused range", "paged 256"]
KINDS += [f"given up {stage}" for stage in STAGES]


def kinds_of(line):
    if line.startswith(("page ", "expired ")):
        return [f"{line.split()[0]} {line.split()[-1]}"]
    if line.startswith("refused "):
        return [" ".join(line.split()[:2])]
    return ["paged", line] if line == "paged 256" else [line.split()[0]]


# ---- the machine


def worked():
    """The worked schedules that the machine answers in another way."""
    for example in examples():
        if example.words == ["replay"] and not example.answer.startswith(b"fault"):
            text, status = answer(Given(example.bundle.decode()))
            if f"{text}status {status}\n" != example.answer.decode():
                yield f"the machine answers {example.name} with\n{text}status {status}"


def differs(drawn, kind):
    """Whether a falsified machine gives another answer, or none."""
    try:
        return answer(drawn.given, kind) != answer(drawn.given)
    except (IndexError, KeyError, TypeError):
        return True


def selftest(seed):
    wrong = list(worked())
    drawn = []
    for kind in FALSIFIED:
        for number in range(NOTICED):
            if number == len(drawn):
                drawn.append(Drawn(f"{seed} {number}"))
            if differs(drawn[number], kind):
                break
        else:
            wrong.append(f"{NOTICED} schedules do not notice that {kind.__name__}")
    told(wrong)
    print(f"falsified machines: {len(FALSIFIED)}, noticed within {len(drawn)} schedules; {len(wrong)} failed", flush=True)
    return wrong


# ---- the program


def tried(started, seed, numbers):
    """The mistakes of the program over these schedules, and how often there was each kind of line."""
    wrong, kinds = [], Counter()
    for number in numbers:
        drawn = Drawn(f"{seed} {number}")
        expected = answer(drawn.given)
        kinds.update(kind for line in expected[0].splitlines() for kind in kinds_of(line))
        kinds.update(f"given up {stage}" for stage in drawn.given_up)
        ran = subprocess.run([started, "replay"], input=drawn.bytes, capture_output=True, timeout=60)
        text = ran.stdout.decode(errors="replace")
        if (text, ran.returncode) != expected or ran.stderr:
            wrong.append(mistake(number, drawn, text, ran.returncode, *expected))
    return wrong, kinds


def mistake(number, drawn, text, status, wanted, ends):
    """A wrong answer: the first line that is another one, with its event, and the bundle."""
    lines = zip(["the status", *map(str, drawn.given.events)], [str(status), *text.splitlines()], [str(ends), *wanted.splitlines()])
    other = next((line for line in lines if line[1] != line[2]), ("the end", text[-80:], wanted[-80:]))
    return f"schedule {number}: {other[0]} is answered {other[1]!r}, and by the rules {other[2]!r}, for\n{drawn.bytes.decode()}"


def compared(started, count, seed):
    with ProcessPoolExecutor(os.cpu_count()) as workers:
        blocks = [range(begun, min(begun + BLOCK, count)) for begun in range(0, count, BLOCK)]
        results = [job.result() for job in [workers.submit(tried, started, seed, block) for block in blocks]]
    wrong = [text for texts, _ in results for text in texts]
    kinds = sum((counts for _, counts in results), Counter())
    lacking = [f"no line is of the kind '{kind}'" for kind in KINDS if not kinds[kind]]
    told(wrong[:5] + lacking)
    print("lines: " + ", ".join(f"{kinds[kind]} {kind}" for kind in KINDS))
    ended("replays", count, len(wrong))
    return wrong + lacking


def write(folder, count, seed):
    folder.mkdir(parents=True, exist_ok=True)
    for number in range(count):
        drawn = Drawn(f"{seed} {number}")
        (folder / f"schedule{number}").write_bytes(drawn.bytes)
        (folder / f"schedule{number}.stdout").write_text(answer(drawn.given)[0], encoding="utf-8", newline="")


def asked():
    words = words_with_program(__doc__, COUNT, SEED)
    words.add_argument("--selftest", action="store_true", help="tries the machine and the draw alone")
    words.add_argument("--write", nargs="+", metavar=("FOLDER", "COUNT SEED"), help="writes bundles and answers alone")
    return words.parse_args()


def main():
    words = asked()
    if words.selftest:
        return 1 if selftest(SEED) else 0
    if words.write:
        folder, *numbers = words.write
        write(Path(folder), *map(int, numbers + [COUNT, SEED][len(numbers) :]))
        return 0
    wrong = selftest(words.seed)
    return 1 if compared(program(words.program), words.count, words.seed) + wrong else 0
