"""Draws warehouses that stay and streams of commands, and compares what `whview live` answers over pipes with a machine of its own.

Openings and commands are drawn by trials/drawn/dialogues.py: nights that follow one another, commits, give-ups, what desks do in any
order, lines that are blank or unknown, and nights that are refused, for a fault, a broken strategy, rows that are not there, or since
one is open. trials/oracle/dialogue.py says what each command is answered: to the machine of trials/oracle/machine.py a night is a Begin,
and then what one worker and the pages do as far as they go. A page is compared as a table, byte for byte. `quit` stands amid the input,
or the input ends behind a command, amid a night, or without a line feed.

Each stream is written in steps: a command in pieces, each read before the next one is written, and then its whole answer is waited for
before the next command comes. It is written a second time in pieces that end anywhere, and a short one at each byte too. The answers are
the same by 1 to 4 workers. Before that, and alone with `--selftest`, the falsified dialogues and machines of trials/spoilt/dialogues.py
have to answer one of the first streams in another way, and programs that answer at the wrong time have to be noticed. Beside the streams
stand runs that do not open, or whose output nobody takes. `--soak` goes on drawing for so many seconds, and does nothing else.
"""

import os
import pickle
import random
import tempfile
import time
from collections import Counter
from concurrent.futures import ProcessPoolExecutor
from itertools import count as counted

from trials.drawn.dialogues import Talk, Worked
from trials.ended import ended, told
from trials.oracle.dialogue import Dialogue
from trials.oracle.machine import Machine
from trials.program.talkers import SECONDS, Late, Talker
from trials.program.unopened import apart
from trials.spoilt import talkers
from trials.spoilt.dialogues import FALSIFIED_DIALOGUES, FALSIFIED_MACHINES, UNTOLD
from trials.spoilt.machines import FALSIFIED
from upkeep.words import program, words_with_program

COUNT, SEED, NOTICED, BLOCK, TOGETHER = 1500, 20261201, 400, 20, 2
# Streams of at most so many bytes are cut at every byte too; every so manieth comes by each number of workers.
FEW, EACH = 500, 8
# How long untimely programs are waited for, and how long for what comes too soon.
SOON, PAUSE = 2, 0.03
REFUSALS = "NoSession SessionOpen NoView NoDesk Limit NightOpen NoNight NotReady Large Range Absent".split()
KINDS = ["begun", "job", "done", "paged", "ready", "version", "session", "closed", "unknown", "quiet", "broken"]
KINDS += ["page end", "page more", "behind end", "behind more", "tables", "changes", "rows change", "expired active", "expired idle"]
KINDS += [f"refused {name}" for name in REFUSALS] + [f"fault {name}" for name in ("part", "header", "csv", "number", "strategy")]
KINDS += [f"end {end}" for end in ("quit", "end", "amid", "begun", "unended")] + ["refused range", "refused large", "each byte"]


def kinds_of(command, answer):
    """The kinds of an answer: those of its lines or, of a page, whether it is the last."""
    if command.split()[:1] in ([b"read"], [b"page"]) and answer.startswith("#,"):
        return [f"{'page' if command.split()[0] == b'read' else 'behind'} {answer.splitlines()[-1]}"]
    if command.split()[:1] == [b"tables"] and answer.startswith("view,"):
        return ["tables"]
    if command.split()[:1] == [b"changes"] and answer.startswith("changes "):
        return ["changes", *(["rows change"] if answer.count("\n") > 2 * answer.count("changes ") + 1 else [])]
    lines = [line.split() for line in answer.splitlines()] or [["quiet"]]
    wide = {"refused": lambda words: words[:2], "fault": lambda words: words[:2], "expired": lambda words: [words[0], words[-1]]}
    return [" ".join(wide.get(words[0], lambda words: words[:1])(words)) for words in lines]


# ---- one stream


def cut(source, given, most):
    """The pieces that some drawn places cut this into, each with a byte at least."""
    places = sorted(source.sample(range(1, len(given)), min(source.randint(0, most), len(given) - 1))) if given else []
    return [given[start:end] for start, end in zip([0, *places], [*places, len(given)])]


def in_pieces(talker, talk, source):
    """Writes the whole stream in pieces that end anywhere; some are read before the next one is written."""
    for piece in cut(source, talk.bytes, 12):
        talker.give(piece)
        if source.random() < 0.7:
            talker.are_read()


def at_each_byte(talker, talk, _):
    for byte in talk.bytes:
        talker.give(bytes([byte]))
        talker.are_read()


def in_steps(talker, talk, source):
    """Writes each command, and waits for its whole answer before the next one."""
    done, last = b"", len(talk.commands) if talk.end == "unended" else None
    for number, (command, answer) in enumerate(zip(talk.commands, talk.answers), 1):
        wanted = answer.encode()
        for piece in cut(source, command.removesuffix(b"\n"), 3):
            talker.give(piece)
            talker.are_read()
        if not talker.has_no_more_than(len(done)):
            raise Late(f"before its end {shortened(command)!r} is answered {shown(talker.said[len(done) :])}")
        if number == last:
            break
        talker.give(b"\n")
        talker.wait_for(done + wanted)
        if talker.said != done + wanted:
            raise Late(f"{shortened(command)!r} is answered {shown(talker.said[len(done) :])}, and has to be {shown(wanted)}")
        done += wanted
    talker.give(talk.behind)


def run(words, talk, way, source, patience=SECONDS, pause=0.0):
    """What is wrong with the answers of a run, or None."""
    try:
        with Talker(words, patience, pause) as talker:
            if not talk.refused:
                way(talker, talk, source)
            if talk.end != "quit" or way is not in_steps:
                talker.close()
            return unlike(*talker.ended(), *talk.answer)
    except Late as late:
        return str(late)


def unlike(said, status, errors, text, ends):
    """In what all that is printed and the end are other than they have to be, or None."""
    wanted = text.encode()
    if (said, status, errors) == (wanted, ends, b""):
        return None
    at = len(os.path.commonprefix([said, wanted]))
    beside = f"status {status} for {ends}, {errors[:200]} on standard error"
    return f"{beside}, and from byte {at} on {shown(said[at:])}, which has to be {shown(wanted[at:])}"


def shown(text):
    """The beginning of what is printed."""
    return repr(text[:200].decode(errors="replace"))


def shortened(given):
    """A stream as it can be shown: long lines are cut."""
    return "\n".join(line[:300] for line in given.decode(errors="replace").split("\n"))


def ways(number, talk):
    """How a stream is written, and by how many workers."""
    yield in_steps, 1 + number % 4
    for workers in range(1, 5) if number % EACH == 0 else [1 + number // 4 % 4]:
        yield in_pieces, workers
    if len(talk.bytes) <= FEW and not talk.refused:
        yield at_each_byte, 1 + number % 4


def tried(started, seed, numbers):
    """The mistakes of the program over these streams, and how often there was each kind of answer."""
    wrong, kinds = [], Counter()
    with tempfile.NamedTemporaryFile() as file:
        for number in numbers:
            talk = Talk(f"{seed} {number}") if number else Worked()
            file.seek(0)
            file.truncate()
            file.write(talk.opening)
            file.flush()
            kinds.update(kinds_of_talk(talk))
            for way, workers in ways(number, talk):
                kinds[" ".join(way.__name__.split("_")[1:])] += 1
                words = [*talk.words, *(["--workers", str(workers)] if workers > 1 else [])]
                source = random.Random(f"{seed} {number} {workers}")
                if said := run([started, "live", "--input", file.name, *words], talk, way, source):
                    said = f"stream {number}, {way.__name__.replace('_', ' ')}, by {words}: {said}"
                    wrong.append(f"{said}\nfor\n{shortened(talk.opening)}\nand\n{shortened(talk.bytes)}")
    return wrong, kinds


def kinds_of_talk(talk):
    if talk.refused:
        return [" ".join(talk.refused.split()[:2])]
    return [kind for couple in zip(talk.commands, talk.answers) for kind in kinds_of(*couple)] + [f"end {talk.end}"]


# ---- all streams


def compared(started, seed, blocks):
    """The mistakes over these blocks of streams, and the counts of all kinds."""
    wrong, kinds, number = [], Counter(), 0
    with ProcessPoolExecutor(TOGETHER) as workers:
        for texts, counts in workers.map(tried, *zip(*((started, seed, block) for block in blocks))):
            wrong += texts
            kinds += counts
            number += BLOCK
    return wrong, kinds, number


def blocks_of(count, begin=0):
    return [range(begun, min(begun + BLOCK, begin + count)) for begun in range(begin, begin + count, BLOCK)]


def drawn(started, count, seed):
    wrong, kinds, _ = compared(started, seed, blocks_of(count))
    lacking = [f"no answer is of the kind '{kind}'" for kind in KINDS if not kinds[kind]]
    told(wrong[:5] + lacking)
    print("answers: " + ", ".join(f"{kinds[kind]} {kind}" for kind in KINDS))
    ended("streams", count, len(wrong))
    return wrong + lacking


def soaked(started, seed, seconds):
    """Goes on drawing until the time is up, or until something is wrong."""
    until, number, wrong = time.monotonic() + seconds, 0, []
    for begin in counted(0, BLOCK * TOGETHER):
        if time.monotonic() > until or wrong:
            break
        wrong, _, done = compared(started, seed, blocks_of(BLOCK * TOGETHER, begin))
        number += done
    told(wrong[:5])
    return ended("soaked streams", number, len(wrong))


# ---- what is wrong by design


def differs(talk, dialogue, machine):
    """Whether a falsified dialogue gives another answer, or none."""
    try:
        it = dialogue(talk.opening.decode(), talk.how, machine)
        return [it.answer(command) for command in talk.commands] != talk.answers
    except (IndexError, KeyError, TypeError, AttributeError):
        return True


def unnoticed(seed, talks):
    """The falsified ones that no stream notices."""
    for kind in [*FALSIFIED_DIALOGUES, *FALSIFIED_MACHINES]:
        couple = (kind, Machine) if kind in FALSIFIED_DIALOGUES else (Dialogue, kind)
        for number in range(NOTICED):
            if number == len(talks):
                talks.append(Talk(f"{seed} {number}"))
            if not talks[number].refused and differs(talks[number], *couple):
                break
        else:
            yield f"{NOTICED} streams do not notice that {kind.__name__}"


def untimely(talk):
    """What is not noticed of programs that answer rightly, but at the wrong time; one that does it right is not to be blamed."""
    with tempfile.NamedTemporaryFile() as file:
        file.write(pickle.dumps([(command, answer.encode()) for command, answer in zip(talk.commands, talk.answers)]))
        file.flush()
        if blamed := run(talkers.words_for(talkers.right, file.name), talk, in_steps, random.Random(0)):
            yield f"a right program is blamed: {blamed}"
        for does in talkers.UNTIMELY:
            if not run(talkers.words_for(does, file.name), talk, in_steps, random.Random(0), SOON, PAUSE):
                yield f"nothing tells that a program answers {does.__name__.replace('_', ' ')}"


def selftest(seed):
    talks = [Worked()]
    wrong = ["the dialogue answers the worked stream in another way"] if differs(talks[0], Dialogue, Machine) else []
    wrong += [f"there is no {name}" for name in UNTOLD if name not in {kind.__name__ for kind in FALSIFIED}]
    wrong += unnoticed(seed, talks)
    wrong += untimely(next(talk for talk in talks if talk.end == "end" and len(talk.bytes) < 5000 and sum(map(bool, talk.answers)) > 9))
    told(wrong)
    falsified = len(FALSIFIED_DIALOGUES) + len(FALSIFIED_MACHINES)
    print(f"falsified dialogues and machines: {falsified}, noticed within {len(talks)} streams")
    print(f"untimely programs: {len(talkers.UNTIMELY)}; {len(wrong)} failed", flush=True)
    return wrong


def main():
    words = words_with_program(__doc__, COUNT, SEED)
    words.add_argument("--selftest", action="store_true", help="tries the dialogues and the draw alone")
    words.add_argument("--soak", type=float, metavar="SECONDS", help="draws for so long, and does nothing else")
    asked = words.parse_args()
    if asked.selftest:
        return 1 if selftest(SEED) else 0
    started = program(asked.program)
    if asked.soak:
        return soaked(started, asked.seed, asked.soak)
    wrong = selftest(asked.seed) + apart(started)
    return 1 if drawn(started, asked.count, asked.seed) + wrong else 0
