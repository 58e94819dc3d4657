"""Runs of `whview live` that do not open a warehouse, and runs whose output nobody takes or whose input cannot be read."""

import contextlib
import os
import signal
import subprocess
import tempfile
from pathlib import Path

from trials.ended import ended, told
from trials.program.talkers import SECONDS, Talker

CATALOGUE = b'@catalogue\n[[view]]\nname = "a"\ncolumns = ["x"]\n[[view]]\nname = "v"\nover = ["a"]\nkeep = [["x", ["+", "a.x", 1]]]\n'
DATA = b"@data a\nx\n1\n"
FINE = CATALOGUE + DATA + b"@strategy\ninst v\n"
COMMANDS, ANSWER, UNNAMED = b"open 0\nclose 0\n", "session 0\nclosed\n", "error: `live` needs `--input`\n"
OPENINGS = [
    (FINE, ANSWER, 0),
    (b"", "fault part catalogue\n", 3),
    (b"no bundle\n", "fault part text\n", 3),
    (b"\x00\xff\n", "fault part text\n", 3),
    (b"@catalogue\n[[", "fault toml\n", 3),
    (b'@catalogue\n[[view]]\nname = "a"\n', "fault key columns\n", 3),
    (CATALOGUE + CATALOGUE, "fault part catalogue\n", 3),
    (CATALOGUE + b"@night\n", "fault part night\n", 3),
    (CATALOGUE + b"@zz\n" + DATA, "fault part zz\n", 3),
    (CATALOGUE + DATA + b"@changes a\n#,x\n", "fault part changes\n", 3),
    (CATALOGUE + b"@schedule\ndesks 1\nworkers 1\nkeys 1\n", "fault part schedule\n", 3),
    (CATALOGUE + b"@data v\nx\n1\n", "fault part data\n", 3),
    (CATALOGUE + b"@data a\ny\n1\n", "fault header\n", 3),
    (CATALOGUE + DATA + b"1,2\n", "fault csv 3\n", 3),
    (CATALOGUE + DATA + b"x\n", "fault number 3\n", 3),
    (CATALOGUE + DATA + b"@strategy\ninst a\ninst\n", "fault strategy 2\n", 3),
    (CATALOGUE + b"@data a\nx\n9223372036854775807\n", "refused range v\n", 1),
    (CATALOGUE + b"@data a\n#,x\n72057594037927937,1\n", "refused large v\n", 1),
]
# Words behind `live`, where `{file}` is a good opening, and what is printed: None is what the parser of words says, which is not fixed.
WORDS = [
    ("--input {file}.none", "fault read\n", 3),
    (f"--input {{file}} --most {len(FINE)}", ANSWER, 0),
    (f"--input {{file}} --most {len(FINE) - 1}", "fault toolong\n", 3),
    ("", UNNAMED, 2),
    ("--workers 2", UNNAMED, 2),
]
NUMBERS = "--workers 0", "--workers 17", "--workers x", "--desks 0", "--desks 17", "--versions 1", "--versions 5", "--page-keys 0"
OTHERS = "--page-keys 257", "--most 0", "--readers 1", "--print tables", "--input {file}", "--workers 2 --workers 2"
WORDS += [(words, None, 2) for words in ("--input", "{file}", "--zz", *(f"--input {{file}} {more}" for more in (*NUMBERS, *OTHERS)))]


def cases():
    """Openings, words behind `live`, and the answers: their texts, where they are fixed, and statuses."""
    for opening, text, status in OPENINGS:
        yield opening, "--input {file}", text, status
    for words, text, status in WORDS:
        yield FINE, words, text, status


def mistake(started, file, opening, words, text, status):
    """What is answered in another way, or None."""
    file.write_bytes(opening)
    ran = subprocess.run([started, "live", *words.format(file=file).split()], input=COMMANDS, capture_output=True, timeout=SECONDS)
    is_right = ran.stdout.decode() == text if text else ran.stdout
    if is_right and (ran.returncode, ran.stderr) == (status, b""):
        return None
    said = f"live {words} answered {ran.stdout}, {ran.stderr} and status {ran.returncode}, where {text!r} and {status} are wanted"
    return f"{said}, for\n{opening.decode(errors='replace')}"


# ---- an output that nobody takes, and an input that cannot be read


def unheard(words):
    """The status where the output is closed, and the input stays open."""
    with Talker(words) as talker:
        talker.process.stdout.close()
        talker.process.stdin.write(COMMANDS * 100)
        with contextlib.suppress(subprocess.TimeoutExpired):
            return talker.process.wait(talker.patience)
    return "none, since it does not end"


def into_a_full_disk(words, given):
    with open("/dev/full", "wb") as full:
        return subprocess.run(words, input=given, stdout=full, timeout=SECONDS).returncode


def from_a_folder(words):
    """What is printed, and the status, where the commands cannot be read."""
    folder = os.open("/", os.O_RDONLY)
    ran = subprocess.run(words, stdin=folder, capture_output=True, timeout=SECONDS)
    os.close(folder)
    return ran.stdout, ran.stderr, ran.returncode


def wrong_for(where, got, *wanted):
    return None if got in wanted else f"{where}, {got} comes, and one of {wanted} has to"


def untaken(started, file):
    """What is wrong with such runs."""
    file.write_bytes(FINE)
    words = [started, "live", "--input", file]
    yield wrong_for("where nobody takes the output", unheard(words), 5, -signal.SIGPIPE)
    yield wrong_for("where the disk is full", into_a_full_disk(words, COMMANDS), 5)
    yield wrong_for("where nothing is printed into a full disk", into_a_full_disk(words, b"\nquit\n"), 0)
    yield wrong_for("where the commands cannot be read", from_a_folder(words), (b"fault read\n", b"", 3))
    ran = subprocess.run([started], input=b"live\n" + COMMANDS, capture_output=True, timeout=SECONDS)
    yield wrong_for("where live stands on the first line", (ran.stdout.decode(), ran.returncode), (UNNAMED, 2))


def apart(started):
    """What is wrong with all of them."""
    with tempfile.TemporaryDirectory() as name:
        file = Path(name) / "opening"
        found = [*(mistake(started, file, *case) for case in cases()), *untaken(started, file)]
    wrong = list(filter(None, found))
    told(wrong)
    ended("runs apart", len(found), len(wrong))
    return wrong
