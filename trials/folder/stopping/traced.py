"""Nights that strace follows: the calls by which they change a folder, and what is done to them at one of these."""

import json
import os
import re
import select
import shutil
import signal
import subprocess
import sys
import time
from collections import Counter
from itertools import count
from pathlib import Path
from typing import NamedTuple

CALLS = (
    "openat open creat write pwrite64 writev rename renameat renameat2 link linkat unlink unlinkat mkdir mkdirat rmdir symlink symlinkat"
    " fsync fdatasync chmod fchmod fchmodat ftruncate truncate flock fcntl copy_file_range sendfile utimensat utime utimes"
).split()
OPENS, WRITES = ("openat", "open", "creat"), ("O_WRONLY", "O_RDWR", "O_CREAT")
IDLE = ("fsync", "fdatasync", "fcntl", "flock")
LINE, HERE = re.compile(r"^([a-z0-9_]+)\((.*)$"), re.compile(r"AT_FDCWD<[^>]*>, ")
LONGEST = 600
TIME = "millisecond"
READY = Path(__file__).with_name("ready.py")


class Place(NamedTuple):
    """A call of a night: its name, which of the calls of this name it is, and what it says. Without strace a time."""

    call: str
    nth: int
    text: str = ""

    def __str__(self):
        return f"{self.call} {self.nth} ({self.text})"


class Ended(NamedTuple):
    """How a night ended: its status, below 0 where a signal ended it, and what it said."""

    status: int
    printed: str
    told: str


def installed():
    return shutil.which("strace") is not None


class Tool:
    """A whview folder, with the program that it hands bundles to."""

    loaded, numbers = {}, count()

    def __init__(self, script, program):
        self.script, self.program = Path(script), program

    def ready(self):
        """The process of ours that has the tool's modules loaded."""
        key = os.getpid(), self.script
        if key not in self.loaded:
            words = [sys.executable, "-S", "-E", READY, self.script]
            # The order of everything is the same each time.
            known = {"PATH": os.environ["PATH"], "PYTHONHASHSEED": "0", "LC_ALL": "C.UTF-8"}
            self.loaded[key] = subprocess.Popen(words, stdin=subprocess.PIPE, stdout=subprocess.PIPE, text=True, env=known)
        return self.loaded[key]

    def started(self, command, folder, *options, **how):
        """A command that has begun, or that stands before its beginning; of the user who is named by a number, where one is."""
        return Command(self, [command, str(folder), *options, "--program", str(self.program)], **how)

    def run(self, command, folder, *options, **how):
        """A command from its beginning to its end."""
        return self.started(command, folder, *options, **how).ended()


class Command:
    def __init__(self, tool, words, stopped=False, user=None):
        name = f"said.{os.getpid()}.{next(tool.numbers)}"
        self.process = tool.ready()
        self.printed, self.told = (tool.script.with_name(f"{name}.{kind}") for kind in ("printed", "told"))
        asked = {"words": words, "printed": str(self.printed), "told": str(self.told), "stopped": stopped, "user": user}
        self.pid = self.answer(asked)
        self.handle = os.pidfd_open(self.pid)

    def answer(self, asked):
        self.process.stdin.write(f"{json.dumps(asked)}\n")
        self.process.stdin.flush()
        return int(self.process.stdout.readline())

    def signal(self, number, group=False):
        (os.killpg if group else os.kill)(self.pid, number)

    def has_ended(self, seconds=0):
        """Whether it has ended, within some seconds."""
        return bool(select.select([self.handle], [], [], seconds)[0])

    def is_held(self):
        """Whether it stands still, after waiting for that or its end."""
        return bool(self.answer({"held": self.pid}))

    def ended(self):
        """Waits for its end."""
        late = "" if self.has_ended(LONGEST) else f"\nTraceback: it had not ended after {LONGEST} s"
        if late:
            self.signal(signal.SIGKILL)
        os.close(self.handle)
        status = self.answer({"ended": self.pid})
        # One that a signal ended as it began has written nothing.
        said = [path.read_text(errors="replace") if path.exists() else "" for path in (self.printed, self.told)]
        self.printed.unlink(missing_ok=True)
        self.told.unlink(missing_ok=True)
        return Ended(status, said[0], said[1] + late)


def followed(command, words):
    """strace, which follows a command that stands before its beginning, and lets it begin."""
    command.is_held()
    strace = subprocess.Popen(["strace", "-p", str(command.pid), *words], stderr=subprocess.PIPE, text=True)
    strace.stderr.readline()
    command.signal(signal.SIGCONT)
    return strace


def finished(strace):
    strace.communicate()


def places(tool, folder, words, trace):
    """The calls by which a night changes the folder, in their order, and how it ended; without strace the milliseconds that it took."""
    if not installed():
        began = time.monotonic()
        told = tool.run(words[0], folder, *words[1:])
        return [Place(TIME, number) for number in range(int(1000 * (time.monotonic() - began)))], told
    command = tool.started(words[0], folder, *words[1:], stopped=True)
    strace = followed(command, ["-y", "-s", "0", "-o", trace, "-e", f"trace={known_calls()}"])
    told = command.ended()
    finished(strace)
    return calls_in(Path(trace).read_text(errors="replace"), str(folder)), told


def calls_in(trace, folder):
    """The calls of a trace that change something in a folder."""
    counts, found = Counter(), []
    for line in trace.splitlines():
        call = LINE.match(line)
        if call:
            counts[call[1]] += 1
            if changes_something(call[1], line, folder):
                found.append(Place(call[1], counts[call[1]], HERE.sub("", line.replace(folder, "")).strip()))
    return found


def states(found):
    """The places at which a folder is left otherwise than at the place before."""
    changes = [place.call not in IDLE and " = -1 " not in place.text for place in found]
    return [place for place, changed in zip(found, [True, *changes]) if changed]


def known_calls():
    """The calls, of which those that this machine does not know are passed over."""
    return ",".join(f"?{call}" for call in CALLS)


def changes_something(call, line, folder):
    """Whether a call can change something in the folder, or holds something of it."""
    if folder not in line or " = -1 " in line and call in OPENS:
        return False
    return "F_SETLEASE" in line if call == "fcntl" else call not in OPENS or any(way in line for way in WRITES)


def disturbed(tool, folder, words, place, what):
    """A night at one place of which something is done: a signal comes, or the call fails."""
    if place.call == TIME:
        command = tool.started(words[0], folder, *words[1:])
        time.sleep(place.nth / 1000)
        command.signal(getattr(signal, f"SIG{what.removeprefix('signal=')}"))
        return command.ended()
    command, strace = at_place(tool, folder, words, place, what)
    told = command.ended()
    finished(strace)
    return told


def at_place(tool, folder, words, place, what):
    """A night to which strace does something at a place."""
    command = tool.started(words[0], folder, *words[1:], stopped=True)
    inject = ["-e", f"trace={place.call}", "-e", f"inject={place.call}:{what}:when={place.nth}"]
    return command, followed(command, ["-o", "/dev/null", *inject])


def held_up(tool, folder, words, place, meanwhile, kill):
    """A night that is held up after one place while something else is done, and then goes on or is killed."""
    if place.call == TIME:
        command, strace = tool.started(words[0], folder, *words[1:]), None
        time.sleep(place.nth / 1000)
        command.signal(signal.SIGSTOP)
    else:
        command, strace = at_place(tool, folder, words, place, "signal=STOP")
    is_held = command.is_held()
    try:
        if is_held:
            meanwhile()
    finally:
        if is_held:
            command.signal(signal.SIGKILL if kill else signal.SIGCONT)
        told = command.ended()
    if strace:
        finished(strace)
    return told
