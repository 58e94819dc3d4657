"""Cases: words and an input, and what the program has to answer. A module for each group of them."""

import contextlib
import os
import resource
import select
import signal
import subprocess
from dataclasses import dataclass
from tempfile import TemporaryDirectory, TemporaryFile
from typing import Callable, Optional

SECONDS = 60


@dataclass(frozen=True)
class Case:
    """Words, the input, or what makes it, and the answer: its text, where it is known, or how that begins, and its status."""

    words: list
    given: bytes | Callable
    text: Optional[str]
    status: int
    what: str = ""
    is_beginning: bool = False

    def ran(self, started):
        given = self.given() if callable(self.given) else self.given
        return subprocess.run([started, *self.words], input=given, capture_output=True, timeout=SECONDS)

    def is_right(self, text):
        return self.text is None or (text.startswith(self.text) if self.is_beginning else text == self.text)

    def mistake(self, started):
        """The answer, where it is not the one that is wanted: there has to be one, and nothing on standard error."""
        ran = self.ran(started)
        text = ran.stdout.decode(errors="replace")
        if ran.returncode == self.status and text and not ran.stderr and self.is_right(text):
            return None
        said = f"{text[:300]}{ran.stderr.decode(errors='replace')[:300]}status {ran.returncode}"
        return f"{self.what} {self.words}: {said}, where {str(self.text)[:300]}status {self.status} is wanted"


class BesideAFile(Case):
    """A case in whose words `{room}` is a folder that has one file, `night.txt`."""

    file = b""

    def ran(self, started):
        with TemporaryDirectory() as room:
            with open(f"{room}/night.txt", "wb") as file:
                file.write(self.file)
            words = [word.format(room=room) for word in self.words]
            return subprocess.run([started, *words], input=self.given, capture_output=True, timeout=SECONDS)


class AByteAtATime(Case):
    """A case whose input comes a byte at a time."""

    def between(self, child):
        """What is done between two bytes."""

    def ran(self, started):
        kept = {"stdin": subprocess.PIPE, "stdout": subprocess.PIPE, "stderr": subprocess.PIPE, "bufsize": 0}
        with subprocess.Popen([started, *self.words], **kept) as child:
            # A program that ends early is judged by its answer.
            with contextlib.suppress(BrokenPipeError):
                for byte in self.given:
                    child.stdin.write(bytes([byte]))
                    self.between(child)
            child.stdin.close()
            text, said = child.stdout.read(), child.stderr.read()
        return subprocess.CompletedProcess([], child.returncode, text, said)


class BetweenSignals(AByteAtATime):
    """The same where the program is stopped and goes on, and gets signals that mean nothing to it, between two bytes."""

    def between(self, child):
        for sent in (signal.SIGSTOP, signal.SIGCONT, signal.SIGWINCH, signal.SIGURG, signal.SIGCHLD):
            child.send_signal(sent)


class FromAFolder(Case):
    """A case whose standard input is a folder, which cannot be read."""

    def ran(self, started):
        folder = os.open("/", os.O_RDONLY)
        ran = subprocess.run([started, *self.words], stdin=folder, capture_output=True, timeout=SECONDS)
        os.close(folder)
        return ran


class Endless(Case):
    def ran(self, started):
        with subprocess.Popen(["yes", ""], stdout=subprocess.PIPE) as endless:
            ran = subprocess.run([started, *self.words], stdin=endless.stdout, capture_output=True, timeout=SECONDS)
            endless.kill()
        return ran


class WithoutInput(Case):
    """A case whose standard input is closed."""

    def ran(self, started):
        return subprocess.run([started, *self.words], stdin=None, capture_output=True, timeout=SECONDS, preexec_fn=lambda: os.close(0))


class Unwritten(Case):
    """A case whose output cannot be written: its status is known, and nothing is on standard error."""

    def ended(self, started, out, before=None):
        """How a run ends whose standard output is this."""
        given = {"input": self.given, "stdout": out, "stderr": subprocess.PIPE, "timeout": SECONDS, "preexec_fn": before}
        ran = subprocess.run([started, *self.words], **given)
        right = (ran.returncode, ran.stderr) == (self.status, b"")
        return None if right else f"{self.what} {self.words}: status {ran.returncode} {ran.stderr.decode(errors='replace')}"


class TakenByNobody(Unwritten):
    def mistake(self, started):
        with open("/dev/full", "wb") as full:
            return self.ended(started, full)


class WithoutOutput(Unwritten):
    """A case whose standard output is closed."""

    def mistake(self, started):
        return self.ended(started, None, lambda: os.close(1))


def wait_until_unheard(writing):
    """Waits until nobody can read the pipe: a process that another thread is just starting has its end for a moment."""
    poll = select.poll()
    poll.register(writing, 0)
    while not any(event & select.POLLERR for _, event in poll.poll(100)):
        pass


class Unheard(Unwritten):
    """A case whose output goes into a pipe of which nobody reads."""

    def mistake(self, started):
        reading, writing = os.pipe()
        os.close(reading)
        wait_until_unheard(writing)
        with open(writing, "wb") as pipe:
            return self.ended(started, pipe)


class OnAShortQuota(Unwritten):
    """A case whose output goes to a file of a few bytes at most, by a limit whose signal is ignored: they are a beginning of the text."""

    room = 8

    def limit(self):
        signal.signal(signal.SIGXFSZ, signal.SIG_IGN)
        resource.setrlimit(resource.RLIMIT_FSIZE, (self.room, self.room))

    def mistake(self, started):
        with TemporaryFile() as file:
            wrong = self.ended(started, file, self.limit)
            file.seek(0)
            written = file.read().decode()
        return wrong or (None if written == self.text[: self.room] else f"{self.what} {self.words}: wrote {written!r}")
