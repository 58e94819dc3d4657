"""Nights of a served folder: who asks at the folder's socket has the night computed by a program that stays.

The program is at the current version, or nights do without it. It keeps a night once `current` leads to the version that was made of it. Of
a night whose end is not told it is looked where `current` leads, and whenever that is another version the program begins anew with it.
"""

from __future__ import annotations

import time
from collections.abc import Callable
from pathlib import Path
from threading import Event, Lock, Thread

from ..finding import Failure, of_system
from ..program import Chosen
from .at_socket import Listening, Message, Parted, Wire, listening, told_of
from .computing import Computing
from .declared.said import is_taken
from .held import Held
from .memory import Key, current_key, key
from .places import Unkept
from .talk import Lost
from .versions import place

# After how many seconds it is looked for another version, and for how long no program is begun after one was lost.
LOOK, PAUSE = 0.05, 10.0


class NightServer:
    """Has a program compute the nights of a folder, one after another."""

    def __init__(self, folder: Path, program: Callable[[], Chosen], tell: Callable[[str], None]) -> None:
        self.folder, self.program, self.tell, self.lock, self.over = folder, program, tell, Lock(), Event()
        self.listening: Listening | None = None
        self.computing: Computing | None = None
        # The version that the program is at, and its file; a version that no program takes; and until when none is begun.
        self.at: Key | None = None
        self.known: list[int] = []
        self.unfit: Key | None = None
        self.until = 0.0
        # How many nights were computed, and how many programs were begun.
        self.nights, self.begun = 0, 0

    def start(self) -> None:
        """Begins to answer, where nobody else does in this folder."""
        if is_taken(self.folder):
            return
        try:
            self.listening = listening(self.folder)
        except OSError as error:
            self.tell(f"nights of {self.folder} begin programs of their own: there can be no socket in it: {error.strerror}")
            return
        if self.listening is None:
            self.tell(f"nights of {self.folder} go to another process that serves it")
            return
        Thread(target=self.follow, name="nights", daemon=True).start()
        Thread(target=self.receive, args=(self.listening,), name="nights", daemon=True).start()

    def close(self) -> None:
        """Answers no more, and ends the program."""
        self.over.set()
        if self.listening:
            self.listening.close()
        if self.computing:
            self.computing.end()

    # ---- the program

    def follow(self) -> None:
        """Has the program be at the current version until the server ends. While a night is under way nothing is done."""
        while not self.over.wait(LOOK):
            if self.is_behind() and self.lock.acquire(blocking=False):
                try:
                    self.step()
                finally:
                    self.lock.release()

    def is_behind(self) -> bool:
        """Whether a program is wanted that is at the current version, or the one that stays has ended."""
        computing = self.computing
        if computing and computing.talk.has_ended:
            return True
        try:
            return time.monotonic() >= self.until and current_key(self.folder) not in (self.at, self.unfit, None)
        except (Failure, OSError):
            # The folder is being moved or is damaged, which its nights tell.
            return False

    def step(self) -> None:
        """Has another program begin, where one is wanted."""
        try:
            if self.computing and self.computing.talk.has_ended:
                raise Lost("the program has ended")
            if self.is_behind():
                self.drop()
                with Held(self.folder) as held:
                    self.begin(held)
        except Lost as lost:
            self.lose(str(lost))
        except (Failure, OSError):
            self.drop()
        except Exception as fault:
            self.lose(f"this is a fault of the tool itself ({fault!r})")

    def begin(self, held: Held) -> None:
        """Has a program begin with a version, which may be none that one takes."""
        try:
            program = self.program().path
            self.known = told_of(program)
            self.computing = Computing(program, held.path)
        except (Unkept, Failure) as unfit:
            self.unfit = key(held)
            why = unfit.lines[0] if isinstance(unfit, Failure) else unfit
            self.tell(f"the night after version {held.number} begins a program of its own: {why}")
            return
        except OSError as error:
            raise Lost(of_system(error)) from error
        self.begun += 1
        self.at, self.unfit = key(held), None

    def drop(self) -> None:
        """Ends the program, if there is one."""
        self.at = None
        if self.computing:
            self.computing.end()
            self.computing = None

    def lose(self, why: str) -> None:
        """Lets a program go that was lost, and none begin for a while."""
        self.drop()
        self.until = time.monotonic() + PAUSE
        if not self.over.is_set():
            self.tell(f"nights of {self.folder} begin programs of their own: {why}; another one stays in {PAUSE:g} seconds")

    # ---- nights

    def receive(self, listening: Listening) -> None:
        """Answers who comes, until the server ends."""
        while not self.over.is_set():
            try:
                wire = listening.come()
            except OSError:
                # There may be no handle left for the moment.
                self.over.wait(LOOK)
                continue
            Thread(target=self.answer, args=(wire,), name="night", daemon=True).start()

    def answer(self, wire: Wire) -> None:
        """Answers who comes, where nobody else is answered and the program is there. Who is not answered does without."""
        try:
            asked = wire.receive() if wire.is_own() else None
            if asked and self.lock.acquire(timeout=LOOK):
                try:
                    self.night(wire, asked)
                finally:
                    self.lock.release()
        except (Parted, OSError):
            pass
        finally:
            wire.close()

    def night(self, wire: Wire, asked: Message) -> None:
        """Has a night computed, and waits for what becomes of it."""
        computing = self.computing
        if computing is None or self.at is None or asked.told.get("program") != self.known:
            return
        number, version = self.at
        if asked.told.get("version") != [number, *version]:
            return
        try:
            self.carry(wire, computing, asked.content)
        except Parted:
            raise
        except (Lost, Unkept, Failure, OSError) as cause:
            self.lose(str(cause))
        except Exception as fault:
            self.lose(f"this is a fault of the tool itself ({fault!r})")

    def carry(self, wire: Wire, computing: Computing, parts: bytes) -> None:
        """Has a night computed, and keeps it or gives it up."""
        began, rows = time.monotonic(), computing.rows
        changes = computing.night(parts, wire.beat)
        if changes is None:
            return
        self.nights += 1
        try:
            wire.send({"seconds": time.monotonic() - began, "rows": rows}, changes)
            made = wire.receive(None).told.get("made")
        except Parted:
            made = None
        self.end(computing, made)
        wire.send({"is_kept": made is not None})

    def end(self, computing: Computing, made: object) -> None:
        """Keeps a night of which it is told which version was made, if `current` leads there; any other one is given up."""
        found = current_key(self.folder) if made is not None else None
        if found is None or found[0] != made or found == self.at:
            computing.give_up()
            return
        computing.commit(place(self.folder, found[0]))
        self.at = found
