"""Drawn histories of a folder: nights that keep all versions or a few, puts, rollbacks, backups and restores, any of them killed, ended or
hindered, and two at once; strays, damaged files, records that are put aside, and copies. After each step all is as a model of the folder says.
"""

import os
import shutil
import signal
import subprocess
import time
from collections import Counter
from random import Random

from trials.folder.stopping import traced
from trials.folder.stopping.damaging import Damages
from trials.folder.stopping.judge import contents, current, demand, judged
from trials.folder.stopping.starts import COMMIT, WRONG
from trials.folder.stopping.stopped_shop import Change, base_tables, changes_in, write_changes
from trials.folder.stopping.traced import Place

LATEST, LONGEST = 0.3, 15
# The calls at which something happens to a command, and up to which of them.
CALLS = {"rename": 8, "link": 12, "unlink": 12, "unlinkat": 12, "mkdir": 10, "rmdir": 6, "symlink": 2, "openat": 120, "write": 25, "fsync": 40}
CALLS |= {"chmod": 15, "flock": 8}
HAPPENS = ("signal=KILL", "signal=KILL", "signal=KILL", "signal=TERM", "error=ENOSPC", "error=EIO")
KEEP = ("--keep", "2")


class Steps(Damages):
    def __init__(self, tool, start, folder, seed):
        super().__init__(tool, start, folder)
        self.source, self.took, self.batches, self.saved, self.number = Random(seed), Counter(), {}, None, 0

    def step(self):
        """One thing that happens, and what comes of it."""
        happens = (self.night, self.pruned, self.hindered, self.hindered, self.hindered_put, self.put_in, self.rollback, self.stray, self.damage)
        happens += (self.copy, self.copy_of_stopped, self.two_at_once, self.put_aside, self.backup, self.restore)
        happened = self.source.choice(happens)
        self.took[happened.__name__] += 1
        happened()
        self.judge()
        if self.source.random() < 1 / 5:
            self.judge_all_files()

    def put(self):
        """Puts a file of changes in, by hand."""
        self.hand.put(self.source.choice(["orders", "lines", "products"]))

    # ---- nights and rollbacks

    def night(self):
        self.put()
        self.went(0, "night", *COMMIT)

    def pruned(self):
        """A night that keeps a few versions."""
        self.put()
        keep, before = self.source.randint(1, 4), set(self.there)
        self.went(0, "night", *COMMIT, "--keep", str(keep))
        wanted = sorted(before | {self.current})[-keep:]
        demand(sorted(self.there) == wanted, f"versions {sorted(self.there)} are there, and not {wanted}")

    def older(self):
        """A version to go back to, which is not the current one, as the words of the command."""
        there = [str(number) for number in sorted(self.there) if number != self.current and number not in self.damaged]
        return ("rollback", self.source.choice(there)) if there else ("night", *COMMIT)

    def rollback(self):
        self.went(0, *self.older())

    def met(self, *words):
        """A command to which something happens at a drawn time or call. It says so, unless it was killed."""
        if self.source.random() < 1 / 3 or not traced.installed():
            command = self.tool.started(words[0], self.folder, *words[1:])
            time.sleep(self.source.uniform(0, LATEST))
            command.signal(signal.SIGKILL)
            return self.told_of(command.ended(), words)
        call = self.source.choice(list(CALLS))
        what, place = self.source.choice(HAPPENS), Place(call, self.source.randint(1, CALLS[call]))
        return self.told_of(traced.disturbed(self.tool, self.folder, words, place, what), words)

    def hindered(self):
        """A night or a rollback to which something happens; a preview turns nothing, and the next night finishes or undoes it."""
        self.put()
        self.met(*self.source.choice([("night", *COMMIT), ("night", *COMMIT, *KEEP), self.older()]))
        was = self.current
        demand(self.ran("night").status in (0, 3), "a preview after a stop ends otherwise")
        demand(self.current == was, "a preview turned")
        self.went(0, "night", *COMMIT)

    def put_aside(self):
        """A night that goes on without records that are wrong, also after one to which something happened."""
        self.hand.put("products", [(1, self.hand.row("products")), (-1, WRONG[0]), (1, WRONG[1])])
        words = ("night", *COMMIT, "--quarantine")
        if self.source.random() < 1 / 2:
            self.met(*words)
        self.went(0, *words)
        demand(len(self.aside()) == 2, f"what is put aside is {self.aside()}")
        if self.source.random() < 1 / 2:
            self.hand.given -= self.aside()
            shutil.rmtree(self.folder / "quarantine")

    # ---- puts

    def files(self):
        """Files of changes that are new, with their rows."""
        room, rows = self.beside("files"), Counter()
        shutil.rmtree(room, ignore_errors=True)
        room.mkdir()
        for view in self.source.sample(["orders", "orders.1", "lines", "products"], self.source.randint(1, 3)):
            given = [(1, self.hand.row(view.removesuffix(".1"))) for _ in range(2)]
            write_changes(room / f"{view}.csv", given, view.removesuffix(".1"))
            rows.update(Change(view.removesuffix(".1"), *row) for row in given)
        return rows, {path.name: path.read_bytes() for path in room.iterdir()}

    def beside(self, what):
        return self.folder.with_name(f"{self.folder.name}.{what}")

    def batch(self):
        """A batch, which is new or was put at some time: its name, its rows, and the words by which it is put."""
        if not self.batches or self.source.random() < 2 / 3:
            self.batches[f"batch-{len(self.batches)}"] = self.files()
        name = self.source.choice([list(self.batches)[-1], *self.batches])
        rows, contents_of = self.batches[name]
        room = self.beside(f"put.{name}")
        room.mkdir(exist_ok=True)
        for file, content in contents_of.items():
            (room / file).write_bytes(content)
        return name, rows, ("put", *(str(room / file) for file in contents_of), "--batch", name)

    def put_batch(self, rows, words, is_put):
        """Puts a batch, which is taken where it was not put before."""
        told = self.went(0, *words)
        demand(("was put before" in told.printed) == is_put, f"{words}, put before: {is_put}: {told.printed}")
        self.hand.given += rows if not is_put else Counter()

    def put_in(self):
        """A batch comes in once, and again after a rollback to before it; files without a batch come in."""
        name, rows, words = self.batch()
        self.put_batch(rows, words, self.is_put(name))
        self.put_batch(rows, words, True)
        rows, contents_of = self.files()
        self.went(0, "put", *(str(self.beside("files") / file) for file in contents_of))
        self.hand.given += rows

    def hindered_put(self):
        """A put to which something happens, and perhaps a night between: put again all of it is there once."""
        name, rows, words = self.batch()
        is_put = self.is_put(name)
        self.met(*words)
        if self.source.random() < 1 / 2:
            self.went(0, "night", *COMMIT)
        self.ran(*words)
        # What the second one said shows in what is there.
        self.hand.given += rows if not is_put else Counter()

    # ---- two at once

    def two_at_once(self):
        """Two commands that are begun together: each goes through, or ends for the other and has changed nothing."""
        self.put()
        name, rows, batch = self.batch()
        is_put, made = self.is_put(name), self.beside("at_once")
        nights = [("night", *COMMIT), ("night", *COMMIT, *KEEP), ("night",), self.older()]
        pair = [self.source.choice(nights), self.source.choice([*nights, batch, batch, ("backup", str(made)), ("verify",)])]
        pair = [batch, batch] if self.source.random() < 1 / 6 else pair
        commands = []
        for words in self.source.sample(pair, 2):
            commands.append((words, self.tool.started(words[0], self.folder, *words[1:])))
            time.sleep(self.source.choice([0, 0, self.source.uniform(0, LATEST / 2)]))
        ended = [(words, command.ended()) for words, command in commands]
        keep = ("--keep", KEEP[1]) if any("--keep" in words for words in pair) else ()
        for words, told in ended:
            self.told_of(told, (*words, *keep))
            allowed = {"rollback": (0, 2, 6), "verify": (0, 1)}.get(words[0], (0, 6))
            demand(told.status in allowed, f"{words} beside another ends with {told.status}: {told.told}")
        self.hand.given += rows if self.took_batch(name, batch, is_put, ended) else Counter()
        if made.exists():
            self.judge_restored(made)
            shutil.rmtree(made)
        self.went(0, "night", *COMMIT)

    def took_batch(self, name, batch, is_put, ended):
        """Whether a batch was taken by one of two commands. One that was put before is taken again where the other one first went back to
        a version that it did not lead to."""
        through = [(words, told) for words, told in ended if told.status == 0]
        puts = [told for words, told in through if words is batch]
        taken = [told for told in puts if "was put before" not in told.printed]
        went_back = any(words[0] == "rollback" and name not in self.known[int(words[1])].batches for words, _ in through)
        demand(len(taken) == int(bool(puts) and not is_put) or went_back and len(taken) == 1, f"{batch}, put before: {is_put}: {ended}")
        return bool(taken)

    # ---- copies

    def copied(self):
        other = self.beside("copy")
        subprocess.run(["cp", "-a", self.folder, other], check=True)
        return other

    def waits_again(self):
        """Whether changes wait that a version has carried out, as a batch does that was put in again after a rollback."""
        carried = {path.read_bytes() for number in self.there for path in self.folder.glob(f"versions/{number}/changes/*.csv")}
        return any(path.read_bytes() in carried for path in self.folder.glob("changes/*.csv"))

    def copy(self):
        """A copy goes its own way, and the folder does not notice. Whose changes are that were carried out has to be said."""
        was, other = contents(self.folder), self.copied()
        told = self.tool.run("night", other, *COMMIT)
        if self.waits_again():
            demand(told.status == 3 and "--adopt" in told.told, f"a night of a copy that may double changes: {told.status}, {told.told}")
            told = self.tool.run("night", other, *COMMIT, "--adopt")
        demand(told.status == 0 and "is a copy of another folder" in told.told, f"a night of a copy: {told.status}, {told.told}")
        demand(contents(self.folder) == was, "a night of a copy changed the folder")
        demand(self.tool.run("verify", other, str(current(other))).status == 0, "a copy's version does not vouch for itself")
        subprocess.run(["rm", "-rf", other], check=True)

    def copy_of_stopped(self):
        """A copy beside a night that was stopped has that one's changes by a word alone, and comes to the same tables."""
        self.put()
        self.met("night", *COMMIT)
        other = self.copied()
        self.went(0, "night", *COMMIT)
        told = self.tool.run("night", other, *COMMIT)
        demand(told.status == 0 or told.status == 3 and "--adopt" in told.told, f"a night of a copy of a stopped one: {told.status}, {told.told}")
        told = self.tool.run("night", other, *COMMIT, "--adopt")
        demand(told.status == 0, f"a night that adopts: {told.status}, {told.told}")
        demand(base_tables(other / "current") == self.known[self.current].tables, "a copy that adopts has other tables")
        subprocess.run(["rm", "-rf", other], check=True)

    # ---- backups

    def backup(self):
        """A backup is there whole or not at all, whatever happens. One that is there is kept for a restore."""
        made, older = self.beside(f"backup{self.number}"), self.older()
        self.number += 1
        kind = self.source.choice([(), (), ("--all",), ("--version", older[1])] if older[0] == "rollback" else [(), ("--all",)])
        is_damaged, words = kind == ("--all",) and self.damaged & self.there, ("backup", str(made), *kind)
        if self.source.random() < 1 / 2:
            self.met(*words)
        if not made.exists():
            self.went(3 if is_damaged else 0, *words)
        if not made.exists():
            return
        if kind[:1] == ("--version",):
            return self.judge_alone(made, int(kind[1]))
        self.judge_restored(made)
        if self.saved:
            shutil.rmtree(self.saved[0])
        self.saved = made, self.remembered(), set(self.there) if kind else {self.current}, changes_in(self.folder / "changes")

    def restored(self, made):
        """A folder that is made of a backup, also after a restore to which something happened."""
        again = self.beside("again")
        if self.source.random() < 1 / 2:
            traced.disturbed(self.tool, made, ("restore", str(again)), Place("openat", self.source.randint(1, 120)), "signal=KILL")
        if not again.exists():
            told = self.tool.run("restore", made, str(again))
            demand(told.status == 0, f"a restore ends with {told.status}: {told.told}")
        return again

    def judge_alone(self, made, number):
        """A backup of an older version has its tables, and no changes."""
        again = self.restored(made)
        demand(base_tables(again / "current") == self.known[number].tables, f"a backup of version {number} has other tables")
        demand(not changes_in(again / "changes"), f"a backup of version {number} has changes")
        shutil.rmtree(again)
        shutil.rmtree(made)

    def judge_restored(self, made):
        """What is made of a backup has whole versions, and goes on."""
        again = self.restored(made)
        told = self.tool.run("verify", again)
        demand(told.status == 0, f"what was restored is not whole: {told.printed}")
        told = self.tool.run("night", again, *COMMIT)
        demand(told.status == 0, f"a night of what was restored: {told.status}, {told.told}")
        shutil.rmtree(again)

    def restore(self):
        """The last backup is gone back to, and the history goes on from it."""
        if not self.saved:
            return
        made, remembered, there, waiting = self.saved
        again = self.restored(made)
        shutil.rmtree(self.folder)
        # A folder may be moved as it likes.
        os.rename(again, self.folder)
        self.go_back(remembered, there)
        demand(changes_in(self.folder / "changes") == waiting, "other changes wait than those of the backup")


def drawn(tool, item, folder):
    """How often each step was gone for so many seconds, and what does not hold, or None."""
    start, seed, seconds = item
    until, took, number = time.monotonic() + seconds, Counter(), 0
    while time.monotonic() < until:
        room = folder.with_name(f"{folder.name}.{number}")
        room.mkdir()
        went, wrong = judged(f"history {seed}, {number}", room, lambda: history(tool, start, room / "folder", f"{seed} {number}", until))
        took, number = took + (went or Counter()), number + 1
        if wrong:
            return took, wrong
    return took, None


def history(tool, start, folder, seed, until):
    """Goes through one history, of so many steps at most. Answers how often each was gone."""
    found = Steps(tool, start, folder, seed)
    while found.took.total() < LONGEST and time.monotonic() < until:
        try:
            found.step()
        except Exception as cause:
            cause.args = (f"in step {found.took.total()}, {', '.join(found.took)}: {cause}",)
            raise
    return found.took
