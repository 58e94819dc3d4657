"""Nights of served folders, as the process computes them that serves the folder: they have to be those of a folder that is not served.

Drawn nights are carried out in a folder that is served and in a copy that is not. Some are refused, by the tool and by the program. Both say
the same, but for the time, and both have the same tables, changes and plans. The program is killed between nights, and another one begins.

Then nights are killed at drawn places of all calls by which they change their folder, and calls fail; `all` goes through every place. After
each the folder is judged as by folder/stops, and the next nights have to be computed by the process again: folder and program are at one
version. Servers that are spoilt have to be noticed. Last come two clients at once, and servers that are killed or stopped amid a night.
"""

import os
import random
import re
import shutil
import signal
import subprocess
import sys
import tempfile
import time
from collections import Counter
from contextlib import contextmanager
from functools import partial
from itertools import count
from multiprocessing import Pool
from pathlib import Path
from unittest import mock

from trials.drawn.shop import BASES, VIEWS, Shop, lay, put_changes, table
from trials.folder.stopping import traced
from trials.folder.stopping.at_a_place import CAN_FAIL, ERRORS, HAPPENS, Room, Trial, keeping
from trials.folder.stopping.copies import copied
from trials.folder.stopping.judge import Wrong, demand, judged
from trials.folder.stopping.starts import COMMIT, Starts
from trials.folder.stops import in_memory, places
from trials.servers.installed import install
from upkeep.words import ROOT, program, words_with_program
from whview.folder import at_socket, night_server
from whview.folder.at_socket import connected
from whview.folder.computing import told_after
from whview.folder.memory import current_key
from whview.folder.night_server import NightServer
from whview.program import Chosen

COUNT, SEED, NIGHTS, SOON, LANES, PATIENCE = 40, 20261201, 12, 60, 2, 1.0
TIME = re.compile(r"^time: .*$", re.MULTILINE)
# What kills a night's process, and what each fifth trial has happen instead.
KILLED, OTHERS = "killed", (*ERRORS, "INT", "TERM")
# A row that is not there, one whose price leaves the range of its products, and one with a fault.
REFUSED = [(-1, ("no such", 1)), (1, ("product 1", 2**63 - 1)), (1, ("wrong", "1.5"))]


@contextmanager
def serving(built, folder, kind=NightServer):
    """A folder whose nights are computed by this process."""
    told = []
    server = kind(folder, lambda: Chosen(built, "named"), told.append)
    server.told = told
    server.start()
    try:
        yield server
    finally:
        server.close()


def await_version(server):
    """Waits until the program is at the folder's version."""
    due = time.monotonic() + SOON
    while server.at is None or server.at != current_key(server.folder):
        demand(time.monotonic() < due, f"the program does not come to the folder's version: {server.told}")
        time.sleep(0.01)


# ---- beside a folder that is not served


def ran(built, folder, *words):
    """The status of a night and what it says, but for the time and the folder's name."""
    ended = subprocess.run([ROOT / "whview", "folder", "night", folder, *words, "--program", built], capture_output=True, text=True)
    said = [TIME.sub("time", text).replace(str(folder), "FOLDER") for text in (ended.stdout, ended.stderr)]
    return ended.returncode, *said


def version(folder):
    """What the current version has: its tables, what changed in them, and its other files but for the time."""
    root = folder / "current"
    tables = {str(path.relative_to(root)): table(path) for kind in ("data", "views", "deltas") for path in root.glob(f"{kind}/*.csv")}
    return tables | {name: TIME.sub("time", (root / name).read_text()) for name in ("report.txt", "strategy.txt", "catalogue.toml")}


def forget(folder):
    """Takes changes away that were refused."""
    for path in (folder / "changes").glob("*.csv"):
        path.unlink()


def first(built, folder, drawn):
    """A folder's first night."""
    lay(folder)
    put_changes(folder, {name: [(1, row) for row in rows] for name, rows in drawn.rows.items()})
    demand(ran(built, folder, "--commit")[0] == 0, "a first night is not done")


def night_of(drawn, number):
    """The changes of a night, of which some are refused, and what has to come of it."""
    if number % 4 == 3:
        return {"products": [REFUSED[number // 4 % len(REFUSED)]]}, False
    return drawn.night(20, 30) if number % 4 else {"orders": [(1, (10**6 + number, "day 1", "north"))]}, True


def alike(built, room, source):
    """Drawn nights, of which as many as were not refused have to be computed by the server."""
    drawn, one, other = Shop(source, 200, 500), room / "served", room / "apart"
    for folder in (one, other):
        first(built, folder, drawn)
    with serving(built, one) as server:
        for number in range(NIGHTS):
            one_night(built, server, other, *night_of(drawn, number), ("--commit", "--keep", "2") if number % 3 else ("--commit",))
            if number == NIGHTS // 2:
                server.computing.talk.process.kill()
    return f"nights beside those of a folder that is not served: {NIGHTS}, {server.nights} computed by {server.begun} programs"


def one_night(built, server, other, changes, is_kept, words):
    """One of them."""
    one = server.folder
    with mock.patch.object(night_server, "PAUSE", 0.0):
        await_version(server)
        await_alive(server)
    for folder in (one, other):
        put_changes(folder, changes)
    counted = server.nights
    found, wanted = ran(built, one, *words), ran(built, other, *words)
    demand(found == wanted, f"a night says {found}, and where it is not served {wanted}")
    demand((found[0] == 0) == is_kept, f"a night ends with {found}")
    demand(version(one) == version(other), "a version is another one than where it is not served")
    demand(server.nights == counted + is_kept, f"a night was {'not' * is_kept} computed by the server: {server.told}")
    if not is_kept:
        forget(one)
        forget(other)


def await_alive(server):
    """Waits until the program is there, also where it was killed."""
    due = time.monotonic() + SOON
    while server.computing is None or server.computing.talk.has_ended:
        demand(time.monotonic() < due, f"no other program begins: {server.told}")
        time.sleep(0.01)


# ---- stopped anywhere


def starts_of(tool, room):
    """Folders whose next nights can be computed by the server; one of them is sent back after it was computed."""
    starts = Starts(tool, room)
    starts.start("later night", starts.filled("later night", 2))
    starts.start("keeping 2", starts.filled("keeping 2", 3), options=(*COMMIT, "--keep", "2"), keep=2)
    planned = starts.filled("planned", 2)
    (planned.folder / "strategy.txt").unlink()
    starts.start("planned", planned)
    aside = starts.filled("records put aside", 2)
    aside.put("products", [(1, aside.row("products")), (-1, ("no such", "1"))])
    starts.start("records put aside", aside, options=(*COMMIT, "--quarantine"))
    return starts.made


def listed(tool, start, folder):
    """The places of a night that is computed by the server."""
    found = []

    def work():
        room = Room(tool, start, folder)
        with serving(tool.program, folder) as server:
            await_version(server)
            calls, told = traced.places(tool, folder, start.words, folder.with_suffix(".trace"))
            found.extend(calls)
            room.judge.said(told, start.statuses)
            demand(server.nights == 1, f"the night was not computed by the server: {server.told}")
            await_kept(server, server.begun)

    return found, judged(start.name, folder, work)[1]


def await_kept(server, begun):
    """Waits until the program is at the folder's version; it is the same one as before."""
    await_version(server)
    demand(server.begun == begun, f"another program began: {server.told}")


def tried(tool, trial, folder, kind=NightServer):
    """What does not hold where something happens to a night, or None."""

    def work():
        room = Room(tool, trial.start, folder)
        with serving(tool.program, folder, kind) as server:
            await_version(server)
            HAPPENS[trial.what](room, trial.place)
            judge_at_one(server)
            room.recover()
            await_version(server)
            for view in ("orders", "lines", "products"):
                next_night(tool, room, server, view)
            demand(not server.told, f"a program was lost: {server.told}")

    return judged(str(trial), folder, work)[1]


def judge_at_one(server):
    """Where the program is taken for one at the folder's version, it has as many rows as that has."""
    with server.lock:
        if server.computing and server.at == current_key(server.folder):
            wanted = told_after(server.folder / "current")
            demand(server.computing.rows_now() == wanted, "the program has other rows than the folder's version")


def next_night(tool, room, server, view):
    """One more night, which the server computes and keeps."""
    counted, begun = server.nights, server.begun
    room.hand.put(view)
    told = tool.run("night", room.folder, *COMMIT, *keeping(room.start))
    demand(told.status == 0, f"a night behind it ends with {told.status}: {told.told}")
    room.judge.done(room.hand.given)
    demand(server.nights == counted + 1, f"a night behind it was not computed by the server: {server.told}")
    await_kept(server, begun)


class KeepsAll(NightServer):
    """Keeps each night that it computes, whatever becomes of it."""

    def end(self, computing, made):
        computing.ended(b"commit\n")
        computing.rows = computing.rows_now()
        if made is not None:
            self.at = current_key(self.folder)


class KeepsNone(NightServer):
    """Keeps no night, and takes the program for one that is at the folder's version."""

    def end(self, computing, made):
        computing.give_up()
        self.at = current_key(self.folder)


class LooksNowhere(NightServer):
    """Keeps a night where its end is not told, and does not look where `current` leads."""

    def end(self, computing, made):
        if made is not None:
            super().end(computing, made)
        else:
            computing.give_up()

    def step(self):
        if self.at is None:
            super().step()


SPOILT = {KeepsAll: "killed", KeepsNone: "nothing", LooksNowhere: "killed"}


def unnoticed(tool, item, folder):
    """That no trial shows how a server is spoilt, or None."""
    kind, trials = item
    found = (tried(tool, trial, folder.with_name(f"{folder.name}.{number}"), kind) for number, trial in zip(count(), trials))
    return None if any(found) else f"nothing shows that a server is spoilt: {kind.__doc__}"


class Stops:
    """Nights that are stopped, by several processes."""

    def __init__(self, tool, room, pool, source, times):
        self.tool, self.pool, self.source, self.times = tool, pool, source, times
        self.folders = (room / f"served{number}" for number in count())
        self.starts = starts_of(tool, room)

    def mapped(self, work, items):
        return self.pool.starmap(partial(work, self.tool), [(item, next(self.folders)) for item in items], 1)

    def all(self):
        """What was tried, and what is wrong."""
        listings = self.mapped(listed, self.starts)
        yield "nights to which nothing happens", len(listings), [wrong for _, wrong in listings if wrong]
        found = [(start, place) for start, (calls, _) in zip(self.starts, listings) for place in calls]
        drawn = found if self.times >= len(found) else self.source.sample(found, self.times)
        trials = [Trial(start, what_of(number, place), place) for number, (start, place) in enumerate(drawn)]
        told = Counter(trial.what for trial in trials)
        wrong = list(filter(None, self.mapped(tried, trials)))
        yield f"nights that are stopped ({', '.join(f'{what} {times}' for what, times in told.items())})", len(trials), wrong
        spoilt = [(kind, list(self.spoilt(what, found))) for kind, what in SPOILT.items()]
        yield "spoilt servers, of which all are noticed", len(spoilt), list(filter(None, self.mapped(unnoticed, spoilt)))

    def spoilt(self, what, found):
        """Trials that have to show how a server is spoilt: right behind the word that a night counts, and before it."""
        start = self.starts[0]
        if what == "nothing":
            return [Trial(start, what, None)]
        renames = [place for each, place in found if each is start and place.call == "rename"]
        return [Trial(start, what, place) for place in reversed(renames)]


def what_of(number, place):
    """What happens at a place: most nights are killed."""
    other = OTHERS[number // 5 % len(OTHERS)]
    can = place.call in CAN_FAIL if other in ERRORS else place.call != traced.TIME
    return other if number % 5 == 4 and can else KILLED


# ---- clients and servers


def shop_of(built, folder, source):
    """A folder with a version, and its shop."""
    drawn = Shop(source, 200, 500)
    first(built, folder, drawn)
    return drawn


def two_clients(built, room, source):
    """Two nights at once, of which one is kept or both are, one after another; and one who holds the server while a night comes."""
    folder = room / "two"
    drawn = shop_of(built, folder, source)
    with serving(built, folder) as server:
        await_version(server)
        put_changes(folder, drawn.night(5, 9))
        words = [ROOT / "whview", "folder", "night", folder, "--commit", "--program", built]
        both = [subprocess.Popen(words, stdout=subprocess.DEVNULL, stderr=subprocess.PIPE, text=True) for _ in range(2)]
        told = [night.communicate()[1] for night in both]
        ends = sorted(night.returncode for night in both)
        demand(ends in ([0, 0], [0, 6]), f"two nights at once end with {ends}: {told}")
        await_version(server)
        held(built, server, drawn)
    return "two nights at once, and one who holds the server: 2"


def held(built, server, drawn):
    """Somebody has a night computed and says no more: another night does without the server, and then the server goes on."""
    folder, wire = server.folder, connected(server.folder)
    number, key = server.at
    strategy = (folder / "current/strategy.txt").read_bytes()
    wire.send({"version": [number, *key], "program": at_socket.told_of(built)}, b"@strategy\n" + strategy)
    demand(b"changes sales\n" in wire.receive().content, "a night without changes is not computed")
    put_changes(folder, drawn.night(5, 9))
    demand(ran(built, folder, "--commit")[0] == 0, "a night beside one who holds the server is not done")
    wire.close()
    await_version(server)
    put_changes(folder, drawn.night(5, 9))
    counted = server.nights
    demand(ran(built, folder, "--commit")[0] == 0 and server.nights == counted + 1, "the server does not go on")


def dying_servers(built, room, source):
    """Servers in processes of their own, which are killed or stopped while they have a night computed: the night is kept all the same."""
    for how in (signal.SIGKILL, signal.SIGSTOP):
        folder = room / how.name
        drawn = shop_of(built, folder, source)
        words = [ROOT / "whview", "folder", "serve", folder, "--port", "0", "--program", built]
        with subprocess.Popen(words, stdout=subprocess.DEVNULL, stderr=subprocess.DEVNULL) as running:
            try:
                dying(built, folder, drawn, running, how)
            finally:
                running.kill()
    return "servers that are killed or stopped amid a night: 2"


def dying(built, folder, drawn, running, how):
    """A night amid which its server comes to this end."""
    await_computed(built, folder, drawn)
    computing = [int(path.parent.name) for path in Path("/proc").glob("[0-9]*/stat") if is_child(path, running.pid)]
    for process in computing:
        os.kill(process, signal.SIGSTOP)
    put_changes(folder, drawn.night(5, 9))
    words = [ROOT / "whview", "folder", "night", folder, "--commit", "--program", built]
    with subprocess.Popen(words, stdout=subprocess.DEVNULL, stderr=subprocess.PIPE, text=True) as night:
        time.sleep(PATIENCE)
        demand(night.poll() is None, "a night does not wait for the process that serves its folder")
        running.send_signal(how)
        told = night.communicate(timeout=SOON)[1]
    for process in computing:
        os.kill(process, signal.SIGKILL)
    demand(night.returncode == 0, f"a night whose server dies ends with {night.returncode}: {told}")
    judge_shop(folder)


def is_child(stat, parent):
    """Whether a process has this parent."""
    try:
        return int(stat.read_text().rpartition(")")[2].split()[1]) == parent
    except OSError:
        return False


def await_computed(built, folder, drawn):
    """Nights until one was computed by the process that serves the folder, which is seen by who asks for one."""
    due = time.monotonic() + SOON
    while True:
        demand(time.monotonic() < due, "no night is computed by the process that serves the folder")
        time.sleep(0.2)
        wire, key = connected(folder), current_key(folder)
        if wire is None:
            continue
        try:
            number, found = key
            strategy = (folder / "current/strategy.txt").read_bytes()
            wire.send({"version": [number, *found], "program": at_socket.told_of(built)}, b"@strategy\n" + strategy)
            wire.receive()
            return
        except at_socket.Parted:
            continue
        finally:
            wire.close()


def judge_shop(folder):
    """Compares the derived tables with those that a night from scratch makes."""
    scratch = folder.with_name(f"{folder.name}.scratch")
    lay(scratch)
    shutil.rmtree(scratch / "data")
    shutil.copytree(folder / "current/data", scratch / "data")
    ended = subprocess.run([ROOT / "whview", "folder", "night", scratch, "--program", PROGRAM[0]], stdout=subprocess.DEVNULL)
    demand(ended.returncode == 0, "a night from scratch is not done")
    for name in (*BASES, *VIEWS):
        kind = "data" if name in BASES else "views"
        demand(table(folder / f"current/{kind}/{name}.csv") == table(scratch / f"new/{name}.csv"), f"the table of {name} is another one")


# The program that is tried.
PROGRAM = []


def main():
    given = words_with_program(__doc__)
    given.add_argument("count", nargs="?", type=places, default=COUNT, help="how many nights are stopped, or all (%(default)s)")
    given.add_argument("seed", nargs="?", type=int, default=SEED, help="what the draw begins with (%(default)s)")
    asked = given.parse_args()
    built, source, began, wrong = program(asked.program), random.Random(asked.seed), time.monotonic(), []
    PROGRAM.append(built)
    install("strace", traced.installed)
    with tempfile.TemporaryDirectory() as room:
        for work in (alike, two_clients, dying_servers):
            try:
                print(f"{work(built, Path(room), source)} ({time.monotonic() - began:.0f} s)", flush=True)
            except Wrong as found:
                wrong.append(f"{work.__name__}: {found}")
                print(f"  {wrong[-1]}", flush=True)
    room = in_memory()
    tool = copied(ROOT, room / "tools", built)
    with Pool(LANES) as pool:
        for what, times, found in Stops(tool, room, pool, source, asked.count).all():
            print(f"{what}: {times}, {len(found)} wrong ({time.monotonic() - began:.0f} s)", *found, sep="\n  ", flush=True)
            wrong += found
    if wrong:
        sys.exit(f"try_served_nights: {len(wrong)} wrong; the folders of these nights are in {room}")
    shutil.rmtree(room)
    return 0
