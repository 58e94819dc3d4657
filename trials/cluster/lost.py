"""Servers that lost something: each has to be noticed by nights, reads, folds and checks before anybody is given wrong rows. A scenario is
given servers as processes, and answers what came otherwise, in a list."""

import json
import os
import shutil
import time
from contextlib import contextmanager, suppress
from tempfile import TemporaryDirectory

from whview.cluster import checking, keeping
from whview.cluster.keeping import Sweep
from whview.cluster.reading import Session
from whview.cluster.servers import Key, Server, Told

from trials.cluster.inputs import Folder, done, one_line
from trials.cluster.scenarios import SHARES, ends
from trials.cluster.small_warehouse import AT_ONCE, J, Small
from trials.servers.clickhouse import NAME, SHARD

# How long a server may take to read its configuration again.
PATIENCE = 300


def now(small, view):
    """What somebody is given who asks for the newest version of a view, by a profile that leaves out servers that do not answer."""
    server = Server(str(small.servers[0]))
    return lambda: server.asked(f'SELECT * FROM "{small.database}"."{view}~now"')


def noticed(small, *words, views=("a", "j")):
    """That a night, a read and a fold are refused, in these words, `V~now` raises, and a check tells."""
    asked = [("a night", lambda: small.night({(1, 999): 1})), ("a read", lambda: Session(small.client()).read(J)),
             ("a fold", lambda: keeping.fold(small.client()))]  # fmt: skip
    asked += [(f"{view}~now", now(small, view)) for view in views]
    wrong = [f"{what}: {told}" for what, do in asked for told in ends(do, *([] if "~now" in what else words))]
    return wrong + ([] if checking.faults(Session(small.client())) else ["a check tells nothing"])


# ---- a disk from before


@contextmanager
def from_before(process):
    """A server whose disk is, in the end, what it was in the beginning."""
    kept = process.folder / "kept"
    process.stop()
    shutil.copytree(process.folder / "data", kept, symlinks=True)
    process.start().wait()
    try:
        yield
    finally:
        process.stop()
        shutil.rmtree(process.folder / "data")
        kept.rename(process.folder / "data")
        process.start().wait()


def a_shard_from_before(processes):
    """The last server's disk is from before a night that only put rows in."""
    small = Small(processes.servers(), SHARES)
    with from_before(processes.all[-1]):
        small.night({(number, 100 + number): 1 for number in range(1, 9)}, {(number, "yew"): 1 for number in range(1, 9)})
    return noticed(small, "is not whole", "no mark")


def a_first_server_from_before(processes):
    """The first server's disk is from before a fold and a sweep."""
    small = Small(processes.servers(), SHARES)
    small.night({(number, 100 + number): 1 for number in range(1, 9)})
    with from_before(processes.all[0]):
        keeping.fold(small.warehouse)
        Sweep(small.warehouse, AT_ONCE).run()
    return noticed(small, "is not whole")


def a_first_server_from_before_a_night(processes):
    """The first server's disk is from before a night, of which the others have rows."""
    small = Small(processes.servers(), SHARES)
    with from_before(processes.all[0]):
        small.night({(number, 100 + number): 1 for number in range(1, 9)})
    return noticed(small, "is not whole", "is from before", views=())


# ---- rows that went


def an_emptied_copy(processes):
    """A copied table is emptied on the last server: its part of what is computed from it would be wrong."""
    small = Small(processes.servers(), ["a:k"])
    processes.servers()[-1].carried(f'TRUNCATE TABLE "{small.database}"."b~0"')
    asked = [lambda: small.night({(number, 50): 1 for number in range(1, 9)}), lambda: Session(small.client()).read(J), lambda: keeping.fold(small.client())]
    wrong = [told for do in asked for told in ends(do, "is not whole", "b~0 on", "no rows in slot")]
    told = checking.faults(Session(small.client()))
    return wrong + ([] if any("b on" in each for each in told) else [f"a check tells {told}"])


def a_broken_part(processes):
    """A part of the last server's is broken, which it leaves out when it starts, without a word."""
    small = Small(processes.servers(), SHARES)
    small.night({(number, 100 + number): 1 for number in range(1, 9)}, {(number, "yew"): 1 for number in range(1, 9)})
    last, slot = processes.all[-1], small.versions.newest().slots[-1]
    last.stop()
    for part in (last.folder / "data/data" / small.database / "a%7E0").glob(f"{slot}_*"):
        (part / "columns.txt").write_text("broken")
    last.start().wait()
    return noticed(small, "is not whole", "a~0 on", "no rows in slot", views=())


def rows_exchanged(processes):
    """A row of a part goes and another one comes, so that there are as many as before."""
    small = Small(processes.servers(), SHARES)
    small.night({(1, 6): 1}, {(1, "yew"): 1})
    server, table = holder(small), f'"{small.database}"."a~0"'
    slot = small.versions.newest().slots[-1]
    server.carried(f"ALTER TABLE {table} DELETE WHERE \"~c2\" = 6")
    end = time.monotonic() + PATIENCE
    while server.asked(f'SELECT count() FROM {table} WHERE "~c2" = 6') != [["0"]] and time.monotonic() < end:
        time.sleep(0.05)
    server.carried(f'INSERT INTO {table} ("~c1", "~c2", "#", "~s") VALUES (1, 77, 1, {slot})')
    told = checking.faults(Session(small.client()))
    wrong = [] if any("a on" in each and f"in slots [{slot}]" in each for each in told) else [f"a check tells {told}"]
    return wrong + ends(lambda: keeping.fold(small.client()), "a on", "other rows")


def holder(small):
    """The server that has the row (1, 6) of a."""
    asked = f'SELECT count() FROM "{small.database}"."a" WHERE "~c2" = 6'
    return next(server for server in small.servers if server.asked(asked) != [["0"]])


# ---- servers that know others


def listed(process, addresses):
    """A server knows these from here on; it is waited until it has read its configuration again."""
    shards = "".join(SHARD.format(tcp=each.tcp) for each in addresses)
    file = process.folder / "config.xml"
    text, before = file.read_text(), file.stat().st_mtime
    begin, end = f"<remote_servers><{NAME}>", f"</{NAME}></remote_servers>"
    head, tail = text.split(begin)[0], text.split(end)[1]
    file.write_text(f"{head}{begin}{shards}{end}{tail}")
    # A server looks at the second of a file's time alone.
    os.utime(file, (before + 2, before + 2))
    server, limit = Server(process.address), time.monotonic() + PATIENCE
    wanted = [[each.tcp] for each in addresses]
    while server.asked(f"SELECT port FROM system.clusters WHERE cluster = '{NAME}' ORDER BY shard_num") != wanted:
        if time.monotonic() > limit:
            raise RuntimeError("a server does not read its configuration again")
        time.sleep(0.1)


def servers_listed_otherwise(processes):
    """A server forgets another one, has them in another order, or one of them twice."""
    wrong, every = [], processes.all
    for others in (every[:-1], every[::-1], [*every[:-1], every[0]]):
        small = Small(processes.servers(), SHARES)
        try:
            listed(every[0], others)
            told = ends(lambda small=small: small.client().judged(), "remote_servers")
            wrong += [f"a command with {[every.index(each) for each in others]}: {each}" for each in told]
        finally:
            listed(every[0], every)
        wrong += small.differs()
    return wrong


def a_server_down(processes):
    """A profile that leaves out servers that do not answer is given no rows of the newest version, or all."""
    small = Small(processes.servers(), SHARES)
    small.night({(number, 100 + number): 1 for number in range(1, 9)})
    processes.all[-1].stop()
    try:
        wrong = [f"{view}~now: {told}" for view in ("a", "j", "s") for told in ends(now(small, view))]
    finally:
        processes.restart()
    return wrong + small.differs()


def without_the_others(processes):
    """What the first server has is told and read while another one is down; what it has not is not."""
    small = Small(processes.servers(), ["a:k"])
    small.begun(small.changes({(1, 6): 1}))
    with TemporaryDirectory() as path:
        folder = Folder(path, processes.servers(), small.database)
        begun = json.loads(folder.told("status", "--format", "json")[2])
        processes.all[-1].stop()
        try:
            told = {what: folder.told(*what.split()) for what in ("versions", "read b", "read j", "give-up")}
            status = json.loads(folder.told("status", "--format", "json")[2])
        finally:
            processes.restart()
        wrong = [f"{what}: {found}" for what, found in told.items() if found[0] != (4 if what == "read j" else 0)]
        answers, behind = [each["answers"] for each in status["servers"]], " ".join(status["behind"])
        wrong += [] if answers[0] and not answers[-1] and "does not answer" in behind else [f"while a server is down: {status}"]
        stands = json.loads(folder.told("status", "--format", "json")[2])
        wrong += [] if stands["behind"] == [] else [f"after a give-up: {stands['behind']}"]
        living = [[each.partition(" since ")[0] for each in found["attempts"]] for found in (begun, stands)]
        wrong += [] if living == [["night in slot 3"], []] else [f"attempts before a give-up and after it: {living}"]
        folder.told("fold")
        Sweep(small.warehouse, AT_ONCE).drop_versions()
        behind = json.loads(folder.told("status", "--format", "json")[2])["behind"]
        wrong += [] if len(behind) == 1 and "`sweep`" in behind[0] else [f"after a fold: {behind}"]
        folder.told("sweep", "--keep", "1d")
        code, err, out = folder.told("status", "--format", "json")
    whole = json.loads(out)
    wrong += [] if (code, err, whole["behind"], whole["version"]) == (0, "", [], small.versions.newest().seq) else [f"status: {code}, {err}, {out}"]
    return wrong + small.differs()


def of_before(processes):
    """A warehouse whose tables have the form of before is told so, and not read."""
    small = Small(processes.servers(), SHARES)
    for server in small.servers:
        own, old = (f'"{small.database}"."~w{end}"' for end in ("", "old"))
        server.carried(f"RENAME TABLE {own} TO {old}")
        server.carried(f"CREATE VIEW {own} AS SELECT servers, shards, cluster, number, mark FROM {old}")
    return ends(lambda: small.client().judged(), "another version of whview")


def other_addresses(processes):
    """Servers that have other addresses are those of before once `readdress` was told so, and only they are."""
    small = Small(processes.servers(), SHARES)
    with TemporaryDirectory() as path:
        folder = Folder(path, [f"localhost:{each.http}" for each in processes.all], small.database)
        wrong = one_line(folder.told("read", "a"), 2, "was made by servers", "readdress")
        wrong += one_line(folder.told("readdress", servers=folder.servers[::-1]), 2, "an order of servers")
        wrong += [f"readdress {told}" for told in done(folder.told("readdress"), "readdress")]
        for command in (["read", "a"], ["fold"], ["check"]):
            wrong += done(folder.told(*command), " ".join(command))
    return wrong


# ---- who may only read


READERS = (
    "<reader><readonly>1</readonly><skip_unavailable_shards>0</skip_unavailable_shards></reader>"
    "<hasty_reader><readonly>1</readonly><skip_unavailable_shards>1</skip_unavailable_shards></hasty_reader>"
)
NAMES = ("reader", "hasty_reader")
USER = "<{name}><password></password><networks><ip>127.0.0.1</ip></networks><profile>{name}</profile><quota>default</quota></{name}>"


def who_may_only_read(processes):
    """Who may only read reads whole views, by the command and by SQL; not by a profile that leaves out servers that do not answer."""
    with_readers(processes)
    small = Small(processes.servers(), SHARES)
    with TemporaryDirectory() as path:
        folder = Folder(path, processes.servers(), small.database)
        wrong = [told for view in "abjsu" for told in done(folder.told("read", view, more=["--user", "reader"]), f"read {view}")]
        wrong += one_line(folder.told("read", "a", more=["--user", "hasty_reader"]), 1, "skip_unavailable_shards")
        wrong += one_line(folder.told("fold", more=["--user", "reader"]), 4, "readonly")
    reader = Server(processes.all[0].address, Key("reader", ""))
    rows = reader.asked(f'SELECT sum("#") FROM "{small.database}"."j~now"')
    wrong += [] if rows == [[str(sum(small.contents()[J].values()))]] else [f"j~now has {rows}"]
    newest = reader.asked(f'SELECT max(seq) FROM "{small.database}"."~versions"')
    return wrong + ([] if newest == [[str(small.versions.newest().seq)]] else [f"~versions has {newest} as the newest"])


def with_readers(processes):
    """Has all servers know users who may only read."""
    for each in processes.all:
        text = (each.folder / "users.xml").read_text()
        users = "".join(USER.format(name=name) for name in NAMES)
        if users not in text:
            (each.folder / "users.xml").write_text(text.replace("</profiles>", f"{READERS}</profiles>").replace("</users>", f"{users}</users>"))
    await_user(processes, NAMES[-1])


def await_user(processes, name):
    """Until all servers know a user."""
    limit = time.monotonic() + PATIENCE
    for each in processes.all:
        while time.monotonic() < limit:
            with suppress(Told):
                Server(each.address, Key(name, "")).asked("SELECT 1")
                break
            time.sleep(0.1)


LOST = [
    a_shard_from_before, a_first_server_from_before, a_first_server_from_before_a_night, an_emptied_copy, a_broken_part, rows_exchanged,
    servers_listed_otherwise, a_server_down, without_the_others, of_before, other_addresses, who_may_only_read,
]  # fmt: skip
