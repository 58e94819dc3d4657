"""What clients and servers meet, step by step, each with what has to come of it. A scenario answers what came otherwise, in a list."""

import json
import re
import threading
from collections import Counter
from concurrent.futures import ThreadPoolExecutor
from contextlib import contextmanager, suppress
from http.server import BaseHTTPRequestHandler, ThreadingHTTPServer
from unittest.mock import patch

from whview.cluster import keeping, nights, servers as of_servers
from whview.cluster.keeping import Sweep
from whview.cluster.reading import Session
from whview.cluster.servers import Key, Lost, Server, Told
from whview.cluster.versions import Versions
from whview.finding import Failure

from trials.cluster import small_warehouse
from trials.cluster.asleep import ASLEEP
from trials.cluster.small_warehouse import A, AT_ONCE, B, J, S, STRATEGY, Small

SHARES = ["a:k", "b:t"]
# So long the servers of a trial keep a connection, in seconds.
KEPT = 2.5


def ends(do, *words):
    """That a command ends with a failure that says these words, in a list of what is otherwise."""
    try:
        found = do()
    except (Failure, Told, Lost) as failure:
        said = " ".join(failure.lines) if isinstance(failure, Failure) else str(failure)
        return [] if all(word in said for word in words) else [f"it ends with {said!r}, without {words}"]
    return [f"it answers {found!r}, and should have ended with {words}"]


def ended(small, cases):
    """Nights by their changes of a and b, each of which is done or has to be refused in these words; the first that differs is told."""
    for a, b, meant in cases:
        version, told = small.night(a, b)
        wrong = [] if told == meant else [f"{a}, {b}: {told!r}, and not {meant!r}"]
        if wrong := wrong or small.differs(version.seq, f"after {a}, {b}"):
            return wrong
    return []


def refusals(servers):
    """Nights that are done and refused, also by sums and counts that leave 64 bits, with the contents after each."""
    cases = [
        ({(2, 7): -1, (1, 5): 1, (9, 1): 1}, {(1, "oak"): -1, (1, "yew"): 1, (9, "oak"): 2}, None),
        ({(7, 7): -1}, {}, "refused absent a"),
        ({(1, 2**62): 1}, {}, "refused range j"),
        ({(1, 2**61): 2}, {(1, "oak"): 1, (3, "yew"): 3}, None),
        ({(3, 2**61): 2}, {}, "refused range s"),
        ({(8, 2**62): 1, (2, 13): 4}, {(1, "yew"): -1, (1, "oak"): -1}, None),
        ({(8, 2**62): -1}, {}, None),
        ({}, {(8, "oak"): 1}, None),
        ({(5, 5): 2**30}, {(5, "ash"): 2**30}, "refused large j"),
        ({(5, 6): 2**63 - 1}, {}, "refused large j"),
        ({}, {(3, "yew"): -1}, None),
        ({}, {}, None),
    ]
    return ended(Small(servers, SHARES), cases)


def committed_whole(servers):
    """What a reader is given in the very moment of the commit."""
    small, wrong = Small(servers, SHARES), []
    created = Versions.created

    def watched(versions, made):
        done = created(versions, made)
        wrong.extend(small.differs(made.seq, "at the commit"))
        return done

    changes = small.changes({(1, 6): 1}, {(2, "elm"): -1})
    small.changed(changes)
    with patch.object(Versions, "created", watched):
        nights.night(small.client(), changes, STRATEGY)
    return wrong


def twice_at_once(servers):
    """Two clients whose nights began over one version: one of them commits."""
    small = Small(servers)
    one, two = small.changes({(1, 6): 1}), small.changes({(1, 8): 1})
    first = small.begun(one)
    with patch.object(Versions, "alive", lambda *_: None):
        second = small.begun(two, small.client())
    first()
    small.changed(one)
    return ends(second, "another client was first") + small.differs()


def work_is_told(servers):
    """A client is told that another one is at work."""
    small = Small(servers)
    small.begun(small.changes({(1, 6): 1}))
    wrong = ends(lambda: small.night({(1, 7): 1}), "somebody is at work", "give-up")
    nights.give_up(small.warehouse)
    small.night({(1, 7): 1})
    return wrong + small.differs() + ends(lambda: nights.give_up(small.warehouse), "nothing to give up")


def given_up(servers):
    """Who worked on an attempt that was given up can no longer commit, and its slot is nobody's."""
    small = Small(servers)
    commit = small.begun(small.changes({(1, 6): 1}))
    nights.give_up(small.warehouse)
    wrong = ends(commit, "another client was first") + small.differs()
    small.night({(1, 7): 1}, {(2, "elm"): 1})
    return wrong + small.differs() + ends(commit, "another client was first")


def folded_between(servers):
    """A night commits behind a fold; where the version that it read was swept, it does not."""
    small = Small(servers, SHARES)
    changes = small.changes({(1, 6): 1}, {(2, "elm"): 1})
    commit = small.begun(changes)
    keeping.fold(small.warehouse)
    wrong = small.differs(None, "after the fold")
    Sweep(small.warehouse, 10**6).run()
    commit()
    small.changed(changes)
    wrong += small.differs(None, "after the night behind the fold")
    commit = small.begun(small.changes({(1, 7): 1}))
    keeping.fold(small.warehouse)
    Sweep(small.warehouse, AT_ONCE).run()
    return wrong + ends(commit, "was swept") + small.differs(None, "after a fold and a sweep")


def swept_in_a_night(servers):
    """A sweep amid a night takes nothing of it."""
    small = Small(servers, SHARES)
    small.begun(small.changes({(1, 9): 1}))
    nights.give_up(small.warehouse)
    changes = small.changes({(1, 6): 1}, {(2, "elm"): 1})
    commit = small.begun(changes, small.client())
    Sweep(small.warehouse, 10**6).run()
    commit()
    small.changed(changes)
    wrong = small.differs(None, "after a sweep amid a night")
    small.begun(small.changes({(1, 6): 1}))
    keeping.fold(small.warehouse)
    Sweep(small.warehouse, AT_ONCE).run()
    return wrong + small.differs(None, "after a fold and a sweep amid a night")


def behind_a_fold(servers):
    """A sweep behind a fold takes nothing of a night that began before the fold."""
    small = Small(servers, SHARES)
    small.night({(2, 8): 1})
    changes = small.changes({(1, 6): 1}, {(2, "elm"): 1})
    commit = small.begun(changes)
    keeping.fold(small.warehouse)
    Sweep(small.warehouse, 10**6).run()
    commit()
    small.changed(changes)
    return small.differs()


def reader_and_sweep(servers):
    """A session whose version is swept is told so, at whatever step of the sweep it reads."""
    wrong = []
    for step in ("drop_versions", "remove", "forget"):
        small = Small(servers, SHARES)
        small.night({(2, 8): 1}, {(3, "oak"): -1, (3, "yew"): 1})
        session, before = Session(small.warehouse, small.versions.newest().seq), small.contents()
        keeping.fold(small.warehouse)
        done = getattr(Sweep, step)

        def watched(sweep, *given, done=done, session=session, before=before, wrong=wrong, step=step):
            found = done(sweep, *given)
            try:
                rows = Counter(dict(session.read(J)))
                wrong += [] if rows == Counter(before[J]) else [f"a session read {rows} after {step}, and no error"]
            except Failure as told:
                wrong += [] if "is gone" in told.lines[0] else [f"a session is told {told.lines}"]
            return found

        with patch.object(Sweep, step, watched):
            Sweep(small.warehouse, AT_ONCE).run()
        if wrong:
            break
    return wrong


def sleeper(servers):
    """A client sleeps before its commit while five versions are made and the first four swept: it does not commit, and nobody reads it."""
    small = Small(servers, SHARES)
    commit_late = small.begun(small.changes({(1, 6): 1}))
    base = small.versions.newest()
    late = [commit_late, base]
    with patch.object(nights, "judge_base", lambda *_: None):
        nights.give_up(small.warehouse)
        for number in range(4):
            small.night({(1, 20 + number): 1})
        Sweep(small.warehouse, AT_ONCE).run()
        seen, created = [], Versions.created

        def watched(versions, made):
            done = created(versions, made)
            seen.append(ends(lambda: Session(small.warehouse, made.seq), "is gone") if done else [])
            return done

        with patch.object(Versions, "created", watched):
            wrong = ends(late[0], "was swept")
    numbers = small.versions.numbers("v")
    return [*wrong, *(told for each in seen for told in each), *([] if len(numbers) == 1 else [f"versions {numbers} are there"]), *small.differs()]


class Losing(Server):
    """A server whose answer to one statement is lost, or is an error, after it was carried out."""

    words, times, error = "INSERT", 1, Lost("no whole answer came")

    def sent(self, said, *given, **more):
        found = super().sent(said, *given, **more)
        if said.startswith(self.words) and self.times:
            self.times -= 1
            raise self.error
        return found


def losing(servers, words, error=Losing.error):
    """The same servers, of which the first loses an answer."""
    found = [Losing(server.address) for server in servers]
    for server in found:
        server.learn()
        server.words, server.times, server.error = words, 1 if server is found[0] else 0, error
    return found


def lost_insert(servers):
    """The answer to an INSERT is lost: it is not sent again, and the next client goes on."""
    wrong = []
    for words in ("INSERT INTO", 'INSERT INTO "'):
        small = Small(servers, SHARES)
        wrong += ends(lambda: small.night({(1, 6): 1, (2, 5): 1}, client=small.client(losing(servers, words))), "no whole answer")
        wrong += small.differs(None, "after a lost answer")
        nights.give_up(small.warehouse)
        small.night({(1, 6): 1}, {(1, "oak"): 1})
        wrong += small.differs(None, "after a lost answer and a night")
    return wrong


def lost_commit(servers):
    """The answer to a commit is lost, or is an error: the night is there once, and its client knows."""
    small, wrong = Small(servers), []
    for number, error in enumerate((Losing.error, Told(servers[0], 241, "Memory limit exceeded"))):
        client = small.client(losing(servers, f'CREATE VIEW "{small.database}"."~v', error))
        small.night({(1, 6 + number): 1}, {(1, "oak"): 1}, client=client)
        newest = small.versions.newest()
        wrong += small.differs() + ([] if newest.seq == 3 + number else [f"version {newest.seq} is the newest"])
    return wrong


def past_64_bits(servers):
    """A table whose rows count more together than 64 bits hold is folded, and goes on."""
    small, most = Small(servers, SHARES), 2**63 - 1
    steps = [({}, {row: -1 for row in small.tables[B]}), ({(7, 1): most, (7, 2): most, (7, 3): most}, {}), ({(7, 1): -most, (7, 4): 3}, {})]
    wrong = []
    for a, b in steps:
        version, told = small.night(a, b)
        wrong += [f"{a}, {b}: {told}"] if told else small.differs(version.seq, f"after {a}, {b}")
        keeping.fold(small.warehouse)
        wrong += small.differs(None, f"after a fold behind {a}, {b}")
    return wrong + ([] if small.versions.newest().gross == small.versions.newest().totals else ["a fold's rows are not as many as there are"])


def at_the_limits(servers):
    """A product of counts is refused above 2^56, and a cell or a sum beyond 64 bits, and neither one before."""
    counts = [({(99, 1): 2**54 - 4}, {}, "refused large j"), ({(99, 1): 2**54 - 5}, {}, None), ({(99, 1): 1}, {}, "refused large j")]
    cells = [
        ({(1, -(2**62)): 2}, {}, None),
        ({(3, -14): 1}, {}, None),
        ({(3, -1): 1}, {}, "refused range s"),
        ({(4, -(2**62) - 1): 1}, {}, "refused range j"),
        ({(2, 7): -2, (2, 2**62 - 1): 2, (2, 1): 1}, {}, None),
        ({(2, 1): 1}, {}, "refused range s"),
        ({(4, 2**63 - 1): 1, (98, 2**63 - 1): 1, (98, -(2**63)): 1}, {(4, "fir"): -1}, "refused range j"),
        ({(98, 2**63 - 1): 1, (98, -(2**63)): 1}, {(4, "fir"): -1}, None),
        ({(4, 2**63 - 1): 1, (4, 11): -1}, {}, None),
    ]
    return ended(Small(servers, SHARES), counts) or ended(Small(servers, SHARES), cells)


def hasty(servers):
    """A profile that leaves rows out where a limit is reached gives whole answers, or errors."""
    small = Small(servers, SHARES)
    found = [Server(server.address, Key("hasty", "")) for server in servers]
    for server in found:
        server.learn()
    return ends(lambda: Session(small.client(found)).read(J), "Limit for rows") + small.differs()


def own_ways(servers):
    """A profile by which servers are not added up, and nothing is told by no row, changes no contents."""
    found = [Server(server.address, Key("own_ways", "")) for server in servers]
    for server in found:
        server.learn()
    return ended(Small(found, SHARES), [({(2, 7): -1, (9, 1): 1}, {(9, "oak"): 2}, None), ({(9, 1): -1}, {(9, "oak"): -2, (1, "elm"): 1}, None), ({}, {}, None)])


def by_hand(servers):
    """Rows that somebody puts into a slot are told of: of one that is to come before a night, of one that is listed by readers and folds."""
    small = Small(servers)
    server, dialect = servers[0], small.warehouse.dialect
    put = lambda slot: server.carried(f'INSERT INTO "{dialect.schema}"."a~0" ("~c1", "~c2", "#", "~s") VALUES (1, 77, 1, {slot})')
    put(small.versions.numbers("a")[-1] + 1)
    wrong = ends(lambda: small.night({(1, 6): 1}), "a~0 on", "put there by hand")
    nights.give_up(small.warehouse)
    small.night({(1, 6): 1})
    wrong += small.differs()
    put(small.versions.newest().slots[-1])
    wrong += ends(lambda: Session(small.warehouse).read(A), "changed its tables by hand")
    return wrong + ends(lambda: keeping.fold(small.warehouse), "a has", "changed its tables by hand")


class Twice(Server):
    """A server that is given each statement twice, and whose answer is that to the second."""

    def sent(self, said, *given, **more):
        with suppress(Told):
            super().sent(said, *given, **more)
        return super().sent(said, *given, **more)


class Beside(Server):
    """A server that is given each statement twice at once, and whose answer is that which comes last."""

    def sent(self, said, *given, **more):
        send = super().sent
        with ThreadPoolExecutor(2) as pool:
            both = [pool.submit(send, said, *given, **more) for _ in range(2)]
        return both[1].result()


class Keeping(Server):
    """A server that is not given what puts rows in, and answers that it was done."""

    def sent(self, said, *given, **more):
        return b"" if given and given[0] else super().sent(said, *given, **more)


class KeepingSome(Server):
    """A server that is not given the INSERT into one table, and answers that it was done."""

    into = None

    def sent(self, said, *given, **more):
        is_kept = self.into and said.startswith("INSERT INTO") and self.into in said[:80]
        return b"" if is_kept else super().sent(said, *given, **more)


def others(small, kind):
    """A client whose statements go another way."""
    found = [kind(server.address) for server in small.servers]
    for server in found:
        server.learn()
    return small.client(found)


def sent_twice(servers):
    """Each statement takes effect once that something on the way sends twice, one after the other or at once."""
    small, wrong = Small(servers, SHARES), []
    changes = ({(1, 6): 1, (2, 7): -1, (9, 1): 2}, {(2, "elm"): 1, (9, "oak"): 1})
    version, told = small.night(*changes, client=others(small, Twice))
    wrong += ([f"a night sent twice: {told}"] if told else []) + small.differs(version.seq, "after a night sent twice")
    keeping.fold(others(small, Twice))
    wrong += small.differs(None, "after a fold sent twice")
    for number in range(3):
        try:
            small.night({(number, 300 + number): 1}, {(number, "yew"): 1}, client=others(small, Beside))
        except (Told, Lost, Failure):
            nights.give_up(small.warehouse)
        wrong += small.differs(None, "after a night sent twice at once")
    return wrong


def kept_back(servers):
    """A night some of whose rows do not come is told so, and changes nothing."""
    small = Small(servers, SHARES)
    wrong = ends(lambda: small.night({(1, 6): 1, (2, 7): -1}, client=others(small, Keeping)), "is not what was sent")
    nights.give_up(small.warehouse)
    return wrong + small.differs()


def comps_kept_back(servers):
    """A night one of whose Comps, or whose mark, does not come to a server is told so, and changes nothing: of copied views and of those that
    are shared out, where the others make their parts."""
    wrong = []
    for shards in (SHARES, []):
        small = Small(servers, shards)
        for table in ("j", "s", "u", "~marks"):
            client = others(small, KeepingSome)
            client.servers.all[-1].into = f'"{table}~0"'
            changes = {(number, 50): 1 for number in range(1, 5)}
            wrong += [f"{table}, {shards}: {told}" for told in ends(lambda: small.night(changes, client=client), "keeps statements back")]
            if small.versions.alive(small.versions.newest().night, "night"):
                nights.give_up(small.warehouse)
            wrong += small.differs()
    return wrong


# ---- names


WORDS = [
    {"k": "inf", "x": "nan", "t": "null", "twice": "interval", "n": "not"},
    {"k": "distinct", "x": "infinity", "t": "interval", "twice": "not", "n": "null"},
    {"k": "not", "x": "null", "t": "distinct", "twice": "inf", "n": "nan"},
]


def names_that_are_words(servers):
    """Columns may have names that the engine reads as something else; readers have them as they are."""
    wrong = []
    for words in WORDS:
        said = re.sub(r'(?<=[".])(k|x|t|twice|n)(?=[":])', lambda found, words=words: words[found[0]], small_warehouse.TEXT)
        with patch.object(small_warehouse, "TEXT", said):
            small = Small(servers, [f"a:{words['k']}", f"b:{words['t']}"])
        wrong += ended(small, [({(1, 6): 1, (2, 7): -1, (3, -(2**62)): 1}, {(2, "elm"): 1, (1, "oak"): -1, (1, "yew"): 1}, None), ({(9, 9): -1}, {}, "refused absent a")])
        for v, view in enumerate(small.catalogue.views):
            columns = [column for column, _ in view.columns] + ([] if v == S else ["#"])
            listed = ", ".join(f'"{column}"' for column in columns)
            rows = servers[0].asked(f'SELECT {listed} FROM "{small.database}"."{view.name}~now"')
            meant = sorted([*map(str, row), *([] if v == S else [str(count)])] for row, count in small.contents()[v].items())
            wrong += [] if sorted([*map(str, row)] for row in rows) == meant else [f"{view.name}~now has {rows}, and meant are {meant}"]
    return wrong


# ---- what is looked up


def judged_by_key(servers):
    """Of a large table a night looks up what it takes away alone, and of rows beside that one column; nothing where it takes nothing away."""
    small, read, sizes = Small(servers[:1], before={A: {(key, 5): 1 for key in range(30000)}, B: {(1, "oak"): 1}}), [], []
    sent = Server.sent

    def watched(server, said, *given, **more):
        answer = sent(server, said, *given, **more)
        if '"~absent"' in said:
            statistics = json.loads(answer)["statistics"]
            read.append(statistics["rows_read"])
            sizes.append(statistics["bytes_read"])
        return answer

    with patch.object(Server, "sent", watched):
        small.night({(40000 + number, 5): 1 for number in range(100)})
        wrong = [f"{read} rows were looked up for rows that come"] if read else []
        small.night({(7, 5): -1, (7, 6): 1})
        wrong += [f"{read} rows were looked up for one that goes"] if not read or sum(read) > 10000 else []
        read.clear(), sizes.clear()
        # A row has 28 bytes, and a key 8.
        small.night({(key, 5): -1 for key in range(100, 30000, 1000)})
        wrong += [f"{sizes} bytes of {read} rows were looked up for some that go"] if sum(sizes) > 12 * sum(read) else []
    return wrong + small.differs()


def connections_stay(servers):
    """A night goes over few connections, which are used again as long as the servers keep them."""
    small, made, sent = Small(servers, SHARES), [], []
    connect, send = Server.connection, Server.sent

    def connecting(server):
        made.append(str(server))
        return connect(server)

    def sending(server, *given, **more):
        sent.append(str(server))
        return send(server, *given, **more)

    with patch.object(Server, "connection", connecting), patch.object(Server, "sent", sending), patch.object(of_servers, "YOUNG", KEPT):
        small.night({(1, 6): 1, (2, 7): -1}, {(2, "elm"): 1}, client=others(small, Server))
    return [] if len(sent) > 4 * len(made) else [f"{len(sent)} statements of a night went over {len(made)} connections"]


# ---- servers that answer wrongly


class Answers(BaseHTTPRequestHandler):
    """Answers with what its server has been told."""

    def do_POST(self):
        self.server.times += 1
        self.rfile.read(int(self.headers["Content-Length"]))
        status, length, content = self.server.answer
        self.send_response(status)
        self.send_header("Content-Length", str(len(content) + length))
        self.end_headers()
        self.wfile.write(content)

    def log_message(self, *_):
        pass


@contextmanager
def answering(status, content, more=0):
    """A server that gives this answer, of which so many bytes do not come. Nobody may send it a statement twice."""
    fake = ThreadingHTTPServer(("127.0.0.1", 0), Answers)
    fake.answer, fake.daemon_threads, fake.times = (status, more, content), True, 0
    thread = threading.Thread(target=fake.serve_forever)
    thread.start()
    try:
        yield Server(f"127.0.0.1:{fake.server_address[1]}", seconds=20)
    finally:
        fake.shutdown()
        fake.server_close()
        thread.join()
    if fake.times != 1:
        raise RuntimeError(f"{fake.times} statements were sent, and not one")


LATE = b'{"meta": [], "data": [["1", "2"],\nCode: 241, e.displayText() = DB::Exception: Memory limit, e.what() = DB::Exception\n'
WHOLE = b'{"meta": [], "data": [["1", "2"]], "rows": 1}'
ANSWERS = [
    (200, LATE, 0, "not whole"),
    (200, b"1\t2\nCode: 241, e.displayText() = DB::Exception: Memory limit, e.what() = DB::Exception\n", 0, "not whole"),
    (200, b'{"data": [["1", "2"]], "rows": 2}', 0, "not whole"),
    (200, WHOLE[:-9], 9, "no whole answer"),
    (500, b"Code: 9999, e.displayText() = DB::Exception: no such thing, e.what() = DB::Exception", 0, "code 9999"),
    (503, b"busy", 0, "status 503"),
    (200, b"", 1, "no whole answer"),
    (504, b"<html>Gateway Time-out</html>", 0, "no server's answer"),
    (200, b"Code: 394, e.displayText() = DB::Exception: Query was cancelled, e.what() = DB::Exception\n", 0, "code 394"),
]


def wrong_answers(_=None):
    """An answer that ends in an error, in the middle or with an unknown code is never taken for rows."""
    wrong = []
    for status, content, more, told in ANSWERS:
        with answering(status, content, more) as server:
            wrong += [f"{content!r}: {each}" for each in ends(lambda server=server: server.asked("SELECT 1"), told)]
    with answering(200, WHOLE) as server:
        wrong += [] if server.asked("SELECT 1") == [["1", "2"]] else ["a whole answer is not taken"]
    return wrong + ends(lambda: Server(server.address, seconds=5).asked("SELECT 1"), "no whole answer")


SCENARIOS = [
    refusals, committed_whole, twice_at_once, work_is_told, given_up, folded_between, swept_in_a_night, behind_a_fold, reader_and_sweep,
    sleeper, lost_insert, lost_commit, by_hand, at_the_limits, past_64_bits, hasty, own_ways, wrong_answers, sent_twice, kept_back, comps_kept_back,
    names_that_are_words, judged_by_key, connections_stay, *ASLEEP,
]  # fmt: skip
