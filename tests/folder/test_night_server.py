"""Nights of a served folder, computed by the process that serves it: as those of a folder that is not served, whatever becomes of the process."""

import os
import re
import shutil
import socket
import stat
import threading
import time
from contextlib import contextmanager
from unittest import mock

import pytest

from trials.oracle.tables import bag_of
from whview.folder import at_socket, computing, night_server, talk
from whview.folder.at_socket import Parted, Wire, connected, told_of
from whview.folder.memory import current_key
from whview.folder.night_server import NightServer
from whview.program import Chosen, temporary

from .reckoner import reckons
from .serving import LONG, until
from .shop import SHOP, carried_out
from .stand_in import spoil

COME = b"#,id,day,region\n1,8,Thursday,south\n"
SOLD = b'#,id,product,pieces\n1,8,"tea, black",2\n1,8,jam,1\n-1,1,bread,2\n'
PRICES = b"#,product,price\n-1,jam,475\n1,jam,500\n"
TIME = re.compile(r"time: .*\n")


class Two:
    """A shop that is served, and one that is not, with the same nights."""

    def __init__(self, room):
        self.program, self.told = reckons(room / "program"), []
        self.one, self.other = room / "one", room / "other"
        for folder in (self.one, self.other):
            shutil.copytree(SHOP, folder)
            assert self.ran(folder, "--commit")[0] == "0"
        self.server = NightServer(self.one, lambda: Chosen(self.program, "named"), self.told.append)

    def ran(self, folder, *words, program=None):
        """The status of a night, and what it prints and tells."""
        found = carried_out(["night", folder, *words, "--program", program or self.program])
        return [TIME.sub("", str(each)).replace(str(folder), "FOLDER") for each in found]

    @contextmanager
    def served(self):
        """While the one is served, from where its program is at the version."""
        with mock.patch.object(night_server, "PAUSE", 0.0):
            self.server.start()
            self.await_version()
            try:
                yield self.server
            finally:
                self.server.close()

    def await_version(self):
        until(lambda: self.server.computing and not self.server.computing.talk.has_ended and self.server.at == current_key(self.one))

    def put(self, **changes):
        for folder in (self.one, self.other):
            for name, content in changes.items():
                (folder / "changes" / f"{name}.csv").write_bytes(content)

    def night(self, *words, is_computed=True, **changes):
        """A night of both, which say the same; the tables are the same."""
        self.await_version()
        counted = self.server.nights
        self.put(**changes)
        found = self.ran(self.one, *words)
        assert found == self.ran(self.other, *words)
        assert (found[0] == "0") == is_computed
        assert version(self.one) == version(self.other)
        assert self.server.nights == counted + is_computed
        return found

    def words(self):
        """The commands that the program was begun with."""
        return (self.program.parent / "program.words").read_text().split()

    def asked(self):
        """Somebody who has a night without changes computed."""
        wire = connected(self.one)
        number, key = current_key(self.one)
        strategy = (self.one / "strategy.txt").read_bytes()
        wire.send({"version": [number, *key], "program": told_of(self.program)}, b"@strategy\n" + strategy)
        return wire


@pytest.fixture
def two(tmp_path):
    return Two(tmp_path)


def version(folder):
    """The current version: its tables and changes, and its report but for the time."""
    root = folder / "current"
    files = [path for kind in ("data", "views", "deltas") for path in root.glob(f"{kind}/*.csv")]
    tables = {str(path.relative_to(root)): bag_of(path.read_text()) for path in files}
    return tables | {"report": TIME.sub("", (root / "report.txt").read_text()).replace(str(folder), "FOLDER")}


def test_nights_are_those_of_a_folder_that_is_not_served(two):
    with two.served() as server:
        begun = two.words().count("night")
        two.night("--commit", orders=COME, lines=SOLD)
        two.night("--commit", "--keep", "1", products=PRICES)
        two.night("--commit", orders=b"#,id,day,region\n-1,8,Thursday,south\n1,8,Thursday,north\n")
        assert two.words().count("night") == begun + 3
        assert (server.nights, server.begun, two.told) == (3, 1, [])
        assert server.computing.rows == computing.told_after(two.one / "current")
    assert not (two.one / ".served").exists()


def test_a_version_that_is_rolled_back_to_is_gone_on_from(two):
    with two.served() as server:
        two.night("--commit", orders=COME)
        for folder in (two.one, two.other):
            assert carried_out(["rollback", folder, 1])[0] == 0
        until(lambda: server.begun == 2)
        two.night("--commit", orders=COME, lines=SOLD)
        assert (server.nights, two.told) == (2, [])


def test_a_night_that_is_not_kept_is_given_up(two):
    with two.served() as server:
        two.put(orders=COME)
        assert two.ran(two.one) == two.ran(two.other)
        assert (server.nights, server.begun) == (1, 1)
        until(lambda: not server.lock.locked())
        two.night("--commit", lines=SOLD)
        assert (server.nights, server.begun) == (2, 1)


def test_a_refused_night_is_told_alike_and_changes_nothing(two):
    large = b"#,product,price\n1,ham,9223372036854775807\n"
    with two.served() as server:
        for _ in range(2):
            found = two.night("--commit", is_computed=False, products=large, lines=b"#,id,product,pieces\n1,1,ham,2\n")
            assert found[0] == "1" and "refused range sales" in found[2]
        for folder in (two.one, two.other):
            shutil.rmtree(folder / "changes")
            (folder / "changes").mkdir()
        two.night("--commit", orders=COME)
        assert (server.begun, two.told) == (1, [])


def test_other_programs_and_options_of_the_program_are_not_the_servers(two, tmp_path):
    other = reckons(tmp_path / "other_program")
    with two.served() as server:
        two.put(orders=COME)
        assert two.ran(two.one, "--commit", program=other)[0] == "0"
        until(lambda: server.begun == 2)
        two.await_version()
        two.put(lines=SOLD)
        assert two.ran(two.one, "--commit", "--workers", "2")[0] == "0"
        assert server.nights == 0


@pytest.mark.parametrize("how", ["die", "memory", "fault part text", "refused Range", "version x"])
@pytest.mark.parametrize("command", ["night", "@end", "changes"])
def test_a_night_that_goes_wrong_in_the_program_begins_one_of_its_own(two, command, how):
    with two.served():
        spoil(two.program, command, how)
        counted = two.server.nights
        two.put(orders=COME)
        with mock.patch.object(computing, "NIGHT", 1):
            assert two.ran(two.one, "--commit") == two.ran(two.other, "--commit")
        assert version(two.one) == version(two.other)
        assert two.server.nights <= counted + 1
        two.night("--commit", lines=SOLD)


@pytest.mark.parametrize("how", ["die", "refused NoNight", "version x"])
@pytest.mark.parametrize("command", ["commit", "tables"])
def test_where_a_night_cannot_be_kept_in_the_program_another_one_begins(two, command, how):
    with two.served() as server:
        spoil(two.program, command, how)
        two.night("--commit", orders=COME)
        until(lambda: server.begun == 2)
        two.night("--commit", lines=SOLD)
        assert len(two.told) == 1 and "another one stays in 0 seconds" in two.told[0]


def test_who_says_no_more_or_something_else_has_the_night_given_up(two):
    with two.served() as server:
        for said in ({}, {"made": 7}, {"made": 1}, {"made": None}):
            wire = two.asked()
            assert b"changes sales\n" in wire.receive().content
            if said:
                wire.send(said)
                wire.receive()
            wire.close()
            until(lambda: not server.lock.locked())
        two.night("--commit", orders=COME)
        assert (server.nights, server.begun, two.told) == (5, 1, [])


def test_while_one_night_is_computed_another_one_does_without(two):
    with two.served() as server:
        wire = two.asked()
        wire.receive()
        other = two.asked()
        with pytest.raises(Parted):
            other.receive()
        two.put(orders=COME)
        assert two.ran(two.one, "--commit")[0] == "0"
        wire.send({"made": current_key(two.one)[0] + 1})
        wire.close()
        until(lambda: server.begun == 2)


NO_MESSAGES = [b"", b"\n", b"{}\n", b"[]\n", b"x\n", b'{"bytes": 5}\nabc', b'{"bytes": -1}\n', b'{"bytes": 99999999999}\n', b"x" * 70_000]


def test_what_is_no_message_is_not_answered(two):
    with two.served():
        for said in NO_MESSAGES:
            wire = connected(two.one)
            wire.connection.sendall(said)
            wire.connection.shutdown(socket.SHUT_WR)
            with pytest.raises(Parted):
                wire.receive()
            wire.close()
        two.night("--commit", orders=COME)


def test_who_takes_long_is_waited_for_as_long_as_signs_come():
    one, other = map(Wire, socket.socketpair())
    answering = threading.Thread(target=lambda: [other.beat() or time.sleep(0.2) for _ in range(6)] and other.send({"done": 1}, b"it is"))
    answering.start()
    assert one.receive(0.5) == ({"done": 1, "bytes": 5}, b"it is")
    answering.join()
    with pytest.raises(Parted):
        one.receive(0.1)
    other.close()
    one.close()


def test_while_a_program_takes_long_others_are_told(script):
    signs = []
    with temporary() as opening, mock.patch.object(talk, "TURN", 0.05):
        found = talk.Talk(script("read line; sleep 0.5; echo closed"), opening, [])
        assert found.ask(b"close 0\n", LONG, lambda: signs.append(1)) == b"closed\n"
    assert len(signs) > 2
    found.end()


def test_parts_end_where_a_night_does(two):
    with two.served() as server:
        for parts in (b"@end\nquit\n", b"@strategy\n@end\nquit\n", b"@strategy"):
            assert server.computing.night(parts) is None
        assert not server.computing.talk.has_ended


def test_nobody_else_comes_in(two):
    with two.served():
        assert stat.S_IMODE(os.lstat(two.one / ".served").st_mode) == 0o600
        with mock.patch.object(at_socket.os, "geteuid", lambda: 54321):
            assert connected(two.one) is None
        wire = two.asked()
        with mock.patch.object(at_socket.Wire, "is_own", lambda _: False):
            other = socket.socket(socket.AF_UNIX, socket.SOCK_STREAM)
            other.connect(str(two.one / ".served"))
            assert other.recv(1) == b""
        wire.close()


def test_a_folder_has_one_server_of_nights(two):
    told = []
    with two.served():
        second = NightServer(two.one, lambda: Chosen(two.program, "named"), told.append)
        second.start()
        assert told == [f"nights of {two.one} go to another process that serves it"]
        second.close()
        assert (two.one / ".served").is_socket()
        two.night("--commit", orders=COME)


def test_a_socket_at_which_nobody_answers_is_passed_over_and_replaced(two):
    left = socket.socket(socket.AF_UNIX, socket.SOCK_STREAM)
    left.bind(str(two.one / ".served"))
    two.put(orders=COME)
    assert two.ran(two.one, "--commit") == two.ran(two.other, "--commit")
    left.close()
    with two.served():
        two.night("--commit", lines=SOLD)


def test_where_there_can_be_no_socket_it_is_told(two):
    with mock.patch.object(at_socket.os, "chmod", side_effect=OSError(1, "Operation not permitted")):
        two.server.start()
    assert two.told == [f"nights of {two.one} begin programs of their own: there can be no socket in it: Operation not permitted"]
    two.server.close()


def test_a_server_that_tells_other_tables_is_not_believed(two):
    with two.served() as server:
        server.computing.rows = server.computing.rows | {"sales": 1}
        two.put(orders=COME)
        assert two.ran(two.one, "--commit") == two.ran(two.other, "--commit")
        assert version(two.one) == version(two.other)


def test_a_version_that_no_program_takes_is_told_once(two):
    (two.one / "current/report.txt").chmod(0o644)
    (two.one / "current/report.txt").write_text("nothing\n")
    two.server.start()
    until(lambda: two.told)
    for _ in range(3):
        two.server.step()
    assert two.told == ["the night after version 1 begins a program of its own: its report does not tell how many rows its views have"]
    two.server.close()


def test_a_folder_may_lie_deep_and_is_copied_beside_its_server(tmp_path):
    room = tmp_path / "/".join(["a" * 60] * 3)
    room.mkdir(parents=True)
    two = Two(room)
    with two.served():
        two.night("--commit", orders=COME)
        assert carried_out(["backup", two.one, tmp_path / "backup"])[0] == 0
