"""A standby of a server with captured tables: it shows each night at once, carries none out, and goes on where the server is gone."""

import os
from time import monotonic, sleep
from unittest import mock

from trials.capture.application import Live
from trials.capture.places import LivePostgreSQL
from trials.servers.postgresql import Server

WAIT = 60


class Standby(Server):
    """A server that follows another one."""

    def __init__(self, server):
        super().__init__(server.programs)
        self.first = server

    def __enter__(self):
        """A copy of the server's data, which is kept up to date from then on."""
        self.folder = self.made_folder()
        where = f"host={self.first.folder} user=postgres"
        self.called("pg_basebackup", "-D", self.folder / "data", "-d", where, "-R", "-c", "fast", "-X", "stream")
        self.start()
        return self

    def promote(self):
        self.called("pg_ctl", "-D", self.folder / "data", "-w", "promote")

    def database(self, first):
        """A database as the standby has it."""
        return LivePostgreSQL(self, first.name, is_there=True)


def same(first, second):
    """Whether the standby has come as far as the server."""
    began = monotonic()
    (place,) = first.asked("SELECT pg_current_wal_insert_lsn()::text;")
    while second.asked(f"SELECT pg_last_wal_replay_lsn() >= '{place}';") != [True]:
        if monotonic() - began > WAIT:
            return False
        sleep(0.05)
    return True


def checked(followed, word):
    """A check on the standby that says otherwise: it tells what differs, but for a superuser over what is another's."""
    with mock.patch.dict(os.environ, PGHOST=str(followed.database.server.folder)):
        found = followed.written("--check", followed.path)
    return [] if word in found.text + found.told else [f"a check on the standby: {found.text}{found.told}"]


def standby_mistakes(live):
    """What a standby shows, refuses and takes over, where it is otherwise than it should be."""
    wrong, first = live.fresh(), live.database
    with Standby(first.server) as standby:
        followed = Live(standby.database(first), live.path, live.rows)
        live.asked("UPDATE lines SET pieces = pieces + 1 WHERE id < 9; DELETE FROM orders WHERE id = 3;")
        wrong += [] if live.night() is None and same(first, followed.database) else ["the night, or the standby, did not come"]
        wrong += followed.mistakes() + followed.refuses("recovery", "on the standby ") + checked(followed, "all 7 agree")
        live.asked("CREATE ROLE keeper; GRANT ALL ON ALL TABLES IN SCHEMA wh TO keeper; ALTER SCHEMA wh OWNER TO keeper;")
        same(first, followed.database)
        wrong += checked(followed, "is checked as a member of the role")
        live.asked("ALTER SCHEMA wh OWNER TO postgres; DROP OWNED BY keeper; DROP ROLE keeper;")
        live.asked("UPDATE products SET price = 17 WHERE product = 'product 4';")
        same(first, followed.database)
        standby.promote()
        followed.asked("INSERT INTO lines VALUES (1, 'product 1', 1);")
        wrong += followed.right("on the standby that took over: ")
        followed.database.session.close()
    return [f"a standby: {text}" for text in wrong]
