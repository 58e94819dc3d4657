"""A PostgreSQL server of a trial's own, in a temporary folder and over a socket, whose every process has a bounded memory, and sessions of it."""

import os
import pwd
import resource
import shutil
import signal
import subprocess
import tempfile
from contextlib import suppress
from pathlib import Path
from time import sleep

import psycopg

from trials.servers.installed import install
from trials.servers.statements import statements

MEMORY, SECONDS = 2 << 30, 60
UTF8 = {"PGCLIENTENCODING": "UTF8"}


class Broken(Exception):
    """What a database tells of a trial's own statement, which has no fault."""

    def __init__(self, told, statement=""):
        super().__init__(f"{told}\nof\n{statement}" if statement else told)
        self.told = told


def installed():
    """The folder of PostgreSQL's programs, of the newest version that there is, or None."""
    found = sorted(Path("/usr/lib/postgresql").glob("*/bin/initdb"), key=lambda path: int(path.parts[-3]))
    on_path = shutil.which("initdb")
    return found[-1].parent if found else Path(on_path).resolve().parent if on_path else None


def postgresql():
    """The folder of PostgreSQL's programs, which are installed where they are missing and that can be done; else None."""
    install("postgresql", installed)
    return installed()


def bounded():
    resource.setrlimit(resource.RLIMIT_AS, (MEMORY, MEMORY))


def without_psql(text):
    """A script for a client that does not know psql's own commands."""
    return "\n".join(line for line in text.split("\n") if not line.startswith("\\"))


class Session:
    """A session of the trial's own, which sends each statement by itself, as psql does. Beside it others may be at work in threads."""

    def __init__(self, server, database, user="postgres"):
        self.warnings = []
        try:
            self.connection = psycopg.connect(
                host=str(server.folder), user=user, dbname=database, client_encoding="utf8", options="-c client_min_messages=warning", autocommit=True,
                prepare_threshold=None,
            )
        except psycopg.Error as fault:
            raise Broken(str(fault)) from fault
        self.connection.add_notice_handler(lambda notice: self.warnings.append(f"{notice.severity}: {notice.message_primary}"))

    def __enter__(self):
        return self

    def __exit__(self, *_):
        self.close()

    def close(self):
        self.connection.close()

    def rows(self, query):
        try:
            cursor = self.connection.execute(query)
            return cursor.fetchall() if cursor.description else []
        except psycopg.Error as fault:
            raise Broken(str(fault), query) from fault

    def asked(self, text):
        """What statements answer, row by row: the cell of a row that has but one."""
        return [row[0] if len(row) == 1 else row for each in statements(text) for row in self.rows(each)]

    def goes_on(self, text):
        """Carries statements out, also after one that fails, and answers what was told of those that did."""
        told = []
        for each in statements(text):
            try:
                self.rows(each)
            except Broken as fault:
                told.append(fault.told)
        return told + self.warnings


class Server:
    """A server that can be killed and started again."""

    settings = "-c listen_addresses='' -c fsync=off -c shared_buffers=32MB -c max_connections=20"

    def __init__(self, programs):
        self.programs = programs

    def __enter__(self):
        self.folder = self.made_folder()
        self.called("initdb", "-D", self.folder / "data", "-U", "postgres", "-A", "trust", "-E", "UTF8", "--no-locale", "-N")
        self.start()
        return self

    def __exit__(self, *_):
        self.called("pg_ctl", "-D", self.folder / "data", "-m", "immediate", "-w", "stop")
        shutil.rmtree(self.folder, ignore_errors=True)

    def made_folder(self):
        """A folder of the server's own, and of whom it runs as, which root may not be."""
        found, self.user = Path(tempfile.mkdtemp(prefix="whview_sql")), None
        if os.geteuid() == 0:
            there = {user.pw_name for user in pwd.getpwall()}
            self.user = next(name for name in ("postgres", "nobody") if name in there)
            shutil.chown(found, self.user)
        return found

    def start(self):
        self.called("pg_ctl", "-D", self.folder / "data", "-w", "-l", self.folder / "log", "-o", f"{self.settings} -k {self.folder}", "start")

    def called(self, name, *words):
        quiet = {"stdout": subprocess.DEVNULL, "stderr": subprocess.STDOUT}
        command = [self.programs / name, *map(str, words)]
        subprocess.run(command, check=True, user=self.user, cwd="/", preexec_fn=bounded if name == "pg_ctl" else None, **quiet)

    def postmaster(self):
        """The number of the server's first process."""
        return int((self.folder / "data/postmaster.pid").read_text().split()[0])

    def kill(self):
        """Kills all processes of the server at once."""
        number = self.postmaster()
        children = Path(f"/proc/{number}/task/{number}/children").read_text().split()
        for each in [number, *map(int, children)]:
            with suppress(ProcessLookupError):
                os.kill(each, signal.SIGKILL)
        while any(Path(f"/proc/{each}").exists() and " Z " not in Path(f"/proc/{each}/stat").read_text() for each in [number, *children]):
            sleep(0.01)
        for lock in ("data/postmaster.pid", ".s.PGSQL.5432.lock"):
            (self.folder / lock).unlink(missing_ok=True)

    def seconds(self):
        """The processor's time that the server and its backends took."""
        times = Path(f"/proc/{self.postmaster()}/stat").read_text().rpartition(")")[2].split()[11:15]
        return sum(map(int, times)) / os.sysconf("SC_CLK_TCK")

    def session(self, database="postgres", user="postgres"):
        return Session(self, database, user)

    def client(self, name, *words):
        """The words that start one of the server's own clients."""
        return [str(each) for each in (self.programs / name, "-h", self.folder, *words)]

    def asking(self, database, words=(), user="postgres"):
        return self.client("psql", "-U", user, "-X", "-q", "-A", "-t", *words, database)

    def psql(self, database, words=(), user="postgres", surroundings=UTF8, given=None):
        """psql with these words, and what it is given to read."""
        surroundings = {**os.environ, **surroundings}
        return subprocess.run(self.asking(database, words, user), input=given, capture_output=True, env=surroundings, timeout=SECONDS)
