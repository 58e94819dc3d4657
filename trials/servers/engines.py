"""Engines that a drawn night's script is tried on, a schema or a database for each warehouse: SQLite in memory, and a PostgreSQL server."""

import sqlite3
from contextlib import nullcontext

from trials.servers.postgresql import Broken, without_psql
from whview.sql.postgresql import UNREAD, PostgreSQL
from whview.sql.sqlite import SQLite

SCHEMA = 'the "house"'
QUOTED = '"the ""house"""'


def texts(dialect, lines):
    """Lines as text, of which some may be tokens."""
    return [each if isinstance(each, str) else dialect.written([each])[0] for each in lines]


class SQLiteEngine:
    """A database in memory for each warehouse."""

    dialect = SQLite()

    def fresh(self):
        self.database = sqlite3.connect(":memory:", isolation_level=None)

    def run(self, lines):
        """What is told where a statement fails, and then nothing is changed."""
        try:
            self.database.executescript("\n".join(texts(self.dialect, lines)))
        except sqlite3.Error as told:
            if self.database.in_transaction:
                self.database.rollback()
            return str(told)
        return None

    def contents(self, asked):
        return [self.database.execute(f"SELECT {', '.join(columns)} FROM {table}").fetchall() for table, columns in asked]


class PostgreSQLEngine:
    """A schema of a server for each warehouse."""

    def __init__(self, server, dialect=PostgreSQL(SCHEMA)):
        self.server, self.dialect = server, dialect

    def fresh(self):
        with self.server.session() as session:
            session.asked(f"DROP SCHEMA IF EXISTS {QUOTED} CASCADE; CREATE SCHEMA {QUOTED};")

    def session(self):
        """A session that looks names up in the schema."""
        found = self.server.session()
        found.asked(f"SET search_path = {QUOTED};")
        return found

    def script(self, lines):
        """Lines as a client has them that is not psql."""
        return without_psql("\n".join(texts(self.dialect, lines)))

    def run(self, lines):
        """What is told where a statement fails, and then nothing is changed. All statements of a block are read, also those that are not run."""
        with self.session() as session:
            try:
                session.asked(self.script(line for line in lines if line != UNREAD))
            except Broken as fault:
                return fault.told
        return None

    def contents(self, asked, by=None):
        """Each table's rows, by a session that is there or one of its own."""
        with nullcontext(by) if by else self.session() as session:
            return [session.rows(f"SELECT {', '.join(columns)} FROM {table}") for table, columns in asked]
