"""Databases that nights are tried on: one of a PostgreSQL server, and a file of SQLite. Both have the same calls."""

import os
import sqlite3
import subprocess
import tempfile
from collections import Counter
from contextlib import closing
from pathlib import Path
from typing import NamedTuple

from trials.servers.postgresql import SECONDS, UTF8, Broken, bounded, without_psql

# All rows of all tables, each row as JSON, and what the tables are: what a night that is refused leaves as it was.
WATCH = r"""
CREATE SCHEMA watch;
CREATE FUNCTION watch.leaves() RETURNS TABLE (leaf oid, root oid) LANGUAGE sql AS $$
  WITH RECURSIVE up AS (
    SELECT c.oid AS leaf, c.oid AS root FROM pg_class AS c JOIN pg_namespace AS n ON n.oid = c.relnamespace
    WHERE c.relkind = 'r' AND n.nspname !~ '^pg_|^information_schema$|^watch$'
    UNION ALL SELECT up.leaf, i.inhparent FROM up JOIN pg_inherits AS i ON i.inhrelid = up.root)
  SELECT leaf, root FROM up WHERE NOT EXISTS (SELECT FROM pg_inherits AS i WHERE i.inhrelid = up.root) $$;
CREATE FUNCTION watch.rows() RETURNS SETOF json LANGUAGE plpgsql AS $$
DECLARE found record;
BEGIN
  FOR found IN SELECT l.leaf, n.nspname || '.' || r.relname AS root, format('%I.%I', m.nspname, c.relname) AS name
    FROM watch.leaves() AS l JOIN pg_class AS c ON c.oid = l.leaf JOIN pg_namespace AS m ON m.oid = c.relnamespace
    JOIN pg_class AS r ON r.oid = l.root JOIN pg_namespace AS n ON n.oid = r.relnamespace
  LOOP
    RETURN QUERY EXECUTE format('SELECT json_build_array(%L::text, %L::text, to_json("~"), count(*)) FROM ONLY %s AS "~" GROUP BY "~"',
                                found.root, found.name, found.name);
  END LOOP;
END $$;
CREATE FUNCTION watch.own(space oid) RETURNS boolean LANGUAGE sql AS $$
  SELECT nspname !~ '^pg_|^information_schema$|^watch$' FROM pg_namespace WHERE oid = space $$;
CREATE FUNCTION watch.definitions() RETURNS SETOF json LANGUAGE sql AS $$
  SELECT json_build_array('relation', oid::regclass, relkind, relowner, relacl::text, relnatts) FROM pg_class WHERE watch.own(relnamespace)
  UNION ALL SELECT json_build_array('column', attrelid::regclass, attname, atttypid::regtype, attnotnull, attacl::text)
    FROM pg_attribute JOIN pg_class AS c ON c.oid = attrelid WHERE watch.own(c.relnamespace) AND attnum > 0
  UNION ALL SELECT json_build_array('constraint', conrelid::regclass, conname, pg_get_constraintdef(oid), condeferrable) FROM pg_constraint
    WHERE watch.own(connamespace)
  UNION ALL SELECT json_build_array('index', pg_get_indexdef(i.indexrelid), indisvalid) FROM pg_index AS i
    JOIN pg_class AS c ON c.oid = i.indexrelid WHERE watch.own(c.relnamespace)
  UNION ALL SELECT json_build_array('trigger', pg_get_triggerdef(t.oid), tgenabled) FROM pg_trigger AS t
    JOIN pg_class AS c ON c.oid = tgrelid WHERE watch.own(c.relnamespace)
  UNION ALL SELECT json_build_array('function', oid::regprocedure, prosrc) FROM pg_proc WHERE watch.own(pronamespace)
  UNION ALL SELECT json_build_array('schema', nspname, nspacl::text) FROM pg_namespace WHERE nspname !~ '^pg_(temp|toast_temp)'
  UNION ALL SELECT json_build_array('role', rolname, rolsuper) FROM pg_authid
  UNION ALL SELECT json_build_array('database', datname) FROM pg_database
  UNION ALL SELECT json_build_array('of the system', count(*), sum(relnatts)) FROM pg_class WHERE oid < 16384 $$;
"""
LISTED = """SELECT c.relname, array_agg(a.attname::text ORDER BY a.attnum) FROM pg_class AS c JOIN pg_attribute AS a ON a.attrelid = c.oid AND a.attnum > 0
WHERE c.relnamespace = '{schema}'::regnamespace AND c.relkind = 'r' GROUP BY c.oid, c.relname ORDER BY c.oid"""


class Client(NamedTuple):
    """How a script comes to the database: words of the client, its surroundings, and whether psql's own commands are left out."""

    words: tuple = ()
    surroundings: dict = {}
    is_piped: bool = False
    is_bare: bool = False
    name: str = "shell"


PSQL, SHELL = Client(("-v", "ON_ERROR_STOP=1")), Client(("-bail",))


class State(NamedTuple):
    """The rows of each table, by its whole and its own name, and the definitions."""

    tables: dict
    definitions: Counter

    def rows(self, name):
        """The rows of a table and of its parts."""
        found = Counter()
        for (root, _), rows in self.tables.items():
            found.update(rows if root == name else {})
        return found

    def differences(self, other):
        """What is otherwise in another state, in words."""
        names = [name for name in self.tables | other.tables if self.tables.get(name) != other.tables.get(name)]
        found = [f"{name}: {shown(self.tables.get(name))} became {shown(other.tables.get(name))}" for name in names]
        gone, come = self.definitions - other.definitions, other.definitions - self.definitions
        return found + [f"definition gone: {each}" for each in gone] + [f"definition come: {each}" for each in come]


def shown(rows):
    return "nothing" if not rows else ", ".join(f"{times} x {dict(row)}" for row, times in list(rows.items())[:8])


def quoted(name):
    return '"' + name.replace('"', '""') + '"'


def in_folder():
    """A folder of the trial's own, in memory where there is room for files."""
    return tempfile.TemporaryDirectory(prefix="whview_databases", dir="/dev/shm" if os.access("/dev/shm", os.W_OK) else None)


class PostgreSQLDatabase:
    """A database of a server, which is made where it is not there, and emptied for each night."""

    engine, refers, own_client = "postgresql", True, PSQL

    def __init__(self, server, name="tried", encoding="UTF8", locale="C", is_there=False):
        self.server, self.name, self.encoding = server, name, encoding
        self.schemas, self.schema, self.role = ["public"], "public", "postgres"
        self.script = server.folder / f"{name}.sql"
        if not is_there:
            with server.session() as session:
                session.asked(f"CREATE DATABASE {name} ENCODING '{encoding}' LOCALE '{locale}' TEMPLATE template0;")
        self.renew()
        if not is_there:
            self.asked(WATCH)

    def another(self):
        """A session more, for whoever is at work beside."""
        return self.server.session(self.name)

    def renew(self):
        """A session in the place of one that is broken."""
        self.session = self.another()

    def asked(self, text):
        """What the trial's own statements answer. Where one has a fault, the session is another one then."""
        try:
            return self.session.asked(text)
        except Broken:
            self.session.close()
            self.renew()
            raise

    def answers(self, *queries):
        return [self.session.rows(query) for query in queries]

    def fresh(self, schema="public", more=(), role="postgres"):
        """The database with these empty schemas alone."""
        dropped = "".join(f"DROP SCHEMA IF EXISTS {quoted(name)} CASCADE;" for name in self.schemas)
        self.schema, self.schemas, self.role = schema, [schema, *more], role
        self.asked(dropped + "".join(f"CREATE SCHEMA {quoted(name)};" for name in self.schemas))

    def make(self, statements):
        self.asked("\n".join(["BEGIN;", *statements, "COMMIT;"]))

    def state(self):
        tables = {}
        for root, leaf, row, times in self.asked("SELECT * FROM watch.rows();"):
            tables.setdefault((root, leaf), Counter())[tuple(row.items())] += times
        return State(tables, Counter(self.asked("SELECT told::text FROM watch.definitions() AS told;")))

    def listed(self):
        """The names and columns of the schema's tables, in the order in which they were made."""
        return self.session.rows(LISTED.format(schema=quoted(self.schema)))

    def named(self, name):
        """A table's name as a state has it."""
        return f"{self.schema}.{name}"

    def run(self, text, client=PSQL):
        """What is told where a script does not go through, or None."""
        text = without_psql(text) if client.is_bare else text
        self.script.write_bytes(text.encode())
        words = client.words if client.is_piped else (*client.words, "-f", self.script)
        ran = self.server.psql(self.name, words, self.role, client.surroundings, text.encode() if client.is_piped else b"")
        told = ran.stderr.decode(errors="replace")
        return told or f"status {ran.returncode}" if ran.returncode or "ERROR" in told or "FATAL" in told else None

    def begun(self, text):
        """A client that carries a script out, which can be killed."""
        self.script.write_bytes(text.encode())
        words = self.server.asking(self.name, (*PSQL.words, "-f", self.script))
        return subprocess.Popen(words, stdout=subprocess.DEVNULL, stderr=subprocess.PIPE, env={**os.environ, **UTF8})


class SQLiteDatabase:
    """A file of SQLite, which is made anew for each night."""

    engine, schema, encoding, own_client = "sqlite", "main", "UTF8", SHELL

    def __init__(self, folder, has_foreign_keys=True):
        self.folder, self.has_foreign_keys, self.refers = Path(folder), has_foreign_keys, has_foreign_keys
        self.path, self.script = self.folder / "warehouse.db", self.folder / "night.sql"

    def fresh(self, *_, **__):
        for path in self.folder.glob("warehouse.db*"):
            path.unlink()

    def opened(self):
        """A session, to be used in a `with`."""
        found = sqlite3.connect(self.path, isolation_level=None)
        found.execute(f"PRAGMA foreign_keys = {int(self.has_foreign_keys)}")
        return closing(found)

    def asked(self, text):
        """Carries statements out, whose foreign keys are in force."""
        with self.opened() as database:
            database.executescript(text)

    def answers(self, *queries):
        """The rows of each query, by one snapshot."""
        with self.opened() as database:
            database.execute("BEGIN")
            return [database.execute(query).fetchall() for query in queries]

    def make(self, statements):
        try:
            self.asked("\n".join(["PRAGMA foreign_keys = 0; BEGIN;", *statements, "COMMIT;"]))
        except sqlite3.Error as fault:
            raise Broken(str(fault), "\n".join(statements)) from fault

    def state(self):
        with self.opened() as database:
            made = database.execute("SELECT type, name, tbl_name, sql FROM sqlite_schema").fetchall()
            tables = {(name, name): self.rows(database, name) for kind, name, _, _ in made if kind == "table"}
        return State({name: rows for name, rows in tables.items() if rows}, Counter(made))

    def listed(self):
        """The names and columns of the tables, in the order in which they were made."""
        with self.opened() as database:
            names = database.execute("SELECT name FROM sqlite_schema WHERE type = 'table' ORDER BY rowid").fetchall()
            return [(name, [row[1] for row in database.execute(f"PRAGMA table_info({quoted(name)})")]) for name, in names]

    def rows(self, database, name):
        told = database.execute(f"SELECT * FROM {quoted(name)}")
        columns = [column for column, *_ in told.description]
        return Counter(tuple(zip(columns, row)) for row in told)

    def named(self, name):
        return name

    def run(self, text, client=SHELL):
        """What is told where a script does not go through, or None."""
        return getattr(self, f"by_{client.name}")(text, client)

    def by_shell(self, text, client):
        self.script.write_bytes(text.encode())
        words = ["sqlite3", *client.words, "-cmd", f"PRAGMA foreign_keys = {int(self.has_foreign_keys)}", self.path]
        ran = subprocess.run(words, input=text.encode(), capture_output=True, timeout=SECONDS, preexec_fn=bounded)
        return ran.stderr.decode(errors="replace") or (f"status {ran.returncode}" if ran.returncode else None)

    def by_executescript(self, text, _):
        try:
            self.asked(text)
        except sqlite3.Error as fault:
            return str(fault)
        return None

    def by_statements(self, text, _):
        """A client that goes on after an error, and commits in the end."""
        begun, told = "", []
        with self.opened() as database:
            for line in text.split("\n"):
                begun += line + "\n"
                if sqlite3.complete_statement(begun):
                    try:
                        database.execute(begun)
                    except sqlite3.Error as fault:
                        told.append(str(fault))
                    begun = ""
            if database.in_transaction:
                database.commit()
        return "\n".join(told) or None

    def begun(self, text):
        """A client that carries a script out, which can be killed."""
        self.script.write_bytes(text.encode())
        return subprocess.Popen(["sqlite3", "-bail", self.path, f".read {self.script}"], stdout=subprocess.DEVNULL, stderr=subprocess.PIPE)
