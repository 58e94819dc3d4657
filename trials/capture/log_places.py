"""Captures from the log where another role carries nights out, where a standby takes over, and where a database is restored."""

import os
import subprocess
import threading
from itertools import count
from time import sleep
from unittest import mock

from trials.capture import intruders
from trials.capture.again import GOES, SUBSCRIBED, applied
from trials.capture.application import TABLES
from trials.capture.intruders import GONE, ROLE
from trials.capture.killed import WRITES
from trials.capture.places import LivePostgreSQL
from trials.capture.standby import Standby, same
from trials.ended import faults
from trials.servers.beside import Beside
from trials.servers.postgresql import Broken, Server

SECRET = "CREATE TABLE secret (id int PRIMARY KEY, said text); CREATE TABLE \"secret: lines\" (id int); INSERT INTO secret VALUES (1, 'hidden');"
# What nobody may who is neither the nights' role nor a superuser, and what that role may not either.
OF_NIGHTS = ('SELECT count(*) FROM wh."~read"();', "SELECT wh.\"~move\"('0/0');", 'SELECT wh."~take"(TRUE);', 'SELECT wh."lines~logged"();', 'SELECT wh."~cells"(\'\', \'\', \'{}\');')
OF_NOBODY = (
    "SELECT count(*) FROM pg_logical_slot_peek_changes('{slot}', NULL, NULL);", "SELECT pg_drop_replication_slot('{slot}');", "SELECT pg_replication_slot_advance('{slot}', '0/1');",
    "SET ROLE keeper_log;", "CREATE OR REPLACE FUNCTION wh.\"~move\"(upto pg_lsn) RETURNS void LANGUAGE sql AS 'SELECT';",
    "ALTER FUNCTION wh.\"~move\"(pg_lsn) SET search_path = wh;", "ALTER FUNCTION wh.\"~read\"() OWNER TO keeper;",
)
# What somebody puts before the server's own names, to be called in its place by whoever owns what reads the log.
PLANTED = (
    "CREATE TABLE caught (called text, whose name); GRANT ALL ON caught TO PUBLIC; SET ROLE keeper; CREATE FUNCTION pg_temp.split_part(text, text, int) RETURNS text LANGUAGE plpgsql AS"
    " $f$ BEGIN INSERT INTO public.caught VALUES ('temporary', current_user); RETURN ''; END $f$; CREATE FUNCTION wh.starts_with(text, text) RETURNS boolean LANGUAGE plpgsql AS"
    " $f$ BEGIN INSERT INTO public.caught VALUES ('schema', current_user); RETURN TRUE; END $f$; CREATE TEMPORARY VIEW pg_replication_slots AS SELECT 1 AS slot_name;"
    " SET search_path = wh, pg_temp, public; SELECT count(*) >= 0 FROM wh.\"~read\"(); SELECT wh.\"~move\"('0/0'); SET search_path = public; RESET ROLE;"
    " DROP VIEW pg_temp.pg_replication_slots; DROP FUNCTION wh.starts_with(text, text);"
)


def denied(live, role, statements):
    """Statements that a role is not denied."""
    found = []
    for said in statements:
        try:
            live.asked(f"SET SESSION AUTHORIZATION {role}; {said}")
            found.append(f"{role} may {said}")
        except Broken as told:
            found += [] if "permission denied" in str(told) or "must be" in str(told) else [f"{role} is told {str(told)[:200]} of {said}"]
    live.asked("RESET SESSION AUTHORIZATION;")
    return found


def role_mistakes(live):
    """Nights of a role of their own: what reads the slot is another one's, who may use slots and nothing else, and tells the captured tables' changes alone."""
    live.as_whom = ("--without-role",)
    wrong = live.fresh(SECRET, "GRANT USAGE ON SCHEMA public TO seller; ALTER TABLE lines OWNER TO seller; GRANT REFERENCES ON orders TO seller;")
    live.as_whom = ()
    for _ in range(2):
        wrong += [f"--capture --role: {told}" for told in faults(live.opened("--role", ROLE))]
        live.asked("UPDATE lines SET pieces = pieces + 1 WHERE id < 9; DELETE FROM orders WHERE id = 7; INSERT INTO secret SELECT max(id) + 1, 'hidden' FROM secret;")
        told = live.database.run("SET ROLE keeper;\n" + live.script)
        wrong += [f"the role's own night: {told}"] if told else live.mistakes() + live.checked()
    # All else that is carried out as its owner is the nights' own role's, and does not name the slot.
    owned = "SELECT DISTINCT proowner::regrole::text FROM pg_proc WHERE prosecdef AND pronamespace = 'wh'::regnamespace AND prosrc {like} '%slot%';"
    owners, others = (live.asked(owned.format(like=like)) for like in ("LIKE", "NOT LIKE"))
    wrong += [] if others in ([], [ROLE]) else [f"what is carried out as its owner is {others}'s"]
    may = live.asked("SELECT rolname FROM pg_roles WHERE rolname = 'keeper_log' AND rolreplication"
                     " AND NOT (rolsuper OR rolcanlogin OR rolcreaterole OR rolcreatedb OR rolbypassrls);")
    wrong += [] if owners == may == ["keeper_log"] else [f"what reads the log is {owners}'s, and {may}"]
    return [f"a role of nights: {text}" for text in wrong + read_mistakes(live)]


def read_mistakes(live):
    """What the role reads of the log, and what others do not."""
    (slot,), wrong = live.slot(), []
    live.asked("INSERT INTO secret SELECT max(id) + 1, 'hidden' FROM secret; INSERT INTO \"secret: lines\" VALUES (1); UPDATE lines SET pieces = 2 WHERE id = 3;")
    shown = live.asked("SET ROLE keeper; SELECT DISTINCT part FROM wh.\"~read\"() WHERE part IS NOT NULL; RESET ROLE;")
    wrong += [] if shown == ["public.lines"] else [f"the role reads changes of {shown}"]
    live.asked("REVOKE SELECT ON lines FROM keeper;")
    shown = live.asked("SET ROLE keeper; SELECT DISTINCT part FROM wh.\"~read\"() WHERE part IS NOT NULL; RESET ROLE; GRANT SELECT ON lines TO keeper;")
    wrong += [f"without its right the role reads changes of {shown}"] if shown else []
    live.asked("GRANT USAGE ON SCHEMA wh TO seller;")
    wrong += denied(live, "seller", [*OF_NIGHTS, *(each.format(slot=slot) for each in OF_NOBODY)]) + denied(live, ROLE, [each.format(slot=slot) for each in OF_NOBODY])
    live.asked(PLANTED)
    wrong += intruders.caught(live, "what is planted") + live.right()
    told = live.run("--uncapture")
    wrong += [f"--uncapture: {told}"] if told else [f"{each} is left" for each in live.asked("SELECT relname FROM pg_class WHERE relowner = 'keeper'::regrole;") + live.slot()]
    live.asked(GONE)
    return wrong


def owned_mistakes(live):
    """Types, casts, views and indexes of whoever owns a captured table: nothing of his is called by a capture or a night."""
    live.as_whom = ("--without-role",)
    wrong = [f"what is the seller's: {text}" for each in (intruders.of_later, intruders.of_colour, intruders.viewed, intruders.of_before) for text in each(live)]
    live.as_whom = ()
    return wrong


# ---- other servers


class LogStandby(Standby):
    """A server that follows one whose log tells changes."""

    settings = Server.settings + " -c wal_level=logical -c max_replication_slots=3 -c max_prepared_transactions=3"


def standby_mistakes(live):
    """A standby that takes over has no slot: its first night says so, and a capture puts it right."""
    wrong, first = live.fresh(), live.database
    with LogStandby(first.server) as standby:
        followed = type(live)(standby.database(first), live.path, live.rows)
        live.asked("UPDATE lines SET pieces = pieces + 1 WHERE id < 9; DELETE FROM orders WHERE id = 3;")
        wrong += [] if live.night() is None and same(first, followed.database) else ["the night, or the standby, did not come"]
        wrong += followed.mistakes()
        live.asked("UPDATE products SET price = 17 WHERE product = 'product 4';")
        same(first, followed.database)
        standby.promote()
        followed.asked("INSERT INTO lines VALUES (1, 'product 1', 1);")
        with mock.patch.dict(os.environ, {"PGHOST": str(standby.folder)}):
            wrong += followed.refuses("is gone", "on the standby that took over ") + followed.anew() + followed.checked()
        followed.database.session.close()
    return [f"a standby: {text}" for text in wrong]


def restored_mistakes(live):
    """A copy of the database, as a dump or a template makes it, has no slot of its own."""
    wrong = live.fresh()
    live.asked("UPDATE lines SET pieces = pieces + 1;")
    for name, copied in (("by_dump", dumped), ("by_template", from_template)):
        there = type(live)(copied(live, name), live.path, live.rows)
        told = there.night()
        wrong += [] if told and ("is gone" in told or "is no part of it any more" in told) else [f"{name}: a night is told {told!r}"]
        wrong += there.anew(f"{name}: ") + there.checked()
        there.asked("SELECT pg_drop_replication_slot(slot_name) FROM pg_replication_slots WHERE database = current_database();")
        there.database.session.close()
    return [f"a copy of the database: {text}" for text in wrong + live.right()]


def dumped(live, name):
    """A database that a dump of another one is put into."""
    server, copy = live.database.server, LivePostgreSQL(live.database.server, name)
    copy.asked("DROP SCHEMA watch CASCADE;")
    dump = subprocess.run(server.client("pg_dump", "-U", "postgres", live.database.name), capture_output=True, check=True).stdout
    found = server.psql(name, ("-v", "ON_ERROR_STOP=1"), given=dump)
    if found.returncode:
        raise Broken(found.stderr.decode())
    return copy


def from_template(live, name):
    """A database that is made of another one, to which nobody is connected meanwhile."""
    server = live.database.server
    live.database.session.close()
    with server.session() as other:
        other.asked(f"SELECT pg_terminate_backend(pid, 5000) FROM pg_stat_activity WHERE datname = '{live.database.name}';")
        other.asked(f"CREATE DATABASE {name} TEMPLATE {live.database.name};")
    live.database.renew()
    return LivePostgreSQL(server, name, is_there=True)


# ---- rows that come by logical replication

PUBLISHED = "UPDATE lines SET pieces = pieces + 1 WHERE id < 4; DELETE FROM lines WHERE id = 5; INSERT INTO lines VALUES (7, 'product 7', {many});"
ENDED = (
    "SELECT pg_terminate_backend(active_pid) FROM pg_replication_slots WHERE slot_name = 's' AND active; SELECT pg_sleep(0.5); SELECT pg_drop_replication_slot('s');"
)


def subscribed_mistakes(live):
    """Rows that come by a subscription are captured as any others."""
    server, wrong = live.database.server, live.fresh()
    first = LivePostgreSQL(server, "publisher")
    first.make([TABLES["postgresql"].replace("{rows}", "9"), "ALTER TABLE lines REPLICA IDENTITY FULL; CREATE PUBLICATION p FOR TABLE lines;"])
    first.asked("SELECT pg_create_logical_replication_slot('s', 'pgoutput');")
    live.asked("SET client_min_messages = error; DELETE FROM lines;")
    live.asked(SUBSCRIBED.format(name=first.name, folder=server.folder, copies="true"))
    for many in (21, 22):
        first.asked(PUBLISHED.format(many=many))
        wrong += ([] if applied(live, many) else ["nothing came by the subscription"]) + live.right() + live.checked()
    wrong += live.anew("a capture beside a subscription: ")
    live.asked(GOES)
    sleep(0.5)
    first.asked(ENDED)
    first.session.close()
    return [f"a subscription: {text}"[:500] for text in wrong]


# ---- checks beside nights


def nights_until(live, is_over):
    """Nights one after the other, and what each was told."""
    ends = []
    while not is_over.is_set():
        ends.append(live.night())
    return ends


def writes_until(live, is_over):
    with live.database.another() as session:
        for number in count():
            if is_over.is_set():
                break
            session.asked(WRITES[number % 4].format(n=number))


def beside_mistakes(live, times):
    """Checks, the history and sizes while nights and writers go on: whatever they say is right."""
    wrong, is_over = live.fresh(), threading.Event()
    with Beside(nights_until, live, is_over) as nights, Beside(writes_until, live, is_over):
        for _ in range(times):
            wrong += live.checked()
            wrong += [found.told for words in (["--history", "--line"], ["--sizes"]) for found in [live.written(*words, live.path)] if found.status]
        is_over.set()
    line = live.written("--history", "--line", live.path).text
    wrong += [] if "log_bytes=" in line and "log_state=reserved" in line else [f"the history says {line}"]
    wrong += faults(*nights.answer) + live.right()
    return [f"checks beside nights: {text}"[:500] for text in wrong] + ([] if len(nights.answer) > 2 else ["too few nights"])
