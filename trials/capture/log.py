"""Tables that are captured from the log: the same nights as with triggers, and a word where the log does not have all."""

import os
import random
from collections import Counter
from contextlib import ExitStack, suppress
from pathlib import Path
from unittest import mock

from trials.capture import (
    again, writers_beside as beside, catalogues, log_cases, log_drawn, log_parted, log_places, long_texts, refused, values,
)
from trials.capture.application import TABLES, Live
from trials.capture.case import each_case
from trials.capture.cases import BOTH, OF, mistakes
from trials.capture.killed import WRITES, Killed, kill_mistakes
from trials.capture.log_writers import writers_told
from trials.capture.page import log_page_mistakes
from trials.capture.places import LivePostgreSQL
from trials.capture.planted import planted_mistakes
from trials.capture.writers_beside import WRITER
from trials.ended import faults
from trials.servers.beside import Beside
from trials.servers.databases import in_folder
from trials.servers.postgresql import Broken, Server

DROPPED = "SELECT pg_drop_replication_slot(slot_name) FROM pg_replication_slots WHERE database = current_database() AND NOT active;"


class LogServer(Server):
    settings = Server.settings + " -c wal_level=logical -c max_replication_slots=3 -c max_prepared_transactions=3 -c wal_keep_size=0"


class Logged(Live):
    """The application's tables, captured from the log."""

    def captured_by(self, words):
        return ("--from-log", *words) if "--capture" in words else words

    def made(self, *more):
        self.asked(DROPPED)
        super().made(*more)

    def by_triggers(self):
        """The same tables, whose captures do not say by what."""
        return Live(self.database, self.path, self.rows)

    def checked(self):
        """What a check says that does not agree."""
        found = self.written("--check", self.path)
        return [] if found.status == 0 else [f"a check says {found.text or found.told}"[:500]]

    def slot(self):
        return self.asked("SELECT slot_name FROM pg_replication_slots WHERE database = current_database();")


# ---- what applications do


def case_mistakes(live, only=""):
    """All cases of the triggers, with what is told otherwise, and those of the log; and how many there are."""
    cases = {name: case._replace(refused=log_cases.REFUSED.get(name, case.refused)) for name, case in OF["postgresql"].items() if name not in log_cases.WITHOUT}
    return each_case(live, {**cases, **log_cases.CASES, **log_parted.HEALED}, mistakes, only)


# ---- beside triggers


def side_mistakes(live, nights, seed):
    """Drawn writers, whose tables are captured by triggers and from the log at once: all tables of both are the same, night after night."""
    wrong, source, triggers, own = live.fresh(), random.Random(seed), live.by_triggers(), ("--schema", "wt")
    wrong += faults(triggers.run("--capture", *own), triggers.run("--live", "--open", *own))
    night = triggers.words("--live", *own)
    said = [case.said for name, case in BOTH.items() if not case.fails and not case.made and name not in ("a statement that fails",)]
    for number in range(nights):
        for text in [each.format(n=number) for each in source.sample(WRITES, 3)] + source.sample(said, 2):
            with suppress(Broken):
                live.asked(text)
        told = live.night() or live.database.run(night)
        wrong += [f"night {number}: {told}"] if told else unlike_triggers(live, number)
    triggers.run("--uncapture", *own)
    return [f"beside triggers: {text}"[:600] for text in wrong]


def unlike_triggers(live, number):
    """The tables of the nights that are otherwise than those of the triggers."""
    queries = [f'SELECT * FROM {schema}."{name}"' for name in live.columns for schema in ("wh", "wt")]
    answers = iter(live.database.answers(*queries))
    others = [name for name, ours, theirs in zip(live.columns, answers, answers) if Counter(ours) != Counter(theirs)]
    return [f"after night {number} {name} is otherwise than by triggers" for name in others]


# ---- kills


class LogKilled(Killed):
    """A server whose nights are killed, whose changes wait in its log."""

    def uncarried(self):
        return self.live.checked()


def unmoved_mistakes(live):
    """Nights that end before the slot is moved, one after the other, and captures beside them: nothing is twice."""
    wrong = live.fresh()
    without = live.script[: live.script.rindex("DO ")]
    for number in range(4):
        live.asked("".join(each.format(n=number) for each in WRITES))
        told = live.database.run(without) if number != 2 else live.capture()
        wrong += [f"{number}: {told}"] if told else live.checked() + (live.mistakes() if number != 2 else [])
    return [f"a slot that is not moved: {text}" for text in wrong + live.right()]


# ---- the start beside writers


# What writers are told for each other's sake: an order that is gone as its line comes, and two that wait for each other.
OF_WRITERS = ("violates foreign key", "deadlock detected")


def start_mistakes(live, times, many=1500):
    """Captures while writers go on, of which one is amid a transaction: the night after it has all, and nothing twice."""
    wrong = []
    for number in range(times):
        live.made()
        live.asked(WRITER + "TRUNCATE took;")
        some = "".join(WRITES[at % 4].format(n=at) for at in range(60))
        with ExitStack() as stack:
            one, other, late = (stack.enter_context(live.database.another()) for _ in range(3))
            late.asked("BEGIN; UPDATE lines SET pieces = 5 WHERE id = 3;" if number % 2 else "SELECT 1;")
            stack.enter_context(Beside(one.asked, f"CALL writes({many});"))
            told = stack.enter_context(Beside(other.goes_on, some))
            stack.enter_context(Beside(late.asked, "SELECT pg_sleep(1);" + ("COMMIT;" if number % 2 else "")))
            wrong += faults(live.opened() or live.night())
        wrong += [each for each in told.answer if not any(word in each for word in OF_WRITERS)] + live.right() + live.checked()
    return [f"a capture beside writers: {text}"[:600] for text in wrong]


# ---- the slot


def slot_mistakes(live):
    """Slots that are gone, moved, made by somebody else or invalidated: told, and put right by a capture."""
    wrong = []
    for name, (said, word) in log_cases.SLOTS.items():
        wrong += live.fresh()
        (slot,) = live.slot()
        live.asked("UPDATE lines SET pieces = pieces + 1;")
        live.asked(said.format(slot=slot))
        live.asked("DELETE FROM orders WHERE id < 5;")
        wrong += live.refuses(word, f"{name}: ")
        found = live.written("--check", live.path)
        wrong += [] if found.status and word in found.told + found.text else [f"{name}: a check said {found.told or found.text!r}"]
        wrong += live.anew(f"{name}: ") + live.checked()
        live.asked("ALTER SYSTEM RESET ALL; SELECT pg_reload_conf();")
    return [f"the slot: {text}"[:600] for text in wrong]


def wants(found, word, what):
    """What a capture is told otherwise than by a word what it needs."""
    return [] if found and word in found else [f"{what}: {found!r}"]


def refused_mistakes(live, other):
    """What a capture needs, told before anything is made; `other` is a server whose log tells nothing."""
    other.database.fresh()
    other.database.make([TABLES["postgresql"].replace("{rows}", "5")])
    with mock.patch.dict(os.environ, {"PGHOST": str(other.database.server.folder)}):
        wrong = wants(Logged(other.database, other.path).capture(), "set wal_level = logical", "without wal_level")
    wrong += ["a schema was made without wal_level"] if other.asked("SELECT 1 FROM pg_namespace WHERE nspname = 'wh';") else []
    live.made("ALTER SCHEMA public OWNER TO seller; GRANT SELECT ON ALL TABLES IN SCHEMA public TO seller;")
    live.asked("SET client_min_messages = error; CREATE PUBLICATION listed FOR TABLE lines (id, product);")
    wrong += wants(live.capture(), "published with a list of its columns", "beside a list of columns")
    live.asked("UPDATE orders SET id = id + 0; INSERT INTO lines VALUES (1, 'product 1', 1); DROP PUBLICATION listed;")
    wrong += ["a slot was made"] if live.slot() else []
    live.asked("".join(f"SELECT pg_create_physical_replication_slot('other{number}');" for number in range(3)))
    wrong += wants(live.capture(), "no replication slot is free", "without a slot")
    live.asked("SELECT pg_drop_replication_slot('other' || n) FROM generate_series(0, 2) AS n;")
    wrong += wants(live.database.run("SET SESSION AUTHORIZATION seller;\n" + live.words("--capture")), "only a superuser", "without rights")
    wrong += ["a schema was made"] if live.asked("SELECT 1 FROM pg_namespace WHERE nspname = 'wh';") else []
    return [f"what a capture needs: {text}"[:400] for text in wrong]


IDENTITY = "SELECT relreplident FROM pg_class WHERE relname = 'lines' AND relkind = 'r' AND relnamespace = 'public'::regnamespace"


def gone_mistakes(live):
    """After --uncapture there is no slot, no function and no table any more, and tables are told as they were; and triggers give way to the log."""
    wrong = live.fresh("ALTER TABLE lines REPLICA IDENTITY NOTHING;")
    wrong += [] if live.asked(IDENTITY) == ["f"] else ["rows are not told whole"]
    told = live.run("--uncapture")
    left = live.slot() + live.asked(f"{IDENTITY} AND relreplident <> 'n'; SELECT 1 FROM pg_namespace WHERE nspname = 'wh';")
    wrong += [f"--uncapture: {told}, {left}"] if told or left else []
    live.made()
    triggers = live.by_triggers()
    wrong += faults(triggers.opened())
    wrong += [] if live.asked("SELECT 1 FROM pg_trigger WHERE NOT tgisinternal LIMIT 1;") else ["there are no triggers"]
    live.asked("UPDATE lines SET pieces = pieces + 1 WHERE id < 9;")
    wrong += faults(live.capture())
    wrong += ["triggers stayed"] if live.asked("SELECT 1 FROM pg_trigger WHERE NOT tgisinternal LIMIT 1;") else []
    live.asked("DELETE FROM lines WHERE id = 12;")
    wrong += live.right()
    live.asked("DELETE FROM lines WHERE id = 13;")
    wrong += triggers.anew()
    wrong += [] if live.slot() else ["a capture without a word went back to triggers"]
    return [f"to the log and away: {text}" for text in wrong]


# ---- what the trials of triggers have


def both_mistakes(live):
    """Trials of triggers that hold for the log as well: values at the edges of their types, long texts, catalogues that change, captures made again, and two
    nights at once."""
    wrong = values.mistakes(live) + refused.mistakes(live) + long_texts.mistakes(live) + beside.two_mistakes(live, 3) + beside.within_mistakes(live)
    wrong += again.rewritten_mistakes(live) + again.left_out_mistakes(live) + again.half_mistakes(live) + again.published_mistakes(live)
    # What is to do once more is looked for in a script's text, in which the functions stand that read the log.
    changed = [each for each in catalogues.catalogue_mistakes(live)[0] if "once more it is to do" not in each]
    return [f"as by triggers: {text}"[:600] for text in wrong + changed]


SETTINGS = ("quote_all_identifiers = on", "DateStyle = 'German, DMY'", "TimeZone = 'Asia/Tokyo'", "synchronous_commit = off", "extra_float_digits = -5", "IntervalStyle = sql_standard")


def setting_mistakes(live):
    """Nights of sessions that write names, days and times otherwise."""
    wrong = live.fresh()
    for setting in SETTINGS:
        live.asked("UPDATE orders SET day = day + 20, at = at + INTERVAL '3 hours', region = 'region 8' WHERE id < 9; UPDATE products SET price = price + 1;")
        wrong += [f"{setting}: {text}" for text in faults(live.database.run(f"SET {setting};\n" + live.script)) or live.mistakes()]
    return [f"settings: {text}"[:500] for text in wrong]


def prepared_mistakes(live):
    """A transaction that is prepared for several nights comes wholly with the night after its commit, and a capture beside it loses nothing."""
    wrong = live.fresh()
    live.asked("BEGIN; UPDATE lines SET pieces = 9 WHERE id = 3; DELETE FROM orders WHERE id = 9; PREPARE TRANSACTION 'late';")
    for _ in range(2):
        live.asked("UPDATE lines SET pieces = pieces + 1 WHERE id > 10;")
        wrong += live.right() + live.checked()
    live.asked("COMMIT PREPARED 'late';")
    return [f"a late commit in two phases: {text}" for text in wrong + live.right()]


# ---- all of it


def all_mistakes(live, other, seed):
    wrong = side_mistakes(live, 12, seed) + unmoved_mistakes(live) + start_mistakes(live, 4) + slot_mistakes(live) + gone_mistakes(live) + prepared_mistakes(live)
    wrong += setting_mistakes(live)
    wrong += refused_mistakes(live, other) + both_mistakes(live) + log_parted.mistakes(live) + log_drawn.mistakes(live, 8, seed)
    wrong += planted_mistakes(live)
    wrong += log_places.role_mistakes(live) + log_places.owned_mistakes(live) + log_places.standby_mistakes(live) + log_places.restored_mistakes(live)
    return wrong + log_places.subscribed_mistakes(live) + log_places.beside_mistakes(live, 4)


def page_mistakes(live, started):
    """The walk of the page, on a server whose slots keep so much and no more."""
    live.asked(DROPPED + "ALTER SYSTEM SET max_slot_wal_keep_size = '4GB'; SELECT pg_reload_conf();")
    wrong = log_page_mistakes(started, live.database.server)
    live.asked("ALTER SYSTEM RESET ALL; SELECT pg_reload_conf();")
    return wrong


def log_mistakes(started, other, kills, seed, only=""):
    """What is otherwise than it should be, and what was tried."""
    programs = other.database.server.programs
    with LogServer(programs) as server, in_folder() as folder, mock.patch.dict(os.environ, {"PGHOST": str(server.folder)}):
        database = LivePostgreSQL(server)
        database.asked("CREATE ROLE seller;")
        live = Logged(database, Path(folder))
        wrong, many = case_mistakes(live, only)
        if only:
            return wrong, f"{many} cases"
        wrong += all_mistakes(live, other, seed)
        told, ends = kill_mistakes(live, kills, seed, LogKilled)
        wrong += page_mistakes(live, started)
        database.asked(DROPPED)
        shown = f"{many} cases from the log, {kills} kills ({', '.join(f'{ends[end]} {end}' for end in sorted(ends))}), {writers_told(server, folder)}"
        database.session.close()
        return wrong + told, shown
