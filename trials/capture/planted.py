"""Functions, operators, types and tables of others that fit what whview sql writes better than the server's own, in the schema of the tables and in the
session's temporary one: no script calls or reads one of them, whatever the path of names is."""

import re
from itertools import product
from unittest import mock

from trials.capture.again import less
from trials.ended import faults
from trials.servers.databases import Client
from trials.tables.given_nights import written
from whview.sql.capture.database import PostgreSQLAsked
from whview.sql.capture.session import PostgreSQLSession

FIRST_IN_PATH = Client(("-v", "ON_ERROR_STOP=1"), {"PGOPTIONS": "-c search_path=public,pg_catalog", "PGCLIENTENCODING": "UTF8"})
QUOTED = re.compile(r"E?'(?:[^'\\]|''|\\.)*'|\"(?:[^\"]|\"\")*\"|--[^\n]*")
CALL = re.compile(r"\b([a-z_][a-z0-9_]*)\(")
CATALOGUE = re.compile(r"\bpg_[a-z_]+\b")
MARKS = ("=", "<>", "<", ">", "<=", ">=", "+", "-", "*", "/", "||", "&")
# Types that stand in calls, and those by which calls of three are planted; calls of more are of texts, or as they are made, below.
TYPES = ("text", "int4", "int8", "numeric", "name", "oid", "regclass", "bool", '"char"', "float8", "xid", "int2", "timestamptz", "tid")
FEW, WIDEST = ("text", "int4", "int8", "name", "bool"), 14
WIDE = (
    ("json_build_array", "name, text, bool, name, text, text, int4, bool, bool, int8, bool"), ("json_build_array", "name, text, name, text, text, int4, bool, bool"),
    ("json_build_array", "name, text, name, text, name, int4, bool, bool"), ("json_build_array", "name, json"), ("json_build_array", "numeric, numeric"),
    ("json_build_array", "int8, text, int8, int8, int8"), ("json_build_array", "int8, text, int8, float8"), ("json_build_array", "text, int8, int8, int8"),
    ("concat_ws", "text, xid, text"), ("concat_ws", 'text, name, oid, "char"'), ("concat_ws", "text, name, text, oid[], text[], xid[], xid[], xid[], xid[], xid[]"),
    ("json_build_array", "text, numeric, int8, int8, text"), ("json_build_array", "int8, numeric"), ("json_build_array", "int8, int8, numeric, numeric, int8, text, int8"),
    ("json_build_array", "int8, int8, numeric, numeric, int8, int8, text, text, int8"), ("sha256", "bytea"), ("encode", "bytea, text"),
    ("format", "text, text, regclass"), ("format", "text, name, name, text"), ("concat", "text, text, text, regclass, text"),
)
GIVES = {"||": "text", "+": "int8", "-": "int8", "*": "int8", "/": "int8", "&": "int8"}
BODY = "LANGUAGE plpgsql AS $$ BEGIN RAISE EXCEPTION 'planted: {}'; END $$;"
LATER = "UPDATE lines SET pieces = pieces + 1 WHERE id < 9; UPDATE orders SET region = 'region 1', at = NULL WHERE id = 5; DELETE FROM orders WHERE id = 7;"
# What is told of the nights' tables.
TOLD = (["--check"], ["--check", "--in-turn"], ["--check", "--repair"], ["--history"], ["--history", "--line"])
CHANGING = (["--capture", "--changed"], ["--live", "--open", "--changed"])
# What an application writes without a call or an operator of its own.
WRITES = "UPDATE lines SET pieces = 4; UPDATE orders SET region = 'region 1', at = NULL; INSERT INTO lines VALUES (3, 'product 3', 3); DELETE FROM products; TRUNCATE lines;"
PLANTER = "CREATE ROLE planter; GRANT ALL ON SCHEMA public TO planter; SET ROLE planter; SET client_min_messages = error;"
OWNED = "SELECT 'DROP FUNCTION ' || p.oid::regprocedure::text || ' CASCADE;' FROM pg_proc AS p WHERE p.proowner = 'planter'::regrole;"
UNPLANTED = "DROP SCHEMA IF EXISTS own CASCADE; DROP OWNED BY planter CASCADE; DROP ROLE planter;"


class Asked:
    """What whview sql asks a database for, noted as it is written."""

    def __init__(self):
        self.texts, self.runs = [], {kind: kind.run for kind in (PostgreSQLAsked, PostgreSQLSession)}

    def noted(self, asked, lines):
        self.texts += asked.dialect.written(lines)
        return self.runs[type(asked)](asked, lines)


def scripts(live):
    """What whview sql writes and asks, as texts."""
    found, asked, path = [], Asked(), live.path
    note = lambda each, lines: asked.noted(each, lines)
    with mock.patch.object(PostgreSQLAsked, "run", note), mock.patch.object(PostgreSQLSession, "run", note):
        for words in TOLD:
            live.written(*words, path)
        for words in CHANGING:
            found.append(written("--database", live.database.address, *words, less(path)).text)
        for words in (["--uncapture"], ["--capture"], ["--live", "--open"], ["--live"], ["--sizes"], ["--sizes-after"], ["--costs"], ["--dry"]):
            found.append(live.written(*words, path).text)
        found.append(live.written("--catalogue").text)
    return found + asked.texts + [written("--schema", "own", words, path).text for words in ("--create", "--open", "--night")]


def named(live, texts):
    """The functions that are called, and the tables and types of the server's own that are named."""
    bare = QUOTED.sub(" ", "\n".join(texts))
    called = set(live.asked("SELECT DISTINCT proname FROM pg_catalog.pg_proc WHERE pronamespace = 'pg_catalog'::regnamespace;")) & set(CALL.findall(bare))
    there = set(live.asked("SELECT relname FROM pg_catalog.pg_class WHERE relnamespace = 'pg_catalog'::regnamespace AND relkind IN ('r', 'v');"))
    return sorted(called), sorted(there & set(CATALOGUE.findall(bare)))


def functions(called):
    """Functions of these names, of all types that a call may have."""
    kinds = [(), *((one,) for one in TYPES), *product(TYPES, TYPES), *product(FEW, FEW, FEW), *(("text",) * many for many in range(4, WIDEST))]
    found = [f'CREATE FUNCTION public."{said}"({", ".join(each)}) RETURNS text {BODY.format(said)}' for said in called for each in kinds]
    return found + [f"CREATE OR REPLACE FUNCTION public.{said}({kinds}) RETURNS text {BODY.format(said)}" for said, kinds in WIDE]


def operators():
    """Operators between all pairs of types."""
    found = []
    for mark, one, other in product(MARKS, TYPES, TYPES):
        function = f"public.\"operator {mark.replace('%', '')} {one} {other}\"".replace('"char"', "char")
        found.append(f"CREATE FUNCTION {function}({one}, {other}) RETURNS {GIVES.get(mark, 'bool')} {BODY.format(mark)}")
        found.append(f"CREATE OPERATOR public.{mark} (LEFTARG = {one}, RIGHTARG = {other}, FUNCTION = {function});")
    return found


def of_the_session(tables):
    """Tables and types in the temporary schema, which stands first in any path that does not say otherwise."""
    kinds = [f"CREATE TYPE pg_temp.{said} AS (x pg_catalog.int4);" for said in ("int8", "text", "int4", "regclass", "oid", "regprocedure", "name", "bool", "tid")]
    return "".join([*(f"CREATE TEMPORARY TABLE {said} (x pg_catalog.int4);\n" for said in tables), *(f"{each}\n" for each in kinds)])


def told_by(live, before, program):
    """What each script is told beside what was planted."""
    wrong, path = [], live.path

    def ran(made, what):
        """What is told of a script in a session with things of others."""
        told = made.told if made.status else live.database.run(before + made.text, FIRST_IN_PATH)
        return [f"{what}: {told}"] if told and not (what == ["--plan"] and "certified" in told) else []

    for words in (["--uncapture"], ["--capture"], ["--live", "--open"], ["--live"], *([["--plan"]] if program else [])):
        live.asked(f"SET search_path = public, pg_catalog; {WRITES if words == ['--live'] else ''} RESET search_path;")
        wrong += ran(live.written(*words, *(["--program", program] if words == ["--plan"] else []), path), words)
    live.asked('UPDATE wh.lines SET pieces = pieces + 1 WHERE id = 5; UPDATE wh.sales SET cost = 1 WHERE cost = 0;')
    for words in TOLD:
        made = live.written(*words, path)
        wrong += [f"{words}: {made.told}"] if made.told or made.status > 1 else []
    for folder, words in product((less(path), path), CHANGING):
        wrong += ran(written("--database", live.database.address, *words, folder), words)
    for words in (["--catalogue"], ["--sizes", path], ["--sizes-after", path], ["--dry", path]):
        made = live.written(*words)
        wrong += [f"{words}: {made.told}"] if made.status else []
    live.asked("CREATE SCHEMA own;")
    return wrong + [each for words in ("--create", "--open", "--night") for each in ran(written("--schema", "own", words, path), f"own tables, {words}")]


def planted_mistakes(live, program=None):
    """What is called or read of what others have planted."""
    wrong = live.fresh()
    live.asked(LATER)
    wrong += faults(live.night())
    called, tables = named(live, scripts(live))
    live.asked(f"ALTER DATABASE {live.database.address} SET search_path = public, pg_catalog;")
    wrong += faults(live.database.run(PLANTER + "".join(f"{each}\n" for each in [*functions(called), *operators()])))
    try:
        wrong += told_by(live, of_the_session(tables), program)
    finally:
        owned = live.asked(f"ALTER DATABASE {live.database.address} RESET search_path; SET search_path = pg_catalog; {OWNED}")
        wrong += faults(live.database.run("".join(f"{each}\n" for each in owned) + UNPLANTED))
        live.asked("RESET search_path;")
    return [f"what others have planted beside {len(called)} functions: {text}"[:700] for text in wrong + live.right()]
