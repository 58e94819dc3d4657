"""Scripts that make the views which are read. Readers find each of them at every moment: while what is kept changes it reads as the view that somebody wrote,
and so it stays where a script stops."""

from __future__ import annotations

from collections.abc import Sequence

from .asked import named, quoted
from .record import Read

# So long a reader waits for a change of views at most, in milliseconds; and so often it is tried again, with a pause for the readers between.
WAIT, TRIES, PAUSE = 100, 600, 100
BUSY = "somebody has been reading the views of {schema} for minutes in one transaction, and they change between readers: run the script again"
# What a program declares, and its names of the server's own.
HEAD = (
    "DO {tag}", "DECLARE tries pg_catalog.int4 := 0; each record; granted pg_catalog.text[]; said pg_catalog.text;", "BEGIN",
    "PERFORM pg_catalog.set_config('search_path', 'pg_catalog', TRUE), pg_catalog.set_config('standard_conforming_strings', 'on', TRUE),"
    " pg_catalog.set_config('client_min_messages', 'warning', TRUE), pg_catalog.set_config('lock_timeout', '{wait}ms', TRUE);", "LOOP BEGIN",
)
TAIL = (
    "EXIT;", "EXCEPTION WHEN lock_not_available OR deadlock_detected THEN", "tries := tries + 1;",
    "IF tries = {tries} THEN RAISE EXCEPTION USING MESSAGE = {busy}; END IF;", "PERFORM pg_sleep({pause} / 1000.0);", "END; END LOOP;", "END {tag};",
)
TYPED = (
    "(SELECT array_agg(concat_ws(' ', a.attname, format_type(a.atttypid, a.atttypmod)) ORDER BY a.attnum) FROM pg_attribute AS a"
    " WHERE a.attrelid = {view}::regclass AND a.attnum > 0 AND NOT a.attisdropped)"
)
# A view reads as the one that somebody wrote, and is of who takes views, who may read that. With other columns it is another view, for the same readers.
ASIDE = (
    "IF to_regclass(each.own) IS NULL THEN EXECUTE concat('DROP VIEW ', each.kept); CONTINUE; END IF;",
    f"granted := NULL; IF {TYPED.format(view='each.kept')} IS DISTINCT FROM {TYPED.format(view='each.own')} THEN",
    "granted := (SELECT array_agg(concat('GRANT ', g.privilege_type, ' ON ', each.kept, ' TO ', CASE g.grantee WHEN 0 THEN 'PUBLIC' ELSE quote_ident(r.rolname) END,"
    " CASE WHEN g.is_grantable THEN ' WITH GRANT OPTION' END)) FROM pg_class AS c CROSS JOIN LATERAL aclexplode(c.relacl) AS g LEFT JOIN pg_roles AS r ON r.oid = g.grantee"
    " WHERE c.oid = each.kept::regclass AND g.grantee <> c.relowner);",
    "EXECUTE concat('DROP VIEW ', each.kept); END IF;",
    "EXECUTE concat('CREATE OR REPLACE VIEW ', each.kept, ' AS SELECT * FROM ', each.own);",
    "EXECUTE concat('ALTER VIEW ', each.kept, ' OWNER TO ', quote_ident(current_user));",
    "FOREACH said IN ARRAY coalesce(granted, '{}') LOOP EXECUTE said; END LOOP;",
)


def program(schema: str, lines: Sequence[str]) -> list[str]:
    """A program that does all of it at a moment when nobody reads the views, and keeps no reader waiting until one comes."""
    tag = "$take$"
    while any(tag in line for line in lines):
        tag = f"{tag[:-1]}_$"
    known = {"tag": tag, "wait": WAIT, "tries": TRIES, "pause": PAUSE, "busy": quoted(BUSY.format(schema=schema))}
    return [*(line.format(**known) for line in HEAD), *lines, *(line.format(**known) for line in TAIL)]


def aside(schema: str, source: str, names: Sequence[str]) -> list[str]:
    """Has the read views of these names, where they are there, read as the views that somebody wrote; one whose view is gone goes."""
    if not names:
        return []
    listed = ", ".join(f"({quoted(named(schema, each))}, {quoted(named(source, each))})" for each in names)
    loop = f"FOR each IN SELECT v.kept, v.own FROM (VALUES {listed}) AS v (kept, own) WHERE to_regclass(v.kept) IS NOT NULL LOOP"
    return program(schema, [loop, *ASIDE, "END LOOP;"])


def made(schema: str, reads: Sequence[Read], role: str | None, gone: Sequence[str] = ()) -> list[str]:
    """What makes the read views: all of them, with the columns and the types of the views as they are now, or none; and those of these names go."""
    lines = [f"DROP VIEW IF EXISTS {named(schema, each)};" for each in gone]
    for each in reads:
        lines += [f"CREATE OR REPLACE VIEW {named(schema, each.name)} AS {each.query};", judged(schema, each)]
        lines += [f"ALTER VIEW {named(schema, each.name)} OWNER TO {named(role)};"] if role else []
    return program(schema, lines)


def judged(schema: str, read: Read) -> str:
    """A refusal of a read view whose columns are others than the view's."""
    one, other = (TYPED.format(view=quoted(named(where, read.name))) for where in (schema, read.schema))
    told = quoted(f"the columns of {read.name} are not what they were when it was taken: take it anew").replace("%", "%%")
    return f"IF {one} IS DISTINCT FROM {other} THEN RAISE EXCEPTION {told}; END IF;"


def beside(script: Sequence[str], schema: str, source: str, names: Sequence[str]) -> list[str]:
    """A script that captures, with the read views of these names put aside as soon as it has judged all: where it refuses, they stay what they were."""
    at = script.index("COMMIT;") + 1 if "COMMIT;" in script else 0
    return [*script[:at], *aside(schema, source, names), *script[at:]]
