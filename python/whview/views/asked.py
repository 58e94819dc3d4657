"""What the database itself says of tables, views and expressions: names, types and functions are its own, and nothing of them is guessed."""

from __future__ import annotations

import json
import subprocess
from collections.abc import Iterable, Mapping, Sequence
from dataclasses import dataclass
from typing import Any

from ..sql.tokens import Unfit

# A role that reads someone's views calls what stands in them; names are looked up where only the server's own are.
HEAD = (
    "SET client_min_messages = error; SET standard_conforming_strings = on; BEGIN; SET LOCAL search_path = pg_catalog;"
    " SET LOCAL row_security = off;"
)
# Rows of heirs may have the key of one of the table itself, so that it is none then.
RELATIONS = """
SELECT json_build_array(s.nspname, c.relname, c.relkind, CASE WHEN c.relkind IN ('v', 'm') THEN pg_get_viewdef(c.oid) END,
  coalesce((SELECT json_agg(json_build_array(a.attname, a.attnotnull, format_type(a.atttypid, a.atttypmod)) ORDER BY a.attnum) FROM pg_attribute AS a
            WHERE a.attrelid = c.oid AND a.attnum > 0 AND NOT a.attisdropped), '[]'),
  (SELECT json_agg(a.attname ORDER BY k) FROM pg_index AS i, generate_series(0, i.indnkeyatts - 1) AS k, pg_attribute AS a
   WHERE i.indrelid = c.oid AND i.indisprimary AND a.attrelid = c.oid AND a.attnum = i.indkey[k]
     AND (c.relkind = 'p' OR NOT EXISTS (SELECT 1 FROM pg_inherits AS h WHERE h.inhparent = c.oid))))
FROM pg_class AS c JOIN pg_namespace AS s ON s.oid = c.relnamespace
WHERE c.relkind IN ('r', 'p', 'v', 'm', 'f') AND s.nspname NOT IN ('pg_catalog', 'information_schema', 'pg_toast') AND s.nspname NOT LIKE 'pg_temp%'
ORDER BY s.nspname, c.relname;
"""
AGGREGATES = "SELECT json_build_array(p.proname) FROM pg_proc AS p WHERE p.prokind = 'a' GROUP BY p.proname;"
# What a view uses that may be otherwise on each reading, or is somebody's own, or adds up what depends on the order.
USES = """
WITH rules AS (SELECT r.oid, r.ev_action::text AS said FROM pg_rewrite AS r WHERE r.ev_class = {view}::regclass),
called AS (SELECT DISTINCT f.found[1]::oid AS function FROM rules AS r, regexp_matches(r.said, ':(?:funcid|opfuncid|aggfnoid|winfnoid) (\\d+)', 'g') AS f (found))
SELECT json_build_array(p.oid::regprocedure::text, p.provolatile, p.pronamespace = 'pg_catalog'::regnamespace, p.prokind) FROM called AS c
JOIN pg_proc AS p ON p.oid = c.function;
"""
# What is found out of an expression over a row r of a table: of which type it is, and that below all domains; whether it is immutable as the server
# judges it where it makes a column of it; and which functions it calls, by what they are in the server.
JUDGE = r"""
CREATE FUNCTION pg_temp.whview_judge(said text, is_column bool) RETURNS json LANGUAGE plpgsql AS $program$
DECLARE
  found record; base record; mutable text; called text[]; foreigners text[]; io bool; strange bool; of_nulls bool := is_column;
BEGIN
  BEGIN
    EXECUTE 'CREATE TEMP VIEW whview_probe AS SELECT (' || said || ') AS c FROM pg_temp.r AS r';
  EXCEPTION WHEN OTHERS THEN RETURN json_build_object('fault', SQLERRM);
  END;
  SELECT a.atttypid, a.atttypmod, a.attcollation INTO found FROM pg_attribute AS a WHERE a.attrelid = 'pg_temp.whview_probe'::regclass AND a.attnum = 1;
  WITH RECURSIVE b (type, modifier) AS (SELECT found.atttypid, found.atttypmod UNION ALL SELECT t.typbasetype,
    CASE WHEN b.modifier = -1 THEN t.typtypmod ELSE b.modifier END FROM b JOIN pg_type AS t ON t.oid = b.type AND t.typtype = 'd')
  SELECT t.typname, t.typtype, b.modifier, t.typnamespace = 'pg_catalog'::regnamespace AS own,
    (SELECT e.typname FROM pg_type AS e WHERE e.oid = t.typelem AND t.typcategory = 'A') AS element
    INTO base FROM b JOIN pg_type AS t ON t.oid = b.type WHERE t.typtype <> 'd';
  SELECT array_agg(DISTINCT p.prosrc::text), bool_or(FALSE) INTO called, io FROM pg_rewrite AS r,
    regexp_matches(r.ev_action::text, ':(?:funcid|opfuncid) (\d+)', 'g') AS f (found), pg_proc AS p
    WHERE r.ev_class = 'pg_temp.whview_probe'::regclass AND p.oid = f.found[1]::oid;
  SELECT array_agg(DISTINCT coalesce(p.proname::text, o.oprname::text, d.refclassid::regclass::text)) INTO foreigners FROM pg_rewrite AS r
    JOIN pg_depend AS d ON d.objid = r.oid AND d.classid = 'pg_rewrite'::regclass AND d.refclassid IN ('pg_proc'::regclass, 'pg_operator'::regclass)
    LEFT JOIN pg_proc AS p ON p.oid = d.refobjid AND d.refclassid = 'pg_proc'::regclass LEFT JOIN pg_operator AS o ON o.oid = d.refobjid AND d.refclassid = 'pg_operator'::regclass
    WHERE r.ev_class = 'pg_temp.whview_probe'::regclass;
  SELECT coalesce(bool_or(f.found[1] NOT IN ('25', '1043', '1042', '19')), FALSE) INTO io FROM pg_rewrite AS r,
    regexp_matches(r.ev_action::text, 'COERCEVIAIO .*? :resulttype (\d+)', 'g') AS f (found) WHERE r.ev_class = 'pg_temp.whview_probe'::regclass;
  io := io OR EXISTS (SELECT 1 FROM pg_rewrite AS r WHERE r.ev_class = 'pg_temp.whview_probe'::regclass
    AND r.ev_action::text ~ '\{(COERCETODOMAIN|XMLEXPR|SUBLINK|ROWEXPR|FIELDSELECT|NEXTVALUEEXPR) ');
  -- What may call somebody's own function is not computed: it would be with the rights of whoever asks.
  strange := foreigners IS NOT NULL OR EXISTS (SELECT 1 FROM pg_rewrite AS r WHERE r.ev_class = 'pg_temp.whview_probe'::regclass
    AND r.ev_action::text ~ '\{COERCETODOMAIN ');
  IF strange AND NOT is_column THEN
    of_nulls := FALSE;
    mutable := 'it is cast to a domain, or calls a function of somebody''s own';
  ELSIF NOT is_column THEN
    BEGIN
      EXECUTE 'ALTER TABLE pg_temp.r ADD COLUMN whview_made ' || format_type(found.atttypid, found.atttypmod) || ' GENERATED ALWAYS AS (' || said || ') STORED';
      RAISE EXCEPTION 'whview is done';
    EXCEPTION WHEN OTHERS THEN mutable := nullif(SQLERRM, 'whview is done');
    END;
    BEGIN
      EXECUTE 'SELECT (' || said || ') IS NULL FROM (SELECT (NULL::pg_temp.r).*) AS r' INTO of_nulls;
    EXCEPTION WHEN OTHERS THEN of_nulls := FALSE;
    END;
  END IF;
  DROP VIEW pg_temp.whview_probe;
  RETURN json_build_object('shown', format_type(found.atttypid, found.atttypmod), 'type', base.typname, 'sort', base.typtype, 'modifier', base.modifier, 'own', base.own,
    'element', base.element, 'mutable', mutable, 'called', coalesce(called, '{}'), 'foreigners', foreigners, 'raises', io, 'strict', of_nulls,
    'collation', (SELECT format('%I.%I', n.nspname, c.collname) FROM pg_collation AS c JOIN pg_namespace AS n ON n.oid = c.collnamespace WHERE c.oid = found.attcollation),
    'folded', (SELECT NOT c.collisdeterministic FROM pg_collation AS c WHERE c.oid = found.attcollation));
END $program$;
"""


@dataclass(frozen=True, slots=True)
class TableColumn:
    """A column of a table or a view: whether it is filled always, and its type as it is written."""

    name: str
    is_filled: bool
    type: str


@dataclass(frozen=True, slots=True)
class Relation:
    """A table or a view: what it is by the server's letter, the query of a view, its columns, and its primary key."""

    schema: str
    name: str
    letter: str
    definition: str | None
    columns: tuple[TableColumn, ...]
    key: tuple[str, ...]

    @property
    def names(self) -> list[str]:
        return [each.name for each in self.columns]

    def column(self, name: str) -> TableColumn | None:
        """A column by its name."""
        return next((each for each in self.columns if each.name == name), None)


@dataclass(frozen=True, slots=True)
class Judged:
    """What the server says of an expression: its type as it is written, the name of that below all domains, what modifies it, its collation; why it is not
    immutable, or None; what it calls, whether it may raise where it turns texts into something, and whether it is NULL for a row of NULLs."""

    shown: str
    type: str
    sort: str
    modifier: int
    is_own: bool
    element: str | None
    mutable: str | None
    called: frozenset[str]
    is_foreign: bool
    raises: bool
    is_strict: bool
    collation: str | None
    is_folded: bool

    @property
    def digits(self) -> tuple[int, int] | None:
        """The digits and places of a numeric that is declared with them."""
        if self.type != "numeric" or self.modifier < 4:
            return None
        return (self.modifier - 4) >> 16 & 0xFFFF, (self.modifier - 4 & 0x7FF ^ 1024) - 1024


@dataclass(frozen=True, slots=True)
class Called:
    """A function that a view calls: how it is written, by which letter the server says whether it changes, whether it is the server's own, and its sort."""

    written: str
    volatility: str
    is_own: bool
    sort: str


def quoted(said: str) -> str:
    """A text."""
    return "'" + said.replace("'", "''") + "'"


def named(*said: str) -> str:
    """A name in quotes, behind those of what it is in."""
    return ".".join('"' + each.replace('"', '""') + '"' for each in said)


class Asking:
    """A database that psql finds, which is asked and left as it is."""

    def __init__(self, command: Sequence[str]) -> None:
        self.command = command

    def lines(self, text: str) -> list[Any]:
        """What statements answer, each line of which is one value of JSON; what they make is taken back."""
        given = f"{HEAD}\n{text}\nROLLBACK;\n"
        try:
            ran = subprocess.run(self.command, input=given.encode(), capture_output=True, check=False)
        except OSError as fault:
            raise Unfit(f"psql cannot be run: {fault.strerror}") from fault
        if ran.returncode:
            raise Unfit(f"the database says: {' '.join(ran.stderr.decode(errors='replace').split())[:600]}")
        return [json.loads(line) for line in ran.stdout.decode().split("\n") if line]

    def relations(self) -> dict[tuple[str, str], Relation]:
        """All tables and views, by their schemas and names."""
        found = {}
        for schema, name, letter, definition, columns, key in self.lines(RELATIONS):
            listed = tuple(TableColumn(*each) for each in columns)
            found[schema, name] = Relation(schema, name, letter, definition, listed, tuple(key or ()))
        return found

    def aggregates(self) -> frozenset[str]:
        """The names of all functions over rows."""
        return frozenset(name for name, in self.lines(AGGREGATES))

    def called(self, view: Relation) -> list[Called]:
        """What a view calls."""
        return [Called(*each) for each in self.lines(USES.format(view=quoted(named(view.schema, view.name))))]

    def zone(self) -> str:
        """The time zone of a session of this one's."""
        return str(self.lines("SELECT to_json(current_setting('TimeZone'));")[0])

    def judged(self, wanted: Mapping[Relation, Iterable[tuple[str, bool]]]) -> dict[tuple[Relation, str], Judged | str]:
        """What the server says of expressions over a row r of each table, and whether each is a column; or why it takes one for none."""
        text, order = [JUDGE], list[tuple[Relation, str]]()
        for relation, expressions in wanted.items():
            text.append(f"CREATE TEMP TABLE r (LIKE {named(relation.schema, relation.name)});")
            for said, is_column in expressions:
                text.append(f"SELECT pg_temp.whview_judge({quoted(said)}, {is_column});")
                order.append((relation, said))
            text.append("DROP TABLE pg_temp.r;")
        return dict(zip(order, map(judged_of, self.lines("\n".join(text)))))


def judged_of(told: Mapping[str, Any]) -> Judged | str:
    """What the server says of one."""
    if "fault" in told:
        return str(told["fault"])
    return Judged(
        told["shown"], told["type"], told["sort"], told["modifier"], bool(told["own"]), told["element"], told["mutable"], frozenset(told["called"]),
        bool(told["foreigners"]), bool(told["raises"]), bool(told["strict"]), told["collation"], bool(told["folded"]),
    )
