"""The role that owns what --capture makes in PostgreSQL, and as which nights run: one without rights but those on its own tables and to read what is
captured, if --role names it."""

from __future__ import annotations

from collections.abc import Iterable, Mapping, Sequence
from typing import TYPE_CHECKING

from ..tokens import END_OF_STATEMENT, Sql, joined, name, sql, statements, text, word

if TYPE_CHECKING:
    from .postgresql import LivePostgreSQL
    from .sources import Source

OWNED = "the schema %s is owned by %s, who would get what is captured: name another schema by --schema, or this role by --role"
SUPER = "the role %s is a superuser, or passes by row-level security: name by --role one that is made for this alone"
UNSAFE = (
    "%s is owned by %s, who is no superuser, and by what he puts on it could have functions of his own called as the superuser who captures it: name a role"
    " for what is captured, as by --role whview; or say --without-role where that does not matter"
)
# Whoever owns the night's schema, where it is another role than this one and no superuser.
OTHER = (
    "(SELECT r.rolname FROM pg_namespace AS n JOIN pg_roles AS r ON r.oid = n.nspowner WHERE n.oid = to_regnamespace({schema}) AND NOT r.rolsuper"
    " AND r.rolname <> current_user)"
)
BELOW_SOURCE = (
    "(WITH RECURSIVE below (relation) AS (SELECT {source}::regclass::oid UNION SELECT i.inhrelid FROM below AS b JOIN pg_inherits AS i"
    " ON i.inhparent = b.relation) SELECT b.relation::regclass AS relation FROM below AS b) AS b"
)


class Owner:
    """The statements by which things are made and nights carried out as whoever owns the night's schema."""

    def __init__(self, dialect: LivePostgreSQL, role: str | None = None, is_taken_without: bool = False) -> None:
        self.dialect, self.role, self.is_taken_without = dialect, role, is_taken_without

    def written(self, said: Sql) -> Sql:
        """What is written for tokens, as a text."""
        return text(self.dialect.written([said])[0])

    def each(self, query: Sql) -> Sql:
        """A program that carries out the statements that a query gives."""
        return sql("FOR finding IN {query} LOOP EXECUTE finding{end} END LOOP", query=query, end=END_OF_STATEMENT)

    def schema(self) -> Sql:
        """The name of the nights' schema as it is written, as a text."""
        return self.written(name(self.dialect.schema))

    def other(self) -> Sql:
        """Whoever owns the schema, if it is another one and no superuser."""
        return sql(OTHER, schema=self.schema())

    def taken_on(self, is_kept: bool = False) -> list[Sql]:
        """From here on a program is carried out as whoever owns the schema, where that may be: a superuser's night is none of a superuser. It may be
        kept for all of a session."""
        member = sql("finding IS NOT NULL AND pg_has_role(session_user, finding::name, {member})", member=text("MEMBER"))
        taken = sql("PERFORM set_config({role}, finding, {local})", role=text("role"), local=word("FALSE" if is_kept else "TRUE"))
        return [sql("finding := {other}", other=self.other()), self.dialect.where(member, taken)]

    def session(self) -> list[str]:
        """The lines by which a session asks as whoever owns the schema: what somebody has put in the place of its tables is then called as that one."""
        if self.dialect.schema == self.dialect.own_schema:
            return []
        return self.dialect.written([self.dialect.block_of_another(self.taken_on(True))])

    # ---- what somebody with more rights does before

    def unsafe(self, sources: Mapping[int, Source]) -> list[Sql]:
        """A refusal of a superuser's capture of what somebody else owns, where no role is named that it would be of."""
        if self.role or self.is_taken_without:
            return []
        found = []
        for source in sources.values():
            below = sql(BELOW_SOURCE, source=self.written(source.said))
            found += self.dialect.refuse_with(sql(
                "SELECT format({told}, b.relation, r.rolname) FROM {below} JOIN pg_class AS k ON k.oid = b.relation JOIN pg_roles AS r ON r.oid = k.relowner"
                " WHERE NOT r.rolsuper AND EXISTS (SELECT 1 FROM pg_roles AS u WHERE u.rolname = current_user AND u.rolsuper) LIMIT 1", told=text(UNSAFE),
                below=below,
            ))
        return found

    def made(self, tables: Sequence[str], functions: Sequence[str], sources: Mapping[int, Source]) -> list[Sql]:
        """The role and its schema, what was another's before, and what the role may: to read what is captured, and to make tables for a night. A schema
        that somebody else has made is not taken."""
        mine = sql("AND r.rolname <> {role}", role=text(self.role)) if self.role else sql("")
        strange = sql("SELECT format({told}, n.nspname, r.rolname) FROM pg_namespace AS n JOIN pg_roles AS r ON r.oid = n.nspowner WHERE n.oid ="
                      " to_regnamespace({schema}) AND NOT r.rolsuper AND r.rolname <> current_user {mine}", told=text(OWNED), schema=self.schema(),
                      mine=mine)
        return [*self.dialect.refuse_with(strange), *self.unsafe(sources), *(self.own_role(self.role, tables, functions) if self.role else []), *self.granted(sources)]

    def own_role(self, own: str, tables: Sequence[str], functions: Sequence[str]) -> list[Sql]:
        """The role, its schema, and what of these tables and functions is there already."""
        role, said = name(own), text(own)
        known = "SELECT 1 FROM pg_roles AS r WHERE r.rolname = {said}"
        is_missing = sql("to_regnamespace({schema}) IS NULL", schema=self.schema())
        unfit = sql("SELECT format({told}, r.rolname) FROM pg_roles AS r WHERE r.rolname = {said} AND (r.rolsuper OR r.rolbypassrls)",
                    told=text(SUPER), said=said)
        create = sql("CREATE ROLE {role} NOLOGIN NOSUPERUSER NOCREATEDB NOCREATEROLE NOREPLICATION NOBYPASSRLS", role=role)
        schema = sql("CREATE SCHEMA {schema} AUTHORIZATION {role}", schema=name(self.dialect.schema), role=role)
        owned = [
            *self.given(own, "SELECT format({alter}, n.nspname, {said}) FROM pg_namespace AS n WHERE n.oid = to_regnamespace({schema})"
                        " AND n.nspowner <> {number}", "ALTER SCHEMA %I OWNER TO %I"),
            *self.given(own, "SELECT format({alter}, k.oid::regclass, {said}) FROM pg_class AS k WHERE k.relnamespace = to_regnamespace({schema})"
                        " AND k.relname IN ({names}) AND k.relowner <> {number}", "ALTER TABLE %s OWNER TO %I", tables),
            *self.given(own, "SELECT format({alter}, p.oid::regprocedure, {said}) FROM pg_proc AS p WHERE p.pronamespace = to_regnamespace({schema})"
                        " AND p.proname IN ({names}) AND p.proowner <> {number}", "ALTER FUNCTION %s OWNER TO %I", functions),
        ]
        return [
            self.dialect.where(sql("NOT EXISTS (" + known + ")", said=said), create),
            *self.dialect.refuse_with(unfit),
            self.dialect.where(is_missing, schema),
            *owned,
        ]

    def given(self, role: str, query: str, alter: str, names: Iterable[str] = ()) -> list[Sql]:
        """What is somebody else's is given to the role."""
        number = sql("(SELECT r.oid FROM pg_roles AS r WHERE r.rolname = {said})", said=text(role))
        listed = joined(list(map(text, names)))
        return [self.each(sql(query, alter=text(alter), said=text(role), schema=self.schema(), number=number, names=listed))]

    def granted(self, sources: Mapping[int, Source]) -> list[Sql]:
        """The rights of the owner on what is not its own, where it has not all rights in any case."""
        owner = self.other()
        database, usage, reading = map(text, ("GRANT TEMPORARY ON DATABASE %I TO %I", "GRANT USAGE ON SCHEMA %I TO %I", "GRANT SELECT ON %s TO %I"))
        queries = [sql("SELECT format({grant}, current_database(), {owner})", grant=database, owner=owner)]
        for schema in sorted({source.schema for source in sources.values()}):
            queries.append(sql("SELECT format({grant}, {schema}::name, {owner})", grant=usage, schema=text(schema), owner=owner))
        for source in sources.values():
            below = sql(BELOW_SOURCE, source=self.written(source.said))
            queries.append(sql("SELECT format({grant}, b.relation, {owner}) FROM {below}", grant=reading, owner=owner, below=below))
        has_other = sql("{other} IS NOT NULL", other=self.other())
        return [sql("IF {test} THEN {made} END IF", test=has_other, made=statements(list(map(self.each, queries)), 2))]
