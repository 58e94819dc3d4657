"""What is known of the tables of one's own that a night in PostgreSQL works on, asked in one statement and kept in variables: a table for each
thing that is known would take longer than a night of few changes."""

from __future__ import annotations

from collections.abc import Iterable, Sequence

from .block import changes_there
from .digests import LONG
from .plpgsql import raised, where
from .postgresql import PostgreSQL
from .postgresql_checks import TOUCHED, Checks, cast, rows_of
from .tables import Tables
from .tokens import Sql, body, joined, number, sql, text, word

# The tables and those below them; and of each view, in an array, its key's columns, a column that has to have a value and has none, whether a
# foreign key to it acts, whether a unique index finds each row of it, whether any index may find some of its rows, how many pages they
# fill, and how many rows this transaction had written and removed before. They are declared before the path of names is set.
VARIABLES = {
    "below_numbers": "int4[]", "below_relations": "oid[]", "key_columns": "text[]", "spare_columns": "text[]", "is_referred": "bool[]",
    "is_found": "bool[]", "is_indexed": "bool[]", "pages": "int8[]", "had_written": "int8[]", "had_removed": "int8[]", "watched": "bool",
}
# An expression of an index as the server writes it, however it sets lines and backslashes; and what that of a digest of a column is.
BARE = "replace(regexp_replace({said}, {blanks}, {blank}, {all}), {slash}, {none})"
DIGEST = f"( CASE WHEN (octet_length(%s) < {LONG}) THEN %s ELSE encode(sha256((replace(%s, '\\'::text, '\\\\'::text))::bytea), 'hex'::text) END)"
# Tables that are made while it is asked: those that are expected and their columns; those below them; which columns of the server's are which of
# the catalogue's; all their indexes with such of their columns as tell a row from others; and tables to which a foreign key acts.
MADE = {
    "tables (number, role, told, relation, telling)": "VALUES {tables}",
    "wanted (number, place, said, kind)": "VALUES {columns}",
    "below (number, role, told, relation, top, telling)": "SELECT t.number, t.role, t.told, t.relation, t.relation, t.telling FROM tables AS t"
    " UNION SELECT b.number, b.role, b.told, i.inhrelid, b.top, b.telling FROM below AS b JOIN pg_inherits AS i ON i.inhparent = b.relation",
    "kinds": "SELECT b.number, b.relation, b.top, k.relkind FROM below AS b JOIN pg_class AS k ON k.oid = b.relation",
    "fields": "SELECT b.number, b.relation, w.place, a.attnum FROM below AS b JOIN pg_attribute AS a ON a.attrelid = b.relation JOIN wanted AS w"
    " ON w.number = b.number AND w.said = a.attname AND w.said <> {count} WHERE b.role <> {changes}",
    "digests": "SELECT f.number, f.relation, f.place, i.indexrelid, k FROM fields AS f JOIN pg_index AS i ON i.indrelid = f.relation AND i.indexprs IS NOT NULL"
    " JOIN pg_attribute AS a ON a.attrelid = f.relation AND a.attnum = f.attnum CROSS JOIN generate_series(0, i.indnkeyatts - 1) AS k WHERE i.indkey[k] = 0"
    " AND " + BARE.replace("{said}", "pg_get_indexdef(i.indexrelid, k + 1, FALSE)") + " = " + BARE.replace("{said}", "replace({digest}, {hole}, quote_ident(a.attname))"),
    "indexes": "SELECT b.number, b.role, b.relation, b.telling, b.relation = b.top AND i.indisunique AND i.indisvalid AND i.indpred IS NULL"
    " AND (i.indexprs IS NULL OR NOT EXISTS (SELECT 1 FROM generate_series(0, i.indnkeyatts - 1) AS k WHERE i.indkey[k] = 0 AND NOT EXISTS (SELECT 1"
    " FROM digests AS g WHERE g.indexrelid = i.indexrelid AND g.k = k.k))) AS is_unique, i.indisunique OR i.indisexclusion AS is_strict,"
    " i.indisvalid AND i.indpred IS NULL AND m.amname IN {equal}"
    " AND EXISTS (SELECT 1 FROM fields AS f WHERE f.relation = b.relation AND (f.attnum = i.indkey[0] OR EXISTS (SELECT 1"
    " FROM digests AS g WHERE g.indexrelid = i.indexrelid AND g.k = 0))) AS is_looked_up, i.indexrelid, i.indisprimary,"
    " i.indnkeyatts, ARRAY(SELECT f.place FROM fields AS f WHERE f.relation = b.relation AND f.place <= b.telling AND NOT i.indisexclusion"
    " AND (f.attnum IN (SELECT i.indkey[k] FROM generate_series(0, i.indnkeyatts - 1) AS k) OR EXISTS (SELECT 1 FROM digests AS g WHERE g.place = f.place"
    " AND g.indexrelid = i.indexrelid))) AS places"
    " FROM below AS b JOIN pg_index AS i ON i.indrelid = b.relation JOIN pg_class AS x ON x.oid = i.indexrelid JOIN pg_am AS m ON m.oid = x.relam"
    " WHERE b.role <> {changes}",
    "spare (view, told)": "{spare}",
    "referred (view)": "SELECT b.number FROM below AS b JOIN pg_constraint AS f ON f.confrelid = b.relation WHERE f.contype = {foreign}"
    " AND (f.confdeltype IN {acts} OR f.confupdtype IN {acts})",
    "counted (view, written, removed)": TOUCHED.replace("{parts}", "below"),
}
# A unique index is a key of a view where it has not all of the columns; of a derived view only where no other index keeps a row out beside the
# one whose place it takes: there it has to leave before. An index of a table with heirs finds none of their rows.
FOUND = {
    "below_numbers": "(SELECT array_agg(b.number ORDER BY b.relation) FROM below AS b)",
    "below_relations": "(SELECT array_agg(b.relation ORDER BY b.relation) FROM below AS b)",
    "key_columns": "array_agg(CASE {keyed} WHEN n IN ({paired}) THEN (SELECT string_agg(concat({cell}, l), {comma}) FROM unnest((SELECT u.places"
    " FROM indexes AS u WHERE u.number = n AND u.is_unique AND cardinality(u.places) = u.indnkeyatts AND u.indnkeyatts < (SELECT count(*) FROM fields AS f"
    " WHERE f.number = n AND f.relation = u.relation) AND (u.role <> {derived} OR NOT EXISTS (SELECT 1 FROM indexes AS e CROSS JOIN unnest(u.places) AS m"
    " WHERE e.number = n AND e.is_strict AND m <> ALL (e.places))) ORDER BY u.indisprimary DESC, u.indnkeyatts, u.indexrelid LIMIT 1)) AS l) END ORDER BY n)",
    "spare_columns": "array_agg((SELECT min(s.told) FROM spare AS s WHERE s.view = n) ORDER BY n)",
    "is_referred": "array_agg(EXISTS (SELECT 1 FROM referred AS r WHERE r.view = n) ORDER BY n)",
    "is_found": "array_agg(EXISTS (SELECT 1 FROM indexes AS u WHERE u.number = n AND u.is_unique AND cardinality(u.places) = u.indnkeyatts)"
    " AND NOT EXISTS (SELECT 1 FROM kinds AS k WHERE k.number = n AND k.relation = k.top AND k.relkind = {ordinary} AND (SELECT count(*) FROM kinds AS h"
    " WHERE h.number = n) > 1) ORDER BY n)",
    "is_indexed": "array_agg(NOT EXISTS (SELECT 1 FROM kinds AS k WHERE k.number = n AND k.relkind = {ordinary} AND NOT EXISTS (SELECT 1 FROM indexes AS i"
    " WHERE i.relation = k.relation AND i.is_looked_up)) ORDER BY n)",
    "pages": "array_agg((SELECT sum(pg_relation_size(b.relation)) / 8192 FROM below AS b WHERE b.number = n) ORDER BY n)",
    "had_written": "array_agg(c.written ORDER BY n)",
    "had_removed": "array_agg(c.removed ORDER BY n)",
}


class OnePassChecks(Checks):
    """The same refusals as ever, and what steps ask."""

    def __init__(self, tables: Tables[PostgreSQL]) -> None:
        super().__init__(tables)
        self.asking = Checks(tables)
        self.asking.parts = {said: word(made) for said, made in (("tables", "tables"), ("columns", "wanted"), ("parts", "below"))}
        self.asking.parts["referred"] = sql("({query})", query=self.asking.referred())
        self.parts = {
            "names": sql("(SELECT * FROM (VALUES {rows}) AS l (number, role, told, said))", rows=rows_of(self.names())),
            "parts": sql("(SELECT * FROM unnest(below_numbers, below_relations) AS l (number, relation))"),
            "touched": sql("(SELECT l.at - 1 AS view, l.w AS written, l.r AS removed FROM unnest(had_written, had_removed) WITH ORDINALITY AS l (w, r, at))"),
        }

    def variables(self) -> list[Sql]:
        return [sql(f"{said} pg_catalog.{kind}") for said, kind in VARIABLES.items()]

    def known(self, said: str, v: int) -> Sql:
        """What is known of a view."""
        return sql("{said}[{at}]", said=word(said), at=number(v + 1))

    def statements(self, locked: Sequence[Sql]) -> list[Sql]:
        """A table of changes that does not fit, such as one whose rows are hidden, is not read but refused before."""
        return [*self.missing(), self.lock(locked), *self.dialect.deferred(), self.learned(),
                where(sql("finding IS NOT NULL"), raised(word("finding"))), changes_there(self.tables)]

    def listed_tables(self) -> list[list[Sql]]:
        """Of each table that is expected its number, role, what it is called, itself, and how many columns tell a row: the groups of a summary."""
        found = []
        for at, each in enumerate(self.expected):
            (said,) = self.dialect.written([self.dialect.table(each.said)])
            found.append([number(at), text(each.role), text(each.told), cast(said, "regclass::oid"), number(self.telling(at))])
        return found

    def telling(self, at: int) -> int:
        is_summary = at < len(self.views) and self.shape.is_summary(at)
        return self.shape.groups(at) if is_summary else len(self.expected[at].columns)

    def learned(self) -> Sql:
        """What is refused of the tables, and all that steps ask of them, of each view in the order of the views."""
        views = range(len(self.views))
        acts = sql("({c}, {n}, {d})", c=text("c"), n=text("n"), d=text("d"))
        said = {"blanks": r"\s+", "blank": " ", "all": "g", "slash": "\\", "none": "", "digest": DIGEST, "hole": "%s", "count": "#", "foreign": "f",
                "derived": "derived", "changes": "changes", "ordinary": "r", "cell": "p.c", "comma": ", "}
        holes = {"tables": rows_of(self.listed_tables()), "columns": rows_of(self.columns()), "spare": self.asking.spare(), "acts": acts,
                 "equal": sql("({btree}, {hash})", btree=text("btree"), hash=text("hash")), "keyed": joined(self.keyed(), ""),
                 "paired": joined([number(v) for v in views if self.shape.has_pairs(v)] or [number(-1)]),
                 **{hole: text(letters) for hole, letters in said.items()}}
        refused = [*(self.asking.without_key(v, places) for v, places in self.tables.keyed.items()), *self.asking.unfit()]
        found = {"finding": sql("coalesce({queries})", queries=joined([sql("({query})", query=each) for each in refused])),
                 **{said: sql(query, **holes) for said, query in FOUND.items()}, "watched": self.asking.watched()}
        query = sql("WITH RECURSIVE {made} SELECT {listed} FROM generate_series(0, {last}) AS n LEFT JOIN counted AS c ON c.view = n",
                    made=self.made(MADE, **holes), listed=joined(found.values()), last=number(len(views) - 1))
        return sql("EXECUTE {query} INTO {into}", query=body(query), into=joined(list(map(word, found))))

    def made(self, names: Iterable[str], **holes: Sql) -> Sql:
        """The relations of these names, each worked out once."""
        return joined([sql(f"{said} AS MATERIALIZED ({MADE[said]})", **holes) for said in names])

    def keyed(self) -> list[Sql]:
        """The keys that are said."""
        return [sql("WHEN n = {v} THEN {key}", v=number(v), key=text(", ".join(f"p.c{place + 1}" for place in places)))
                for v, places in self.tables.keyed.items()]

    # ---- what steps ask

    def counted_anew(self, v: int) -> list[Sql]:
        """What was undone of a view's Inst counts too as written and removed by this transaction."""
        counts = "(SELECT sum(pg_stat_get_xact_tuples_{kind}(p.relation) + pg_stat_get_xact_tuples_updated(p.relation)) FROM {{parts}} AS p"
        counts += " WHERE p.number = {{v}})"
        return [sql("{said} := {count}", said=self.known(said, v), count=self.query(counts.format(kind=kind), v=number(v)))
                for said, kind in (("had_written", "inserted"), ("had_removed", "deleted"))]

    def spared(self, v: int, coming: Sql) -> list[Sql]:
        told = text("table %s does not fit: a row comes, and the column %s, which the catalogue has not, has no default")
        column = self.known("spare_columns", v)
        refusal = raised(sql("format({told}, {view}::text, {column})", told=told, view=text(self.views[v].name), column=column))
        return [where(sql("{column} IS NOT NULL AND EXISTS ({coming})", column=column, coming=coming), refusal)]

    def cascades(self, v: int, gone: Sql, moved: Sql) -> list[Sql]:
        """Where a foreign key acts it is asked what it would change; that is read then, and not before."""
        tables, columns = ([row for row in rows if row[0] == number(v)] for rows in (self.listed_tables(), self.columns()))
        first, second, third, *_ = MADE
        made = self.made((first, second, third), tables=rows_of(tables), columns=rows_of(columns))
        asked = sql("WITH RECURSIVE {made} {query}", made=made, query=self.asking.cascading(v, gone, moved))
        refused = where(sql("finding IS NOT NULL"), raised(word("finding")))
        return self.dialect.only_where(self.known("is_referred", v), [sql("EXECUTE {asked} INTO finding", asked=body(asked)), refused])
