"""Drawn views of a folder: a grammar of what people write in SQLite's words, over tables with few values, so that there are ties, NULLs and empty groups."""

import random

TABLES = """
CREATE TABLE a (id integer PRIMARY KEY, k integer, s text, d date, n numeric(6,2), f boolean) WITH (null = 'NA');
CREATE TABLE b (id integer PRIMARY KEY, a_id integer, k integer, s text, t timestamp) WITH (null = 'NA');
CREATE TABLE c (a_id integer, b_id integer, s text, n numeric(6,2), m integer NOT NULL) WITH (null = 'NA');
"""
KINDS = {
    "a": {"id": "integer", "k": "integer", "s": "text", "d": "date", "n": "numeric", "f": "boolean"},
    "b": {"id": "integer", "a_id": "integer", "k": "integer", "s": "text", "t": "timestamp"},
    "c": {"a_id": "integer", "b_id": "integer", "s": "text", "n": "numeric", "m": "integer"},
}
VALUES = {
    "integer": ["NA", "0", "1", "2", "3", "-1"], "numeric": ["NA", "0", "1.00", "1.25", "-2.50", "9.99"], "text": ["NA", "", "x", "X", "y z", "\\N", "N", "\\\\N"],
    "date": ["NA", "2026-01-01", "2026-02-28", "1999-12-31"], "timestamp": ["NA", "2026-01-01 00:00:00", "2026-01-01 10:00:00.000001", "2026-02-28 23:59:59"],
    "boolean": ["NA", "true", "false"],
}
NUMBERS, TEXTS, TIMES = ("integer", "numeric", "boolean"), ("text",), ("date", "timestamp")
JOINS = {("a", "b"): "{0}.id = {1}.a_id", ("a", "c"): "{0}.id = {1}.a_id", ("b", "c"): "{0}.id = {1}.b_id", ("b", "a"): "{0}.a_id = {1}.id", ("c", "a"): "{0}.a_id = {1}.id",
         ("a", "a"): "{0}.k = {1}.k", ("b", "b"): "{0}.k = {1}.id", ("c", "b"): "{0}.b_id = {1}.id", ("c", "c"): "{0}.a_id = {1}.b_id"}


class Views:
    """Draws views, over tables with columns of these kinds and such values."""

    kinds, values = KINDS, VALUES

    def __init__(self, seed):
        self.source = random.Random(seed)
        self.many = 0

    def one(self, *choices):
        return self.source.choice(choices)

    def chance(self, of=2):
        """True in one of so many cases."""
        return self.source.randrange(of) == 0

    def rows(self, name, many):
        """Rows of a table, by its key each once."""
        found = [[self.one(*self.values[kind]) for kind in self.kinds[name].values()] for _ in range(many)]
        if name == "c":
            return [[*row[:4], row[4] if row[4] != "NA" else "0"] for row in found]
        return [[str(at), *row[1:]] for at, row in enumerate(found, 1)]

    def changed(self, rows, name):
        """Rows of the next day: some leave, some come, some change."""
        kept = [row[:] for row in rows if not self.chance(4)]
        for row in kept:
            if self.chance(4):
                place = self.source.randrange(1 if name != "c" else 0, len(row) - (name == "c"))
                row[place] = self.one(*self.values[list(self.kinds[name].values())[place]])
        new = self.rows(name, self.source.randrange(4))
        if name == "c":
            return kept + new
        last = max([int(row[0]) for row in rows], default=0)
        return kept + [[str(last + at), *row[1:]] for at, row in enumerate(new, 1)]

    # ---- expressions

    def column(self, scope, kinds):
        """A column of one of these kinds, or None."""
        found = [f"{alias}.{name}" for alias, columns in scope.items() for name, kind in columns.items() if kind in kinds]
        return self.one(*found) if found else None

    def value(self, scope, kinds, deep=2):
        """An expression of one of these kinds."""
        column = self.column(scope, kinds)
        if column is None or (deep and self.chance(8)):
            return self.constant(kinds)
        if not deep or self.chance():
            return column
        if kinds == NUMBERS:
            left, right = self.value(scope, ("integer",), deep - 1), self.value(scope, kinds, deep - 1)
            return self.one(f"{left} + {right}", f"({left} - {right})", f"{column} * 2", f"coalesce({column}, 0)", f"length({self.value(scope, TEXTS, 0)})",
                            f"CASE WHEN {self.test(scope, deep - 1)} THEN {left} ELSE {right} END", f"{left} / 2", f"nullif({column}, 1)", f"min({left}, 2)")
        if kinds == TEXTS:
            inner = self.value(scope, TEXTS, deep - 1)
            return self.one(f"upper({inner})", f"coalesce({inner}, '-')", f"{column} || '!'", f"substr({inner}, 1, 1)", f"CASE WHEN {self.test(scope, deep - 1)} THEN {inner} END")
        return self.one(f"date({column})", f"strftime('%Y', {column})", column)

    def constant(self, kinds):
        """Something that is written."""
        return self.one("0", "1", "2") if kinds[0] in NUMBERS else self.one("'x'", "''", "'N'") if kinds == TEXTS else "'2026-01-01'"

    def test(self, scope, deep=2):
        """A condition."""
        kinds = self.one(NUMBERS, TEXTS, TIMES)
        left = self.value(scope, kinds, 1)
        choices = [f"{left} {self.one('=', '<>', '<', '>=')} {self.value(scope, kinds, 0)}", f"{left} IS NULL", f"{left} IS NOT NULL",
                   f"{left} IN ({self.constant(kinds)}, {self.constant(kinds)})"]
        if deep > 1:
            choices += [f"({self.test(scope, 1)} OR {self.test(scope, 1)})", f"NOT ({self.test(scope, 1)})", self.inner(scope)]
        return self.one(*choices)

    def inner(self, scope):
        """A condition with a query in it."""
        table, self.many = self.one("a", "b", "c"), self.many + 1
        alias, outer = f"q{self.many}", self.column(scope, ("integer",)) or "1"
        own = {alias: self.kinds[table]}
        column = self.column(own, ("integer",))
        where = self.test(own, 1)
        return self.one(f"EXISTS (SELECT 1 FROM {table} AS {alias} WHERE {column} = {outer} AND {where})", f"NOT EXISTS (SELECT 1 FROM {table} AS {alias} WHERE {column} = {outer})",
                        f"{outer} IN (SELECT {column} FROM {table} AS {alias} WHERE {where})", f"{outer} NOT IN (SELECT {column} FROM {table} AS {alias} WHERE {column} IS NOT NULL)")

    # ---- queries

    def items(self):
        """A FROM, and what is in it."""
        table, self.many = self.one("a", "b", "c"), self.many + 1
        scope, said = {f"i{self.many}": self.kinds[table]}, f"{table} AS i{self.many}"
        last, above = f"i{self.many}", table
        for _ in range(self.source.randrange(3)):
            table, self.many = self.one(*(right for left, right in JOINS if left == above)), self.many + 1
            on = JOINS[above, table].format(last, f"i{self.many}")
            last, above = f"i{self.many}", table
            scope[last] = self.kinds[table]
            more = f" AND {self.test({last: self.kinds[table]}, 1)}" if self.chance(4) else ""
            said += f" {self.one('JOIN', 'JOIN', 'LEFT JOIN')} {table} AS {last} ON {on}{more}"
        return said, scope

    def view(self):
        """A view."""
        said, scope = self.items()
        where = f" WHERE {self.test(scope)}" if self.chance() else ""
        if self.chance(3):
            return self.plain(said, scope, where)
        return self.grouped(said, scope, where)

    def plain(self, said, scope, where):
        """One of rows."""
        shown = [self.value(scope, self.one(NUMBERS, TEXTS, TIMES)) for _ in range(self.source.randrange(1, 4))]
        listed = ", ".join(f"{each} AS c{at}" for at, each in enumerate(shown, 1))
        return f"SELECT {self.one('', '', 'DISTINCT ')}{listed} FROM {said}{where}"

    def grouped(self, said, scope, where):
        """One of groups."""
        groups = [self.value(scope, self.one(NUMBERS, TEXTS, TIMES), 1) for _ in range(self.source.randrange(3))]
        shown = [*groups, *(self.aggregate(scope) for _ in range(self.source.randrange(1, 4)))]
        listed = ", ".join(f"{each} AS c{at}" for at, each in enumerate(shown, 1))
        by = " GROUP BY " + ", ".join(str(at) for at in range(1, len(groups) + 1)) if groups else ""
        having = f" HAVING {self.one('count(*) > 1', 'sum(1) < 4')}" if groups and self.chance(4) else ""
        return f"SELECT {listed} FROM {said}{where}{by}{having}"

    def aggregate(self, scope):
        """A function over rows."""
        number, text, time = (self.value(scope, kinds, 1) for kinds in (NUMBERS, TEXTS, TIMES))
        plain = self.one(f"sum({number})", f"count({text})", "count(*)", f"avg({number})", f"min({number})", f"max({text})", f"max({time})", f"count(DISTINCT {text})")
        return f"{plain} FILTER (WHERE {self.test(scope, 1)})" if self.chance(4) and "DISTINCT" not in plain else plain
