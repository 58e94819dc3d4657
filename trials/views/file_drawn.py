"""A wider grammar of views of files of SQLite: numbers that are whole or not, doubles, sets, queries over queries, windows and all kinds of joins."""

from trials.declared.drawn import KINDS, NUMBERS, TEXTS, TIMES, VALUES, Views

ORDERED = {"number": NUMBERS, "text": TEXTS, "time": TIMES}


class FileViews(Views):
    """Draws them. What is summed is no double, and no text."""

    kinds = {**KINDS, "a": {**KINDS["a"], "r": "real"}, "b": {**KINDS["b"], "n": "numeric"}}
    values = {**VALUES, "numeric": ["NA", "0", "1", "1.25", "-2.5", "9.99", "3"], "real": ["NA", "0.1", "2.0", "-1e-7", "0.0"]}

    # ---- expressions

    def value(self, scope, kinds, deep=2):
        """An expression of one of these kinds, such as folders have them or others."""
        column = self.column(scope, kinds)
        if not deep or column is None or self.chance():
            return super().value(scope, kinds, deep)
        if kinds == NUMBERS:
            left, whole = self.value(scope, kinds, deep - 1), self.column(scope, ("integer",))
            choices = [f"({left} * 1.5)", f"coalesce({column}, 0.0)", f"({left} * {column})", f"iif({self.test(scope, 1)}, {left}, 1)", f"CAST({left} AS integer)",
                       f"unicode({self.value(scope, TEXTS, 0)})", f"instr({self.value(scope, TEXTS, 0)}, 'x')"]
            return self.one(*choices, *([f"({whole} % 3)", f"({whole} / 2)", f"({whole} - {left})"] if whole else []))
        if kinds == TEXTS:
            number = self.column(scope, NUMBERS) or "1"
            return self.one(f"typeof({number})", f"CAST({number} AS text)", f"({number} || {column})", f"replace({column}, 'x', 'z')", f"trim({column})", f"ifnull({column}, 'none')")
        return self.one(f"datetime({column}, '+1 day')", f"coalesce({column}, '2026-01-01')", f"date({column}, 'start of month')")

    def looked_up(self, scope):
        """A query in the place of a number."""
        table, self.many = self.one("a", "b", "c"), self.many + 1
        own, outer = {f"s{self.many}": self.kinds[table]}, self.column(scope, ("integer",)) or "1"
        shown = self.one("count(*)", f"max({self.value(own, NUMBERS, 1)})", f"sum({self.column(own, ('integer',))})")
        return f"(SELECT {shown} FROM {table} AS s{self.many} WHERE {self.column(own, ('integer',))} = {outer})"

    # ---- queries

    def items(self):
        """A FROM with joins of all kinds."""
        said, scope = super().items()
        for kind in ("RIGHT", "FULL"):
            said = said.replace(" LEFT JOIN ", f" {kind} JOIN ", 1) if self.chance(6) else said
        return said, scope

    def rows_of(self, kinds=None):
        """A query of rows, and what its columns hold."""
        said, scope = self.items()
        kinds = kinds or [self.one(*ORDERED) for _ in range(self.source.randrange(1, 4))]
        shown = [self.looked_up(scope) if kind == "number" and self.chance(6) else self.value(scope, ORDERED[kind]) for kind in kinds]
        where = f" WHERE {self.test(scope)}" if self.chance() else ""
        return f"SELECT {', '.join(f'{each} AS c{at}' for at, each in enumerate(shown, 1))} FROM {said}{where}", kinds

    def groups_of(self):
        """A query of groups, and what its columns hold."""
        said, scope = self.items()
        kinds = [self.one(*ORDERED) for _ in range(self.source.randrange(3))]
        groups = [self.value(scope, ORDERED[kind], 1) for kind in kinds]
        counted = [self.aggregate(scope) for _ in range(self.source.randrange(1, 4))]
        by = f" GROUP BY {', '.join(str(at) for at in range(1, len(groups) + 1))}" if groups else ""
        where = f" WHERE {self.test(scope)}" if self.chance() else ""
        having = f" HAVING {self.one('count(*) > 1', f'{counted[0]} IS NOT NULL')}" if groups and self.chance(4) else ""
        return f"SELECT {', '.join(f'{each} AS c{at}' for at, each in enumerate([*groups, *counted], 1))} FROM {said}{where}{by}{having}", [*kinds, *["any"] * len(counted)]

    def sets(self):
        """Two queries of the same kinds, as sets or as lists."""
        kinds = [self.one("number", "text") for _ in range(self.source.randrange(1, 3))]
        return f"{self.rows_of(kinds)[0]} {self.one('UNION', 'UNION ALL', 'EXCEPT', 'INTERSECT')} {self.rows_of(kinds)[0]}", kinds

    def over(self):
        """A query over one that has a name."""
        inner, kinds = self.one(self.rows_of, self.groups_of, self.sets)()
        listed = ", ".join(f"q.c{at}" for at in range(1, len(kinds) + 1))
        made = self.one(
            f"SELECT q.*, count(*) OVER (PARTITION BY q.c1) AS w, row_number() OVER (ORDER BY {listed}) AS r FROM q",
            f"SELECT q.* FROM q ORDER BY {listed} LIMIT 3",
            "SELECT q.c1, count(*) AS n, max(q.c1) AS m FROM q GROUP BY q.c1",
            "SELECT q.c1, count(p.c1) AS n FROM q LEFT JOIN q AS p ON p.c1 = q.c1 GROUP BY q.c1",
            *(["SELECT q.*, i.s FROM q LEFT JOIN a AS i ON i.k = q.c1", "SELECT i.id, i.n FROM b AS i WHERE i.k IN (SELECT q.c1 FROM q)"] if kinds[0] == "number" else []),
        )
        return self.one(f"WITH q AS ({inner}) {made}", made.replace("FROM q LEFT JOIN q AS p", f"FROM ({inner}) AS q LEFT JOIN ({inner}) AS p").replace("FROM q", f"FROM ({inner}) AS q"))

    def view(self):
        return self.one(lambda: self.rows_of()[0], lambda: self.groups_of()[0], lambda: self.sets()[0], self.over, super().view)()
