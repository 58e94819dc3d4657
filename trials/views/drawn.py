"""Drawn views: a grammar of what people write, over tables with drawn rows. Each is right after opening and after nights, or is refused with its reason."""

from __future__ import annotations

from dataclasses import dataclass, field

from hypothesis import strategies as st

# Tables that have something of each kind; rows are drawn with few values, so that there are ties, repeated rows, groups that leave and NULLs.
TABLES = """
CREATE TABLE a (id int PRIMARY KEY, k int, s text, t timestamp, n numeric(6,2), f boolean);
CREATE TABLE b (id int PRIMARY KEY, a_id int, k smallint, s varchar(8), d date, w numeric, q bigint);
CREATE TABLE c (a_id int, b_id bigint, s text, n numeric(6,2), m int NOT NULL);
"""
NUMBERS, TEXTS, TIMES, DAYS, TRUTHS = "number", "text", "time", "day", "truth"
COLUMNS = {
    "a": {"id": NUMBERS, "k": NUMBERS, "s": TEXTS, "t": TIMES, "n": NUMBERS, "f": TRUTHS},
    "b": {"id": NUMBERS, "a_id": NUMBERS, "k": NUMBERS, "s": TEXTS, "d": DAYS, "w": NUMBERS, "q": NUMBERS},
    "c": {"a_id": NUMBERS, "b_id": NUMBERS, "s": TEXTS, "n": NUMBERS, "m": NUMBERS},
}
KEYED = {"a": ("id", "k"), "b": ("a_id", "id", "k", "q"), "c": ("a_id", "b_id", "m")}
WHOLE = {"a": ("id", "k"), "b": ("id", "a_id", "k", "q"), "c": ("a_id", "b_id", "m")}
VALUES = {
    "number": ["NULL", "0", "1", "2", "3", "-1"],
    "numeric": ["NULL", "0", "1.00", "1.25", "-2.5", "9.99", "'NaN'"],
    "wide": ["NULL", "0", "1.0", "1.00", "0.333333333333333333333", "12345678901234567890"],
    "text": ["NULL", "''", "'x'", "'X'", "'y z'", "'\\N'", "'N'", "'\\\\N'"],
    "time": ["NULL", "'2026-01-01'", "'2026-01-01 10:00:00.000001'", "'2026-02-28 23:59:59'", "'infinity'"],
    "day": ["NULL", "'2026-01-01'", "'2026-02-28'", "'-infinity'"],
    "truth": ["NULL", "TRUE", "FALSE"],
}
ROWS = {
    "a": ("number", "text", "time", "numeric", "truth"),
    "b": ("number", "number", "text", "day", "wide", "number"),
    "c": ("number", "number", "text", "numeric", "number"),
}


@dataclass(slots=True)
class Scope:
    """The items of a FROM: under which name each stands, and its columns with what they hold."""

    items: dict[str, dict[str, str]] = field(default_factory=dict)

    def columns(self, holds):
        """The columns that hold this."""
        return [f"{alias}.{name}" for alias, columns in self.items.items() for name, kind in columns.items() if kind == holds]


class Views:
    """Draws views."""

    def __init__(self, draw):
        self.draw, self.many = draw, 0

    def one(self, *choices):
        """One of these."""
        return self.draw(st.sampled_from(choices))

    def chance(self, of=2):
        """True in one of so many cases."""
        return self.draw(st.integers(1, of)) == 1

    def alias(self):
        """A name for an item."""
        self.many += 1
        return f"i{self.many}"

    # ---- expressions of one row

    def value(self, scope, holds, deep=2):
        """An expression that holds this."""
        columns = scope.columns(holds)
        if holds == NUMBERS and deep > 1 and self.chance(10):
            return self.looked_up(scope)
        if deep == 0 or not columns or self.chance(2):
            return self.one(*columns) if columns and not self.chance(8) else self.constant(holds)
        below = lambda kind: self.value(scope, kind, deep - 1)  # noqa: E731
        match holds:
            case "number":
                return self.one(
                    f"({below('number')} + {below('number')})", f"({below('number')} * {below('number')})", f"({below('number')} - 1)", f"(- {below('number')})",
                    f"coalesce({below('number')}, 0)", f"nullif({below('number')}, 1)", f"length({below('text')})", f"abs({below('number')})",
                    f"CASE WHEN {self.test(scope, deep - 1)} THEN {below('number')} ELSE {below('number')} END", f"({below('number')} / 2)",
                    f"extract(month FROM {below('time')})", f"round({below('number')}::numeric, 1)", f"({below('number')} / nullif({below('number')}, 0))",
                )
            case "text":
                return self.one(
                    f"lower({below('text')})", f"({below('text')} || '-')", f"coalesce({below('text')}, 'none')", f"({below('number')})::text", f"left({below('text')}, 1)",
                    f"CASE WHEN {self.test(scope, deep - 1)} THEN {below('text')} ELSE 'other' END", f"({below('text')} || {below('text')})", f"trim({below('text')})",
                )
            case "time":
                return self.one(f"date_trunc('month', {below('time')})", f"({below('day')})::timestamp", f"coalesce({below('time')}, '2026-01-01')")
            case "day":
                return self.one(f"({below('time')})::date", f"coalesce({below('day')}, '2026-01-01')")
        return self.test(scope, deep - 1)

    def looked_up(self, scope):
        """A query in the place of a value."""
        table, alias, outer = self.one(*KEYED), self.alias(), scope.columns(NUMBERS)
        inner = Scope({alias: dict(COLUMNS[table])})
        shown = self.one("count(*)", f"max({self.value(inner, NUMBERS, 1)})", f"sum({alias}.{self.one(*KEYED[table])})")
        where = f" WHERE {alias}.{self.one(*KEYED[table])} = {self.one(*outer)}" if outer else ""
        return f"(SELECT {shown} FROM {table} AS {alias}{where})"

    def constant(self, holds):
        """A value that is written."""
        return {
            "number": self.one("1", "2", "0", "1.5"), "text": self.one("'x'", "''", "'y z'"), "time": "timestamp '2026-01-01'", "day": "date '2026-01-01'",
            "truth": self.one("TRUE", "FALSE"),
        }[holds]

    def test(self, scope, deep=2):
        """A condition."""
        if deep > 0 and self.chance(3):
            one, other = self.test(scope, deep - 1), self.test(scope, deep - 1)
            return self.one(f"({one} AND {other})", f"({one} OR {other})", f"(NOT {one})")
        holds = self.one(NUMBERS, NUMBERS, TEXTS, TIMES, TRUTHS)
        left, right = self.value(scope, holds, min(deep, 1)), self.value(scope, holds, min(deep, 1))
        if holds == TRUTHS:
            return self.one(f"({left} IS TRUE)", f"({left} IS NOT FALSE)", left)
        if holds == TEXTS and self.chance(3):
            return self.one(f"{left} LIKE '%x%'", f"{left} IN ('x', 'N')", f"{left} ~ '^[a-z]'")
        return self.one(*(f"({left} {sign} {right})" for sign in ("=", "<>", "<", ">=", "IS DISTINCT FROM")), f"({left} IS NULL)", f"({left} IS NOT NULL)")

    # ---- items

    def item(self, scope, deep):
        """A table, or a query, under a name."""
        alias = self.alias()
        if deep > 0 and self.chance(4):
            text, columns = self.query(deep - 1)
            scope.items[alias] = columns
            return f"({text}) AS {alias}", alias
        table = self.one(*COLUMNS)
        scope.items[alias] = dict(COLUMNS[table])
        return f"{table} AS {alias}", alias

    def joined(self, scope, deep):
        """A FROM of one item, or of several."""
        text, _ = self.item(scope, deep)
        for _ in range(self.draw(st.integers(0, 2))):
            known = Scope(dict(scope.items))
            more, alias = self.item(scope, deep)
            here = Scope({alias: scope.items[alias]})
            left, right = known.columns(NUMBERS), here.columns(NUMBERS)
            if not left or not right:
                text += f" CROSS JOIN {more}"
                continue
            on = f"{self.one(*left)} = {self.one(*right)}" + (f" AND {self.test(scope, 1)}" if self.chance(3) else "")
            text += f" {self.joining(on)} {more} ON {on}"
        return text

    def joining(self, on):
        """How two are joined; in full only by equality alone."""
        kinds = ["JOIN", "JOIN", "JOIN", "LEFT JOIN", "LEFT JOIN", "RIGHT JOIN", *(["FULL JOIN"] if " AND " not in on and "(" not in on else [])]
        return self.one(*kinds)

    def where(self, scope, deep):
        """A WHERE, or nothing."""
        tests = [self.test(scope)] if self.chance() else []
        if deep > 0 and self.chance(4):
            inner, table = Scope(), self.one(*KEYED)
            alias = self.alias()
            inner.items[alias] = dict(COLUMNS[table])
            outer, mine = scope.columns(NUMBERS), self.one(*KEYED[table])
            rest = f" AND {self.test(inner, 1)}" if self.chance() else ""
            if outer:
                left = self.one(*outer)
                tests.append(self.one(
                    f"{self.one('', 'NOT ')}EXISTS (SELECT 1 FROM {table} AS {alias} WHERE {alias}.{mine} = {left}{rest})",
                    f"{left} {self.one('', 'NOT ')}IN (SELECT {alias}.{mine} FROM {table} AS {alias} WHERE TRUE{rest})",
                ))
        return f" WHERE {' AND '.join(tests)}" if tests else ""

    # ---- queries

    def query(self, deep=1):
        """A query, and its columns with what they hold."""
        if deep > 0 and self.chance(8):
            kinds = [self.one(NUMBERS, TEXTS) for _ in range(self.draw(st.integers(1, 2)))]
            sides = [self.plain(deep - 1, kinds)[0] for _ in range(2)]
            made = f" {self.one('UNION ALL', 'UNION', 'EXCEPT', 'INTERSECT')} ".join(f"({side})" for side in sides)
            return made, {f"o{at}": kind for at, kind in enumerate(kinds, 1)}
        if deep > 0 and self.chance(6):
            return self.over(deep - 1)
        return self.grouped(deep) if self.chance() else self.plain(deep)

    def over(self, deep):
        """A query over one that has a name: windows, the first rows of each, the first rows of all, or twice the same."""
        inner, columns = self.query(deep)
        listed, first = ", ".join(columns), next(iter(columns))
        made, more = self.one(
            (f"SELECT q.*, count(*) OVER (PARTITION BY q.{first}) AS w, row_number() OVER (ORDER BY {listed}) AS r FROM q", {"w": NUMBERS, "r": NUMBERS}),
            (f"SELECT DISTINCT ON (q.{first}) q.* FROM q ORDER BY {listed}", {}),
            (f"SELECT q.* FROM q ORDER BY {listed} LIMIT 3", {}),
            (f"SELECT q.{first} AS {first}, count(p.{first}) AS n FROM q LEFT JOIN q AS p ON p.{first} = q.{first} GROUP BY q.{first}", None),
        )
        holds = {first: columns[first], "n": NUMBERS} if more is None else {**columns, **more}
        return f"WITH q AS ({inner}) {made}", holds

    def plain(self, deep, kinds=None):
        """A query of rows."""
        scope = Scope()
        text = self.joined(scope, deep)
        kinds = kinds or [self.one(*[kind for kind in (NUMBERS, TEXTS, TIMES, DAYS, TRUTHS)]) for _ in range(self.draw(st.integers(1, 4)))]
        shown = [self.value(scope, kind) for kind in kinds]
        shown = [f"({each})::{'numeric' if kind == NUMBERS else 'text'}" if kind in (NUMBERS, TEXTS) else each for each, kind in zip(shown, kinds)]
        listed = ", ".join(f"{each} AS o{at}" for at, each in enumerate(shown, 1))
        distinct = self.one("", "", "", "DISTINCT ")
        return f"SELECT {distinct}{listed} FROM {text}{self.where(scope, deep)}", {f"o{at}": kind for at, kind in enumerate(kinds, 1)}

    def aggregate(self, scope):
        """A function over the rows of a group, and what it holds."""
        where = f" FILTER (WHERE {self.test(scope, 1)})" if self.chance(4) else ""
        holds = self.one(NUMBERS, NUMBERS, TEXTS, TIMES, DAYS)
        given = self.value(scope, holds, 1)
        return self.one(
            (f"count(*){where}", NUMBERS), (f"count({given}){where}", NUMBERS), (f"sum({self.value(scope, NUMBERS)}){where}", NUMBERS),
            (f"avg({self.value(scope, NUMBERS, 1)}){where}", NUMBERS), (f"min({given}){where}", holds), (f"max({given}){where}", holds),
            (f"count(DISTINCT {given}){where}", NUMBERS), (f"bool_and({self.test(scope, 1)}){where}", TRUTHS), (f"bool_or({self.test(scope, 1)}){where}", TRUTHS),
            (f"sum(DISTINCT {self.value(scope, NUMBERS, 1)}){where}", NUMBERS), (f"string_agg({self.as_text(scope)}){where}", TEXTS),
        )

    def as_text(self, scope):
        """A text, and that it is the order of a list."""
        said = self.value(scope, TEXTS, 1)
        return f"{said}, ',' ORDER BY {said}"

    def grouped(self, deep):
        """A query of groups, or of all rows at once."""
        scope = Scope()
        text = self.joined(scope, deep)
        where = self.where(scope, deep)
        groups = [(self.value(scope, kind, 1), kind) for kind in [self.one(NUMBERS, TEXTS, TIMES, DAYS, TRUTHS) for _ in range(self.draw(st.integers(0, 2)))]]
        groups = [(said, kind) for said, kind in groups if "." in said and "SELECT" not in said]
        counted = [self.aggregate(scope) for _ in range(self.draw(st.integers(1, 3)))]
        listed = ", ".join(f"{said} AS o{at}" for at, (said, _) in enumerate([*groups, *counted], 1))
        having = f" HAVING {self.one('count(*) > 1', f'{counted[0][0]} IS NOT NULL', 'max(1) = 1')}" if self.chance(4) else ""
        by = f" GROUP BY {', '.join(dict.fromkeys(said for said, _ in groups))}" if groups else ""
        by = f" GROUP BY ROLLUP ({', '.join(dict.fromkeys(said for said, _ in groups))})" if groups and self.chance(8) else by
        return f"SELECT {listed} FROM {text}{where}{by}{having}", {f"o{at}": kind for at, (_, kind) in enumerate([*groups, *counted], 1)}


@dataclass(slots=True)
class Day:
    """What an application writes before a night."""

    statements: list[str]


def row(draw, table, key):
    """The values of a row."""
    values = [draw(st.sampled_from(VALUES[kind])) for kind in ROWS[table]]
    if table == "c":
        values[-1] = draw(st.sampled_from(VALUES["number"][1:]))
    return f"({', '.join([str(key), *values] if table != 'c' else values)})"


@st.composite
def rows(draw):
    """The statements that fill the tables."""
    found = []
    for table, most in (("a", 8), ("b", 10), ("c", 14)):
        listed = [row(draw, table, key) for key in range(draw(st.integers(1, most)))]
        found.append(f"INSERT INTO {table} VALUES {', '.join(listed)};")
    return found


@st.composite
def day(draw, number):
    """What a day changes."""
    found = []
    for _ in range(draw(st.integers(1, 4))):
        table = draw(st.sampled_from(list(COLUMNS)))
        column, kind = draw(st.sampled_from(list(zip([name for name in COLUMNS[table] if name != "id"], ROWS[table]))))
        value = draw(st.sampled_from(VALUES[kind] if column != "m" else VALUES[kind][1:]))
        by = draw(st.sampled_from(WHOLE[table]))
        test = f"{by} % 2 = {draw(st.integers(0, 1))}" if draw(st.booleans()) else f"{by} = {draw(st.integers(0, 3))}"
        found.append(draw(st.sampled_from([
            f"UPDATE {table} SET {column} = {value} WHERE {test};", f"DELETE FROM {table} WHERE {test};",
            f"INSERT INTO {table} VALUES {row(draw, table, 100 * number + len(found))};",
        ])))
    if draw(st.integers(1, 6)) == 1:
        found.append(f"DELETE FROM {draw(st.sampled_from(list(COLUMNS)))};")
    return "\n".join(found)


@st.composite
def views(draw, many):
    """So many views."""
    drawn = Views(draw)
    return [drawn.query()[0] for _ in range(many)]
