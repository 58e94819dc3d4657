"""Combined rows by joins of two tables each, nested: the way of an engine whose joins take one table more at a time.

The column c of the child k stands as `~k_c`, how often the child's row counts as `~nk`, and what joins the child as columns of their own.
A table is read only where it can meet those before it, by its first columns, so that a small change goes through little of it.
"""

from __future__ import annotations

from abc import abstractmethod
from collections.abc import Callable, Iterable, Sequence
from typing import NamedTuple

from ..catalogue.views import Formula, Place
from .clickhouse import ClickHouse, alias
from .dialect import COUNT
from .formulas import ALWAYS, Formulas, both
from .shape import Join, Spot
from .steps import Operand, Term
from .tables import Tables
from .tokens import Sql, joined, name, number, sql, text


# A table of so few rows, and so much fewer than another one has, is read whole, since to find out which rows of it that meets would cost more.
FEW, FEWER = 100_000, 16


class Side(NamedTuple):
    """One side of a join: its rows, their columns, and how many rows the largest of its tables has, where that is known."""

    rows: Sql
    columns: list[Sql]
    size: int


def places(formula: Formula) -> list[Place]:
    """The places in a formula."""
    if isinstance(formula, Place):
        return [formula]
    return [place for member in formula[1:] for place in places(member)] if isinstance(formula, list) else []


class Combined(Tables[ClickHouse]):
    """The terms of Comps over slots: `before` are those of a version, and `slot` is the night's own; where the states are `netted`, rows that cancel are not
    gone through. There are so many `servers`, and of each view so many `rows`, of which so many are `changed`, where that is known."""

    before: Sql
    slot: Sql
    servers: int
    netted: bool
    rows: Sequence[int]
    changed: Sequence[int] = ()

    @abstractmethod
    def is_shared(self, v: int) -> bool:
        """Whether each server has a part of a view alone."""

    @abstractmethod
    def origin(self, v: int) -> int | None:
        """The child whose own part each server goes through to make its part of a view."""

    @abstractmethod
    def whole(self, v: int, slots: Sql | None = None) -> Sql:
        """The table that has a view's rows of all servers, or those of some slots."""

    @abstractmethod
    def after(self) -> Sql:
        """The slots that are read once a view's change is put."""

    @abstractmethod
    def groups(self, v: int) -> list[Sql]:
        """The columns by which rows of a view belong together."""

    @abstractmethod
    def grouped(self, columns: Sequence[Sql]) -> Sql:
        """GROUP BY these columns, if there are any."""

    @abstractmethod
    def touched(self, v: int, within: Sql, table: Sql, more: Sql = sql("")) -> Sql:
        """That a row or a group is touched in the night's slot, by a row there that passes a test more."""

    # ---- what is wanted of the children

    def wanted(self, v: int) -> set[Spot]:
        """The places of a combined row that anything reads."""
        view = self.views[v]
        listed: list[int] = [place for formula in [*(view.keep or []), *view.sums] for place in places(formula)]
        listed += [*view.group, *(places(view.where) if view.where is not True else [])]
        return {self.shape.spot(v, place) for place in listed} | {spot for each in self.shape.classes[v] for spot in each}

    def place_of(self, spot: Spot) -> Sql:
        return alias("", spot.child + 1, spot.column + 1)

    def column(self, v: int) -> Callable[[int], Sql]:
        """The column of a place in the combined row."""

        def written(place: int) -> Sql:
            return self.place_of(self.shape.spot(v, place))

        return written

    # ---- a child's rows

    def is_local(self, v: int, child: int) -> bool:
        """Whether a server goes through its own part of a child alone: of one that is whole there, or the first that is shared out."""
        return not self.is_shared(self.views[v].over[child]) or self.origin(v) == child

    def is_dealt(self, v: int, child: int) -> bool:
        """Whether a child that is shared out is added up over all servers before each takes a part of its rows."""
        u = self.views[v].over[child]
        return self.netted and self.origin(v) == child and bool(self.views[u].over)

    def source(self, v: int, term: Term, child: int) -> tuple[Sql, Sql, Sql]:
        """A child's table, in which server's words it is read, and its slots."""
        u, operand = self.views[v].over[child], term[child]
        is_local = self.is_local(v, child) and not self.is_dealt(v, child)
        slots = self.slot if operand.is_change else self.after() if operand.is_after else self.before
        read = self.after() if self.shape.is_summary(u) else slots
        return (self.table(u) if is_local else self.whole(u, read)), (sql("IN") if is_local else sql("GLOBAL IN")), slots

    def child(self, v: int, term: Term, child: int, filters: Iterable[Sql]) -> Sql:
        """The rows of a child with the columns that are wanted, each once as it counts."""
        u, operand = self.views[v].over[child], term[child]
        table, within, slots = self.source(v, term, child)
        columns = sorted(spot.column for spot in self.wanted(v) if spot.child == child)
        if self.shape.is_summary(u):
            rows = self.group_changes if operand.is_change else self.group_states
            return rows(u, child, columns, table, within, slots, filters)
        tests = both([sql("{slot} IN ({slots})", slot=name("~s"), slots=slots), *filters])
        users = self.users(u)
        shown = [sql("{column} AS {spot}", column=users[column], spot=self.place_of(Spot(child, column))) for column in columns]
        if not self.netted:
            shown.append(sql("{count} AS {n}", count=COUNT, n=alias("n", child + 1)))
            return sql("SELECT {shown} FROM {table} WHERE {tests}", shown=joined(shown), table=table, tests=tests)
        if self.is_dealt(v, child):
            mine = sql("cityHash64({users}) % {servers} = {mine}", users=joined(users), servers=number(self.servers), mine=self.own_number())
            tests = both([tests, mine])
        shown.append(sql("sum({count}) AS {n}", count=COUNT, n=alias("n", child + 1)))
        return sql(
            "SELECT {shown} FROM {table} WHERE {tests} GROUP BY {users} HAVING sum({count}) <> 0",
            shown=joined(shown), table=table, tests=tests, users=joined(users), count=COUNT,
        )

    def own_number(self) -> Sql:
        """Which server this is, from 0 on."""
        return sql("(SELECT number FROM {own})", own=self.dialect.table("~w"))

    def group_states(self, u: int, child: int, columns: list[int], table: Sql, within: Sql, slots: Sql, filters: Iterable[Sql]) -> Sql:
        """The groups of a summary, each once."""
        tests = both([sql("{slot} IN ({slots})", slot=name("~s"), slots=slots), *filters])
        users, groups = self.users(u), self.groups(u)
        totals = {column: sql("toInt64(sum({sum}))", sum=users[column]) for column in range(len(groups), len(users))}
        shown = [sql("{column} AS {spot}", column=totals.get(column, users[column]), spot=self.place_of(Spot(child, column))) for column in columns]
        shown.append(sql("toInt64(1) AS {n}", n=alias("n", child + 1)))
        return sql(
            "SELECT {shown} FROM {table} WHERE {tests} {grouped} HAVING sum({count}) > 0",
            shown=joined(shown), table=table, tests=tests, grouped=self.grouped(groups), count=users[len(groups)],
        )

    def groups_beside(self, u: int, table: Sql, within: Sql, filters: Iterable[Sql] = ()) -> Sql:
        """The touched groups of a summary with their count and sums before, `~o`, and after, `~a`."""
        users, groups, shown = self.users(u), self.groups(u), []
        for place, column in enumerate(users[len(groups) :], 1):
            shown.append(sql("sumIf({sum}, {slot} <> {own}) AS {o}", sum=column, slot=name("~s"), own=self.slot, o=alias("o", place)))
            shown.append(sql("sum({sum}) AS {a}", sum=column, a=alias("a", place)))
        tests = both([sql("{slot} IN ({slots})", slot=name("~s"), slots=self.after()), self.touched(u, within, table), *filters])
        return sql(
            "SELECT {shown} FROM {table} WHERE {tests} {grouped}",
            shown=joined([*groups, *shown]), table=table, tests=tests, grouped=self.grouped(groups),
        )

    def differs(self, u: int) -> Sql:
        """That a group's count or a sum of it changed."""
        pairs = [(alias("o", place), alias("a", place)) for place in range(1, self.shape.sums(u) + 1)]
        return sql("({tests})", tests=joined([sql("{o} <> {a}", o=o, a=a) for o, a in pairs], "OR"))

    def group_changes(self, u: int, child: int, columns: list[int], table: Sql, within: Sql, slots: Sql, filters: Iterable[Sql]) -> Sql:
        """The change of a summary: a touched group's row before leaves and the one after comes."""
        users, groups, sign = self.users(u), self.shape.groups(u), name("~sign")
        both_ways = sql(
            "SELECT *, arrayJoin([toInt64({less}), toInt64({more})]) AS {sign} FROM ({beside})",
            less=text("-1"), more=text("1"), sign=sign, beside=self.groups_beside(u, table, within, filters),
        )
        shown = []
        for column in columns:
            place = column - groups + 1
            value = users[column] if place < 1 else self.signed("toInt64({each})", place)
            shown.append(sql("{value} AS {spot}", value=value, spot=self.place_of(Spot(child, column))))
        shown.append(sql("{sign} AS {n}", sign=sign, n=alias("n", child + 1)))
        return sql(
            "SELECT {shown} FROM ({both}) WHERE {differs} AND {there} > 0",
            shown=joined(shown), both=both_ways, differs=self.differs(u), there=self.signed("{each}", 1),
        )

    def signed(self, template: str, place: int) -> Sql:
        """A sum after where the row comes, and before where it leaves."""
        a, o = (sql(template, each=alias(letter, place)) for letter in "ao")
        return sql("if({sign} > 0, {a}, {o})", sign=name("~sign"), a=a, o=o)

    # ---- what a child meets

    def meets(self, v: int, term: Term, join: Join, before: Sequence[int]) -> list[Sql]:
        """A test that a child's row can meet rows of one child before it, by the columns that join them; none where nothing changes, or where the
        child has few rows beside the other one."""
        if not any(operand.is_change for operand in term) or term[join.child].is_change:
            return []
        u = self.views[v].over[join.child]
        for other in before:
            pairs = [(a, b) for a, b in join.pairs if a.child == other and b.column < self.shape.groups(u)]
            if pairs:
                return [] if self.is_few(term[join.child], term[other]) else [self.met(v, term, join.child, pairs, before)]
        return []

    def is_few(self, operand: Operand, beside: Operand) -> bool:
        """Whether an operand has few rows, and much fewer than a table has."""
        has = self.size(operand)
        return not beside.is_change and has <= FEW and has * FEWER < self.size(beside)

    def met(self, v: int, term: Term, child: int, pairs: list[tuple[Spot, Spot]], before: Sequence[int]) -> Sql:
        users, other = self.users(self.views[v].over[child]), pairs[0][0].child
        _, within, _ = self.source(v, term, child)
        mine, theirs = [users[b.column] for _, b in pairs], [self.place_of(a) for a, _ in pairs]
        sought = joined(mine) if len(mine) == 1 else sql("({mine})", mine=joined(mine))
        return sql(
            "{sought} {within} (SELECT {theirs} FROM ({rows}))",
            sought=sought, within=within, theirs=joined(theirs), rows=self.filtered(v, term, other, before),
        )

    def filtered(self, v: int, term: Term, child: int, before: Sequence[int]) -> Sql:
        """A child's rows that can meet those before it."""
        join = next(each for each in self.joins(v, term) if each.child == child)
        earlier = before[: before.index(child)] if child in before else before
        return self.child(v, term, child, self.meets(v, term, join, earlier))

    # ---- joins

    def size(self, operand: Operand) -> int:
        """How many rows an operand has, where that is known."""
        found = self.changed if operand.is_change else self.rows
        return found[operand.view] if found else 0

    def joins(self, v: int, term: Term) -> list[Join]:
        """The children in their order. Where nothing changes, the one of the most rows is gone through, and the others are held in memory."""
        own = [child for child in range(len(term)) if self.is_local(v, child)]
        if not self.rows or not own or any(operand.is_change for operand in term):
            return self.shape.joins(v, term)
        return self.shape.joins(v, term, max(own, key=lambda child: self.rows[self.views[v].over[child]]))

    def joined_rows(self, v: int, term: Term) -> tuple[Sql, list[Sql]]:
        """The combined rows of a term, and what is left to be tested of its joins."""
        found: Side | None = None
        before, left = list[int](), list[Sql]()
        for join in self.joins(v, term):
            side = Side(self.filtered(v, term, join.child, before), self.columns_of_child(v, join.child), self.size(term[join.child]))
            keys = [(a, b) for a, b in join.pairs if a.child != b.child]
            left += [sql("{a} = {b}", a=self.place_of(a), b=self.place_of(b)) for a, b in join.pairs if a.child == b.child]
            found = side if found is None else self.joined_with(found, side, keys, join.child)
            before.append(join.child)
        assert found is not None, "a view is over one view at least"
        return found.rows, left

    def columns_of_child(self, v: int, child: int) -> list[Sql]:
        spots = sorted(spot for spot in self.wanted(v) if spot.child == child)
        return [*map(self.place_of, spots), alias("n", child + 1)]

    def joined_with(self, left: Side, right: Side, keys: list[tuple[Spot, Spot]], child: int) -> Side:
        """Two sides joined. The engine holds the second one in memory, and goes through the first: that is the larger one, where it is known."""
        names = [alias("k", child + 1, at) for at in range(len(keys))]
        sides = []
        for place, side in enumerate((left, right)):
            more = [sql("{spot} AS {key}", spot=self.place_of(pair[place]), key=key) for pair, key in zip(keys, names)]
            sides.append(sql("(SELECT {columns} FROM ({rows}))", columns=joined([*side.columns, *more]), rows=side.rows))
        first, second = sides[::-1] if right.size > left.size else sides
        how = sql("ALL INNER JOIN {second} USING ({keys})" if keys else "CROSS JOIN {second}", second=second, keys=joined(names))
        columns = [*left.columns, *right.columns]
        return Side(sql("SELECT {columns} FROM {first} {how}", columns=joined(columns), first=first, how=how), columns, max(left.size, right.size))

    # ---- terms

    def outputs_apart(self, v: int, formulas: Formulas) -> list[Sql]:
        """What a combined row shows, where a constant is one row's like any other."""
        shown = self.outputs(v, formulas)
        view = self.views[v]
        given: Sequence[Formula] = self.shape.kept(v) if not self.shape.is_summary(v) else [*map(Place, view.group), *view.sums]
        return [each if places(formula) else sql("materialize({each})", each=each) for each, formula in zip(shown, given)]

    def conditions(self, v: int, formulas: Formulas, left: list[Sql]) -> list[Sql]:
        """What a combined row has to pass beside the joins."""
        return [*left, formulas.holds(self.views[v].where)]

    def counts(self, term: Term) -> list[Sql]:
        """How often a combined row counts."""
        return [alias("n", child) for child in range(1, len(term) + 1)]

    def term(self, v: int, term: Term) -> Sql:
        """The combined rows of one term: `~g`, what they are kept or grouped by, `~v`, what is summed, `~n` and `~lost`."""
        formulas = Formulas(self.dialect, self.column(v))
        names = [alias("g", place) for place in range(1, self.shape.groups(v) + 1)]
        names += [alias("v", place) for place in range(2, self.shape.sums(v) + 1)]
        rows, left = self.joined_rows(v, term)
        shown = [sql("{value} AS {name}", value=value, name=each) for value, each in zip(self.outputs_apart(v, formulas), names)]
        shown.append(sql("{count} AS {n}", count=joined(self.counts(term), "*"), n=alias("n")))
        if self.shape.checked(v):
            shown.append(sql("toInt64({lost}) AS {name}", lost=self.lost(v, formulas), name=alias("lost")))
        tests = [test for test in self.conditions(v, formulas, left) if test != ALWAYS]
        where = sql("WHERE {tests}", tests=both(tests)) if tests else sql("")
        return sql("SELECT {shown} FROM ({rows}) {where}", shown=joined(shown), rows=rows, where=where)
