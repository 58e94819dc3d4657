"""Sizes of a night that is still to come, by the engine's counts, the tables of changes and the history; and of one that was."""

from __future__ import annotations

from collections.abc import Mapping, Sequence
from typing import TYPE_CHECKING, NamedTuple, TypeAlias

from ...strategy.sizes import MOST_ROWS
from ..dialect import COUNT
from ..tokens import Sql, joined, number, sql
from .history import SIZES, STEPS

if TYPE_CHECKING:
    from .database import Rows
    from .live import Database, LiveScript

# From so many of the last nights it is told how a derived view changes with the base views below it.
NIGHTS = 10


class Past(NamedTuple):
    """The rows of a view before a night and after it, and those that changed."""

    pre: int
    post: int
    change: int


# The sizes of a night, by the names of its views.
OfNight: TypeAlias = dict[str, Past]


class Done(NamedTuple):
    """A step of a night as its history tells it: its expression, its predicted work, and its seconds, where the time was told."""

    told: str
    work: int | None
    seconds: float | None


class Before(NamedTuple):
    """The sizes of each view for the next night, and how many nights tell those of the derived ones."""

    sizes: list[Past]
    nights: int


class Sizes:
    """What a database says of the sizes of a catalogue's views."""

    def __init__(self, script: LiveScript, database: Database) -> None:
        self.script, self.views, self.database = script, script.views, database

    # ---- what is asked

    def listed(self, columns: Sql) -> Sql:
        """Columns as the database answers them."""
        return self.script.dialect.answered(columns)

    def rows(self, *queries: Sql) -> list[Rows]:
        return self.database.rows(*queries)

    def count(self, v: int) -> Sql:
        """A query for how many rows a view has."""
        counted = sql("coalesce(sum(t.{count}), 0)", count=COUNT) if self.script.shape.is_counted(v) else sql("count(*)")
        return sql("SELECT {listed} FROM {table} AS t", listed=self.listed(counted), table=self.script.tables.table(v))

    def changed(self, v: int) -> Sql:
        """The net growth of a base view, and how many rows of it change, by its table of changes."""
        columns = joined(self.script.tables.users(v))
        return sql(
            "SELECT {listed} FROM (SELECT sum({count}) AS n FROM {changes} GROUP BY {columns}) AS g WHERE g.n <> 0",
            listed=self.listed(sql("coalesce(sum(g.n), 0), coalesce(sum(abs(g.n)), 0)")), count=COUNT, columns=columns,
            changes=self.script.tables.table(v, "~changes"),
        )

    def past(self) -> dict[int, OfNight]:
        """The last nights, the newest first."""
        columns = self.listed(sql("s.night, s.view, s.pre, s.post, s.change"))
        query = "SELECT {columns} FROM {sizes} AS s WHERE s.night > (SELECT max(b.night) FROM {sizes} AS b) - {nights} ORDER BY s.night DESC"
        found: dict[int, OfNight] = {}
        for night, view, *sizes in self.rows(sql(query, columns=columns, sizes=self.script.tables.own(SIZES), nights=number(NIGHTS)))[0]:
            found.setdefault(night, {})[view] = Past(*map(int, sizes))
        return found

    # ---- before a night

    def before(self) -> Before:
        """The sizes for the next night."""
        past, base = self.past(), self.script.steps.base()
        changes = dict(zip(base, (answer[0] for answer in self.waiting([self.changed(v) for v in base]))))
        found: dict[int, Past] = {}
        for v in range(len(self.views)):
            pre = self.rows_of(v, past)
            if v in changes:
                found[v] = Past(pre, *within(pre, *map(int, changes[v])))
            else:
                found[v] = self.derived(v, pre, past, found)
        return Before([found[v] for v in range(len(self.views))], self.told_by(past))

    def waiting(self, queries: Sequence[Sql]) -> list[Rows]:
        """The answers about changes, with those that wait in the log where tables are captured from it."""
        log = self.script.captures.log_of(self.database)
        return log.waiting(self.database, queries) if log else self.rows(*queries)

    def rows_of(self, v: int, past: Mapping[int, OfNight]) -> int:
        """How many rows a view has: the last night says it, or the engine counts them."""
        last = next((sizes[self.views[v].name].post for sizes in past.values() if self.views[v].name in sizes), None)
        return int(self.rows(self.count(v))[0][0][0]) if last is None else last

    def below(self, v: int) -> set[int]:
        """The base views below a view."""
        return {v} if not self.views[v].over else set[int]().union(*map(self.below, self.views[v].over))

    def told_by(self, past: Mapping[int, OfNight]) -> int:
        """How many nights changed anything."""
        return sum(any(size.change for size in sizes.values()) for sizes in past.values())

    def derived(self, v: int, pre: int, past: Mapping[int, OfNight], found: Mapping[int, Past]) -> Past:
        """A derived view changes as it did in the last nights for each changed row of the base views below it; in the first night as its
        children do, for each of their rows."""
        below = [self.views[u].name for u in self.below(v)]
        nights = [sizes for sizes in past.values() if self.views[v].name in sizes and all(name in sizes for name in below)]
        then, now = (sum(each) for each in (
            [sizes[name].change for sizes in nights for name in below], [found[u].change for u in self.below(v)],
        ))
        if then:
            own = [sizes[self.views[v].name] for sizes in nights]
            growth, change = (sum(each) * now for each in ((size.post - size.pre for size in own), (size.change for size in own)))
            return Past(pre, *within(pre, growth // then, self.at_most(v, pre, -(-change // then))))
        change = sum(-(-found[u].change * max(pre, 1) // max(found[u].pre, 1)) for u in self.views[v].over)
        return Past(pre, *within(pre, 0, self.at_most(v, pre, change)))

    def at_most(self, v: int, pre: int, change: int) -> int:
        """A group that changes is a row that leaves and one that comes, so that few groups change by few rows."""
        return min(change, 2 * pre) if self.script.shape.is_summary(v) and pre else change

    # ---- after it

    def after(self) -> list[Past] | None:
        """The sizes of each view in the last night, or None where there was none."""
        night = next(iter(self.past().values()), dict[str, Past]())
        return [night[view.name] for view in self.views] if all(view.name in night for view in self.views) else None

    def steps(self) -> dict[int, list[Done]]:
        """The steps of the last nights, night by night."""
        columns = self.listed(sql("s.night, s.told, s.work, s.seconds"))
        query = "SELECT {columns} FROM {steps} AS s WHERE s.night > (SELECT max(b.night) FROM {steps} AS b) - {nights} ORDER BY s.night, s.step"
        found: dict[int, list[Done]] = {}
        for night, *step in self.rows(sql(query, columns=columns, steps=self.script.tables.own(STEPS), nights=number(10 * NIGHTS)))[0]:
            found.setdefault(night, []).append(Done(*step))
        return found


def within(pre: int, growth: int, change: int) -> tuple[int, int]:
    """Rows after, and how many change, such that they may be sizes."""
    change = min(max(change, 0), MOST_ROWS)
    post = min(max(pre + max(min(growth, change), -change), 0), MOST_ROWS)
    return post, change
