"""What each night leaves of itself: when it ran, the rows of each view before and after it and of its change, and how long each step took."""

from __future__ import annotations

from collections.abc import Iterable, Sequence
from typing import TYPE_CHECKING

from ..block import counter
from ..dialect import COUNT
from ..tables import Part, Tables
from ..tokens import Sql, joined, number, sql, text
from .access import CapturedAccess, KeyedAccess
from .checks import CHECKS, columns

if TYPE_CHECKING:
    from .live import LiveDialect

NIGHTS, SIZES, STEPS = "~nights", "~sizes", "~steps"
MOMENTS = "night~moments"


def array(cells: Iterable[str | int | None]) -> Sql:
    """Texts, numbers and NULLs as the text of an array."""
    said = ["NULL" if cell is None else '"' + str(cell).replace("\\", "\\\\").replace('"', '\\"') + '"' for cell in cells]
    return text("{" + ",".join(said) + "}")


class History(Part["LiveDialect"]):
    """The tables of a script's nights, and the statements that add a night to them."""

    def __init__(self, tables: Tables[LiveDialect], access: CapturedAccess) -> None:
        super().__init__(tables)
        self.access = access

    def listed_tables(self) -> list[tuple[str, Sql]]:
        """Their names and columns."""
        parts = {kind: self.dialect.history_kinds[kind] for kind in ("whole", "text", "moment", "seconds")}
        return [
            (NIGHTS, sql("night {whole} PRIMARY KEY, began {moment} NOT NULL, ended {moment}", **parts)),
            (SIZES, sql("night {whole} NOT NULL, view {text} NOT NULL, pre {whole} NOT NULL, post {whole} NOT NULL, change {whole} NOT NULL,"
                        " PRIMARY KEY (night, view)", **parts)),
            (STEPS, sql("night {whole} NOT NULL, step {whole} NOT NULL, told {text} NOT NULL, work {whole}, seconds {seconds},"
                        " PRIMARY KEY (night, step)", **parts)),
            (CHECKS, columns(self.dialect)),
        ]

    def table(self, said: str) -> Sql:
        return self.tables.own(said)

    def target(self, said: str) -> Sql:
        """A table that a statement of the night fills."""
        return self.dialect.target(f"{self.tables.prefix}{said}")

    def working_tables(self) -> list[tuple[str, list[Sql]]]:
        whole = self.dialect.kinds["int"]
        return [(MOMENTS, [sql("step {whole}, at {seconds}", whole=whole, seconds=self.dialect.history_kinds["seconds"])])]

    def moment(self, step: int) -> Sql:
        """A step has ended; step 0 is what stands before the first."""
        moments = self.dialect.filling(self.dialect.working(MOMENTS))
        return sql("INSERT INTO {moments} VALUES ({step}, {now})", moments=moments, step=number(step), now=self.dialect.now)

    def number(self) -> Sql:
        """The number of the night that is being carried out."""
        return sql("(SELECT coalesce(max(b.night), 0) FROM {nights} AS b)", nights=self.table(NIGHTS))

    def began(self) -> list[Sql]:
        nights = self.table(NIGHTS)
        began = "INSERT INTO {target} (night, began) SELECT coalesce(max(b.night), 0) + 1, {moment} FROM {nights} AS b"
        return [sql(began, target=self.target(NIGHTS), moment=self.dialect.moment, nights=nights), self.moment(0)]

    def before(self, v: int) -> tuple[Sql, Sql]:
        """How many rows a view had after the last night, or has now where no night says it."""
        is_counted = self.shape.is_counted(v) and v not in self.access.keys
        counted = sql("sum(t.{count})", count=COUNT) if is_counted else sql("count(*)")
        last = "(SELECT s.post FROM {sizes} AS s WHERE s.view = {view} ORDER BY s.night DESC LIMIT 1)"
        now = "(SELECT coalesce({counted}, 0) FROM {table} AS t)"
        before = sql(last, sizes=self.table(SIZES), view=text(self.views[v].name))
        return before, sql(now, counted=counted, table=self.tables.table(v))

    def sizes(self, v: int) -> Sql:
        """The rows of a view before the night and after it, and those that came and left."""
        last, now = self.before(v)
        changed = "(SELECT coalesce(sum({number}), 0) FROM {net} AS d)"
        more, change = (sql(changed, number=sql(each), net=self.tables.working(v, "net")) for each in ("d.n", "abs(d.n)"))
        added = "INSERT INTO {target} (night, view, pre, post, change) SELECT {night}, {view}, g.rows, g.rows + {more}, {change}"
        added += " FROM (SELECT coalesce({last}, {now} - {more}) AS rows) AS g"
        return sql(added, target=self.target(SIZES), night=self.number(), view=text(self.views[v].name), more=more, change=change,
                   last=last, now=now)

    def opened(self, v: int, is_filled: bool = True, counted: Sql | None = None) -> Sql:
        """The rows of a view that was just filled, where they were counted, or as they are; of another one as they were told last."""
        last, now = self.before(v)
        now = now if is_filled and self.views[v].over else sql("coalesce({last}, {now})", last=last, now=now)
        added = "INSERT INTO {target} (night, view, pre, post, change) SELECT {night}, {view}, g.many, g.many, 0 FROM (SELECT {now} AS many) AS g"
        return sql(added, target=self.target(SIZES), night=self.number(), view=text(self.views[v].name), now=counted or now)

    def steps_noted(self, told: Sequence[str], works: Sequence[int | None]) -> Sql:
        """Each step with its predicted work, where there is one, and its seconds, where the engine tells the time while it works."""
        nothing = sql("NULL")
        rows = [
            sql("({at}, {said}, {work})", at=number(at), said=self.dialect.text(said), work=nothing if work is None else number(work))
            for at, (said, work) in enumerate(zip(told, works), 1)
        ]
        added = (
            "INSERT INTO {target} (night, step, told, work, seconds) SELECT {night}, l.step, l.told, CAST(l.work AS {whole}), {seconds}"
            " FROM (WITH listed (step, told, work) AS (VALUES {rows}) SELECT * FROM listed) AS l {moments}"
        )
        return sql(added, target=self.target(STEPS), night=self.number(), rows=joined(rows), whole=self.dialect.kinds["int"],
                   seconds=self.seconds, moments=self.moments())

    seconds = sql("e.at - s.at")

    def moments(self) -> Sql:
        """When each step ended, and the one before."""
        return sql("LEFT JOIN {moments} AS e ON e.step = l.step LEFT JOIN {moments} AS s ON s.step = l.step - 1", moments=self.dialect.working(MOMENTS))

    def ended(self, told: Sequence[str], works: Sequence[int | None]) -> list[Sql]:
        """What a night adds at its end."""
        return [*(self.sizes(v) for v in range(len(self.views))), *([self.steps_noted(told, works)] if told else []), self.closed()]

    def closed(self) -> Sql:
        """The night is over."""
        ended = "UPDATE {target} SET ended = {moment} WHERE night = {night}"
        return sql(ended, target=self.target(NIGHTS), moment=self.dialect.moment, night=self.number())


class MergeHistory(History):
    """The history of nights that count as they go, in variables of their block."""

    access: KeyedAccess

    def working_tables(self) -> list[tuple[str, list[Sql]]]:
        return []

    def moment(self, step: int) -> Sql:
        return sql("moments[{step}] := {now}", step=number(step), now=self.dialect.moment)

    def opening_began(self) -> list[Sql]:
        return super().began()

    def began(self) -> list[Sql]:
        """A night is written down when it is over, in one statement."""
        return [self.moment(0)]

    def ended(self, told: Sequence[str], works: Sequence[int | None], seconds: Sql | None = None) -> list[Sql]:
        """The night, its steps, and the sizes of all views, each from those of the last night, in one statement, since it takes longer to plan one than
        to carry it out; a view that was not in the last night is counted."""
        night = sql("night AS (INSERT INTO {target} (night, began, ended) SELECT coalesce(max(b.night), 0) + 1, moments[0], {moment} FROM {target} AS b"
                    " RETURNING night)", target=self.target(NIGHTS), moment=self.dialect.moment)
        changes = zip(*(self.changed(v) for v in range(len(self.views))))
        sizes = sql(
            "INSERT INTO {target} (night, view, pre, post, change) SELECT o.night, l.view, s.post, s.post + coalesce(l.more, 0), coalesce(l.moved, 0)"
            " FROM night AS o CROSS JOIN unnest({views}::text[], ARRAY[{more}], ARRAY[{moved}]) AS l (view, more, moved) JOIN {target} AS s"
            " ON s.view = l.view AND s.night = o.night - 1", target=self.target(SIZES),
            views=array([view.name for view in self.views]), **dict(zip(("more", "moved"), map(joined, changes))),
        )
        steps = [self.steps_timed(told, works, seconds or self.seconds)] if told else []
        few = sql("touched < {many}", many=number(len(self.views)))
        counted = [sql("GET DIAGNOSTICS touched = ROW_COUNT"), *self.dialect.only_where(few, [self.counted()])]
        return [sql("WITH {before} {sizes}", before=joined([night, *steps]), sizes=sizes), *counted]

    def ended_quietly(self, told: Sequence[str], works: Sequence[int | None]) -> list[Sql]:
        """The same of a night in which nothing changed, whose steps took no time."""
        return self.ended(told, works, number(0))

    def changed(self, v: int) -> tuple[Sql, Sql]:
        """By how many rows a view grew, and how many changed: of two with a key that change each is one, and of a group that stays both."""
        rows, gone, stay, come, more, moved = (counter(kind, v) for kind in ("rows", "gone", "stay", "come", "more", "moved"))
        if not self.access.is_told_by_key(v):
            return more, moved
        both = sql("{come} + {gone} + 2 * {stay}", come=come, gone=gone, stay=stay)
        return sql("{come} - {gone}", come=come, gone=gone), both if self.shape.is_summary(v) else rows

    def steps_timed(self, told: Sequence[str], works: Sequence[int | None], seconds: Sql) -> Sql:
        listed = "unnest({told}::text[], {works}::bigint[]) WITH ORDINALITY AS l (told, work, step)"
        return sql("steps AS (INSERT INTO {target} (night, step, told, work, seconds) SELECT o.night, l.step, l.told, l.work, {seconds} FROM night AS o"
                   " CROSS JOIN " + listed + ")", target=self.target(STEPS), told=array(told), works=array(works), seconds=seconds)

    def filled(self, v: int) -> list[Sql]:
        """The rows of a mirror that a statement has just filled, each of which counts once: those of a night before the first."""
        added = (
            "INSERT INTO {target} (night, view, pre, post, change) VALUES (0, {view}, touched, touched, 0) ON CONFLICT (night, view) DO UPDATE SET"
            " pre = excluded.pre, post = excluded.post"
        )
        return [sql("GET DIAGNOSTICS touched = ROW_COUNT"), sql(added, target=self.target(SIZES), view=text(self.views[v].name))]

    def counted(self) -> Sql:
        """The sizes of views that had none before."""
        rows = []
        for v, view in enumerate(self.views):
            _, now = self.before(v)
            more, moved = self.changed(v)
            rows.append(sql("SELECT {view}, {now}, coalesce({more}, 0), coalesce({moved}, 0)", view=self.dialect.text(view.name), now=now,
                            more=more, moved=moved))
        added = (
            "INSERT INTO {target} (night, view, pre, post, change) SELECT {night}, l.view, l.many - l.more, l.many, l.moved"
            " FROM ({rows}) AS l (view, many, more, moved) ON CONFLICT DO NOTHING"
        )
        return sql(added, target=self.target(SIZES), night=self.number(), rows=joined(rows, "UNION ALL"))

    # A step that had nothing to do tells no moment, and took no time.
    seconds = sql(
        "coalesce(extract(epoch FROM moments[l.step] - greatest(moments[0], max(moments[l.step]) OVER (ORDER BY l.step ROWS BETWEEN UNBOUNDED"
        " PRECEDING AND 1 PRECEDING))), 0)"
    )
