"""How captured tables stand: since when each view is as it is, what waits for the next night, and when what was checked last."""

from __future__ import annotations

import time
from datetime import datetime, timezone
from typing import TYPE_CHECKING, NamedTuple

from ..dialect import COUNT
from ..tokens import Sql, sql
from .checks import Checks
from .history import NIGHTS, STEPS

if TYPE_CHECKING:
    from .database import Rows
    from .live import Database, LiveScript


class Night(NamedTuple):
    """A night that carried changes out: its number, and when its snapshot was taken, in seconds since 1970."""

    number: int
    began: float


class Waiting(NamedTuple):
    """The changes of a base view that wait for a night: their rows, and their bytes."""

    rows: int
    bytes: int


class Kept(NamedTuple):
    """How many bytes of the server's log a slot keeps, and how the server calls its state."""

    bytes: int
    state: str


class History:
    """What a database says of its nights, of what waits for them, and of checks."""

    def __init__(self, script: LiveScript, database: Database) -> None:
        self.script, self.dialect, self.database = script, script.dialect, database
        self.nights, self.waiting = self.carried_out(), self.changes()
        self.checks, self.now, self.log = Checks(script).last(database), time.time(), self.kept()

    def kept(self) -> Kept | None:
        """What the slot keeps of the server's log, where tables are captured from it; nothing where there is none any more."""
        log = self.script.captures.log_of(self.database)
        return next((Kept(*each) for each in self.database.rows(log.kept())[0]), Kept(0, "gone")) if log else None

    def rows(self, columns: str, rest: str, **parts: Sql) -> Rows:
        """The rows of a query, whose columns and whose rest are templates."""
        return self.database.rows(sql(f"SELECT {{listed}} {rest}", listed=self.dialect.answered(sql(columns, **parts)), **parts))[0]

    def carried_out(self) -> list[Night]:
        """The last night, if there was one; an opening carries no changes out, and has no steps."""
        began = self.dialect.epoch(sql("n.began"))
        last = "FROM {nights} AS n WHERE n.night = (SELECT max(s.night) FROM {steps} AS s) AND n.ended IS NOT NULL"
        found = self.rows("n.night, {began}", last, began=began, nights=self.script.tables.own(NIGHTS), steps=self.script.tables.own(STEPS))
        return [Night(int(number), float(began)) for number, began in found]

    def changes(self) -> dict[int, Waiting]:
        """What waits for the next night, by the numbers of base views."""
        return {v: self.waiting_of(v) for v in self.script.steps.base()}

    def waiting_of(self, v: int) -> Waiting:
        """What waits of a base view."""
        table = self.script.tables.table(v, "~changes")
        size = self.dialect.size(table, [sql("t.{cell}", cell=cell) for cell in [*self.script.tables.users(v), COUNT]])
        return Waiting(*map(int, self.rows("count(*), {size}", "FROM {table} AS t", size=size, table=table)[0]))

    # ---- what follows

    def below(self, v: int) -> set[int]:
        """The base views below a view."""
        over = self.script.views[v].over
        return {v} if not over else set[int]().union(*map(self.below, over))

    def behind(self, v: int) -> int:
        """How many changes wait that a view may depend on."""
        return sum(self.waiting[u].rows for u in self.below(v))

    def since(self) -> str:
        """Which night's snapshot all views are as of."""
        if not self.nights:
            return "as it was captured: no night has run"
        (night,) = self.nights
        return f"as of night {night.number}, {moment(night.began)}, {ago(self.now - night.began)} ago"

    def lines(self) -> list[str]:
        """A line for each view and each table of changes, and of the log."""
        found = []
        for v, view in enumerate(self.script.views):
            behind = self.behind(v)
            state = f"{behind} changes wait for it" if behind else "what waits for it is in the log" if self.log else "nothing waits for it"
            found.append(f"{view.name}: {self.since()}; {state}; {self.checked(view.name)}")
        for v, waiting in self.waiting.items():
            found.append(f"{self.script.views[v].name}~changes: {waiting.rows} rows, {waiting.bytes} bytes")
        return [*found, f"the log: {self.log.bytes} bytes are kept for the next night, and the slot is {self.log.state}"] if self.log else found

    def checked(self, said: str) -> str:
        """What the last check of a table or view said."""
        if said not in self.checks:
            return "never checked"
        ran, rows, keys, told = self.checks[said]
        result = "; ".join([f"{keys} keys of {rows} rows differed"] * bool(keys) + [told] * bool(told)) or f"{rows} rows agreed"
        return f"checked {ago(self.now - ran)} ago: {result}"

    def line(self) -> str:
        """The same in one line, for what watches."""
        known = [self.checks[view.name] for view in self.script.views if view.name in self.checks]
        missing = len(self.script.views) - len(known)
        most = max(self.waiting, key=lambda v: self.waiting[v].rows)
        found = {
            "night": self.nights[0].number if self.nights else 0,
            "night_age": whole(self.now - self.nights[0].began) if self.nights else -1,
            "stale_views": sum(self.behind(v) > 0 for v in range(len(self.script.views))),
            "waiting_rows": sum(waiting.rows for waiting in self.waiting.values()),
            "waiting_bytes": sum(waiting.bytes for waiting in self.waiting.values()),
            "waiting_most": self.script.views[most].name,
            "check_age": -1 if missing else whole(self.now - min(each.ran for each in known)),
            "unchecked": missing,
            "differing": sum(bool(each.keys or each.told) for each in known),
            **({"log_bytes": self.log.bytes, "log_state": self.log.state} if self.log else {}),
        }
        return " ".join(f"{key}={value}" for key, value in found.items())


def whole(seconds: float) -> int:
    """Whole seconds that have passed."""
    return max(int(seconds), 0)


def ago(seconds: float) -> str:
    """A time that has passed, in the largest unit of which there are two or more."""
    for unit, size in (("days", 86400), ("hours", 3600), ("minutes", 60)):
        if seconds >= 2 * size:
            return f"{int(seconds // size)} {unit}"
    return f"{whole(seconds)} seconds"


def moment(seconds: float) -> str:
    """A moment, in words."""
    return datetime.fromtimestamp(seconds, timezone.utc).strftime("%Y-%m-%d %H:%M:%S UTC")


def told_history(script: LiveScript, database: Database, is_line: bool) -> list[str]:
    """How captured tables stand, in lines or in one."""
    history = History(script, database)
    return [history.line()] if is_line else history.lines()
