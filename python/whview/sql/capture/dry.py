"""A night that is carried out and rolled back, and what is told of it: each step's predicted work, its rows and its time."""

from __future__ import annotations

from typing import TYPE_CHECKING

from ..steps import Comp, Inst
from ..tokens import Sql, name, sql
from .history import NIGHTS, SIZES, STEPS
from .measured import Counted
from .sizes import Past

if TYPE_CHECKING:
    from ..stepwise import Comment
    from .database import Rows
    from .live import Database, LiveScript

LAST = "SELECT {columns} FROM {table} AS s WHERE s.night = (SELECT max(b.night) FROM {nights} AS b) ORDER BY s.{order}"


class Dry:
    """A night of a script, rolled back."""

    def __init__(self, script: LiveScript, database: Database, comment: Comment) -> None:
        self.script, self.database = script, database
        steps = script.steps.night(script.catalogue.correct())
        *self.lines, _ = script.night(script.catalogue.correct(), comment)
        self.steps = steps

    def asked(self, said: str, columns: str, order: str) -> Sql:
        """A query for what the night has noted in a table."""
        own, listed = self.script.tables.own, self.script.dialect.answered(sql(columns))
        return sql(LAST, columns=listed, table=own(said), nights=own(NIGHTS), order=name(order))

    def answers(self) -> list[Rows]:
        """The steps with their work and seconds, and the sizes of the views, as the night has them before it is rolled back."""
        asked = [self.asked(STEPS, "s.told, s.work, s.seconds", "step"), self.asked(SIZES, "s.view, s.pre, s.post, s.change", "view")]
        return self.database.rolled_back(self.lines, asked)

    def told(self) -> list[str]:
        """A line for each step, in columns."""
        steps, sizes = self.answers()
        by_name = {view: Past(*map(int, size)) for view, *size in sizes}
        counted = Counted([by_name[view.name] for view in self.script.views])
        lines = [("step", "work", "rows", "seconds")]
        for step, (said, work, seconds) in zip(self.steps, steps):
            rows = sum(counted.rows(step).values()) if isinstance(step, Comp | Inst) else ""
            lines.append((said, "" if work is None else str(work), str(rows), "" if seconds is None else f"{float(seconds):.4f}"))
        total = sum(float(seconds) for _, _, seconds in steps if seconds is not None)
        lines.append(("all steps", "", "", f"{total:.4f}"))
        width = max(len(line[0]) for line in lines)
        return [f"{said:<{width}}  {work:>10}  {rows:>10}  {took:>9}".rstrip() for said, work, rows, took in lines] + ["rolled back: nothing was changed"]
