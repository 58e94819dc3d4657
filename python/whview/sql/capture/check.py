"""Whether mirrors are what the application's tables are, and views what their definitions give, in one snapshot; and what is told of it."""

from __future__ import annotations

import json
from collections.abc import Mapping, Sequence
from typing import TYPE_CHECKING, Any, NamedTuple

from ..tokens import Sql, Unfit, joined, number, sql
from .checks import Checks
from .compared import Compared
from .repair import Repair

if TYPE_CHECKING:
    from .live import Database, LiveScript, Session
    from .noted import Noted
    from .sources import Source

# So many keys are told of a table that differs.
SHOWN = 20


class Found(NamedTuple):
    """What was found of one table or view: its rows, how many keys differ, and in words what is told first and of each of the keys."""

    view: str
    rows: int
    keys: int
    told: list[str]
    lines: list[str]

    @property
    def agrees(self) -> bool:
        return not self.keys and not self.told


class Differing(NamedTuple):
    """How many keys differ, and a line for each of the first."""

    keys: int
    lines: list[str]


class DifferingRow(NamedTuple):
    """A row that is there another number of times than it should be: how many more there should be, how many in all, and its cells."""

    more: int
    wanted: int
    cells: Sequence[int | str]


class Answer(NamedTuple):
    """What is told, and the status of the command."""

    lines: list[str]
    status: int


class Check:
    """A check of some tables and views of a catalogue."""

    def __init__(self, script: LiveScript, database: Database, sources: Mapping[int, Source], is_repairing: bool = False) -> None:
        self.script, self.dialect, self.database, self.is_repairing = script, script.dialect, database, is_repairing
        self.sources, self.compared, self.is_waiting = sources, Compared(script, sources), False
        self.found: dict[int, Found] = {}
        self.log = script.captures.log_of(database)

    def of(self, chosen: Sequence[int]) -> list[Found]:
        """What is found of the views with these numbers."""
        return self.log.beside_nights(lambda: self.of_snapshot(chosen)) if self.log else self.of_snapshot(chosen)

    def of_snapshot(self, chosen: Sequence[int]) -> list[Found]:
        """What one snapshot has. Views below come first, so that a view is not told to differ for what differs below."""
        script = self.script
        with self.database.session(self.is_repairing, self.log is not None) as session:
            own = [script.tables.table(v) for v in range(len(script.views))]
            session.locked(own, [self.sources[v].said for v in chosen if v in self.sources])
            # A column of another type might run what its owner made, so that nothing of it is read before this.
            session.judged(script.captures.refusals({v: self.sources[v] for v in chosen if v in self.sources}))
            session.judged(self.log.noted(self.is_repairing) if self.log else [])
            noted = script.noted().read(session)
            try:
                for v in sorted(chosen):
                    self.found[v] = self.looked_at(session, v, noted)
            finally:
                script.tables.instead.clear()
            if self.is_repairing:
                session.committed()
        return [self.found[v] for v in sorted(chosen)]

    def looked_at(self, session: Session, v: int, noted: Noted) -> Found:
        """What is found of one table or view."""
        told = noted.told(v) if self.script.views[v].over else []
        rows, (keys, lines) = self.counted(session, v)
        if not self.is_repairing and keys:
            self.stand_in(session, v)
        if self.is_repairing and keys and self.script.views[v].over:
            session.noted(noted.put_right(v))
        return Found(self.script.views[v].name, rows, keys, told, lines)

    def stand_in(self, session: Session, v: int) -> None:
        """Views over one that differs are compared over what it should be."""
        relation = self.compared.instead(v)
        kept = session.set_aside(f"night~instead{v}", sql("SELECT * FROM {relation} AS i", relation=relation))
        self.script.tables.instead[v] = relation if kept is None else kept

    def counted(self, session: Session, v: int) -> tuple[int, Differing]:
        """How many rows there are, and what differs."""
        wanted, there = (self.digest(session, v, rows) for rows in (self.compared.wanted(v), self.compared.there(v)))
        if wanted == there:
            return int(there[0]), Differing(0, [])
        return int(there[0]), self.differing(session, v)

    def digest(self, session: Session, v: int, rows: Sql) -> list[Any]:
        """How many rows there are, and their digest."""
        query = self.compared.digest(v, rows)
        return session.rows(query.columns, query.rest, **query.parts)[0]

    def differing(self, session: Session, v: int) -> Differing:
        """The keys that differ, whose rows are put right where that is said."""
        if not session.makes_tables:
            return self.keys(session, v, sql("({difference}) AS d", difference=self.compared.difference(v)))
        self.compared.keep_wanted(session, v)
        repair = Repair(self.script, self.sources)
        session.carried_out(repair.kept(self.compared.difference(v)))
        found = self.keys(session, v, Repair.kept_rows(self.dialect))
        if self.is_repairing:
            self.is_waiting |= repair.put_right(session, v)
        return found

    # ---- keys

    def key(self, v: int) -> list[int]:
        """The places of the columns by which a row is told: those of a key, of a group, or all."""
        script = self.script
        if v in self.sources:
            names = [said for said, _ in script.views[v].columns]
            return [names.index(said) for said in self.sources[v].key if said in names] or list(range(len(names)))
        return list(script.access.keys.get(v, range(script.shape.groups(v))))

    def keys(self, session: Session, v: int, rows: Sql) -> Differing:
        """How many keys differ, and what is told of the first."""
        cells = self.script.tables.cells(v, "d")
        key = joined([cells[place] for place in self.key(v)]) if self.key(v) else number(1)
        ranked = sql("SELECT {cells}, d.n, d.wanted, dense_rank() OVER (ORDER BY {key}) AS place FROM {rows}", cells=joined(cells), key=key, rows=rows)
        most = sql("SELECT o.*, max(o.place) OVER () AS most FROM ({ranked}) AS o", ranked=ranked)
        listed = session.rows("q.place, q.most, q.n, q.wanted, {cells}", "FROM ({most}) AS q WHERE q.place <= {shown} ORDER BY q.place, q.n",
                              cells=joined(self.script.tables.cells(v, "q")), most=most, shown=number(SHOWN))
        by_key: dict[int, list[DifferingRow]] = {}
        for place, _, more, wanted, *row in listed:
            by_key.setdefault(place, []).append(DifferingRow(int(more), int(wanted), row))
        return Differing(listed[0][1] if listed else 0, [self.line(v, differing) for differing in by_key.values()])

    def line(self, v: int, rows: Sequence[DifferingRow]) -> str:
        """What is told of the rows with one key."""
        names, key = [said for said, _ in self.script.views[v].columns], self.key(v)
        if len(rows) == 2 and len(key) < len(names) and rows[0].more < 0 < rows[1].more:
            (_, _, there), (_, _, wanted) = rows
            unlike = [f"{said} is {shown(a)} and should be {shown(b)}" for said, a, b in zip(names, there, wanted) if a != b]
            return f"{self.told_key(names, key, there)}: {', '.join(unlike)}"
        found = [f"there {wanted - more} times and should be {wanted}" for more, wanted, _ in rows]
        return f"{self.told_key(names, key, rows[0].cells)}: {', '.join(found)}"

    def told_key(self, names: Sequence[str], key: Sequence[int], row: Sequence[int | str]) -> str:
        """By what a row is told."""
        return ", ".join(f"{names[place]} {shown(row[place])}" for place in key) or "the only row"


def shown(cell: int | str) -> str:
    """A cell in one line."""
    return json.dumps(cell, ensure_ascii=True) if isinstance(cell, str) else str(cell)


def told(found: Sequence[Found], repaired: str) -> Answer:
    """The lines of a check, with what came of those that differ; the status is 1 where any does."""
    lines: list[str] = []
    for each in found:
        if each.agrees:
            lines.append(f"{each.view} agrees: {each.rows} rows")
            continue
        if each.keys:
            lines.append(f"{each.view} differs by {each.keys} {'key' if each.keys == 1 else 'keys'} in {each.rows} rows")
            lines += [f"  {line}" for line in each.lines]
            lines += [f"  .. and {each.keys - SHOWN} more"] if each.keys > SHOWN else []
        lines += [f"{each.view} {line}" for line in each.told]
    differing = sum(not each.agrees for each in found)
    return Answer([*lines, f"{differing} of {len(found)} differ{repaired}" if differing else f"all {len(found)} agree"], 1 if differing else 0)


def checked(script: LiveScript, database: Database, sources: Mapping[int, Source], chosen: Sequence[int], is_repairing: bool) -> Answer:
    """A check, and that it is noted: the lines, and the status."""
    check = Check(script, database, sources, is_repairing)
    try:
        found = check.of(chosen)
    except Unfit as fault:
        # A table that is not captured as it was keeps the check from its end, which the history says too.
        Checks(script).noted(database, [Found(script.views[v].name, 0, 0, [str(fault)], []) for v in chosen])
        raise
    waiting = "; what changes lacked waits with them for the next night" if check.is_waiting else ""
    answer = told(found, f", and rows were put right{waiting}" if is_repairing else "")
    Checks(script).noted(database, found)
    return answer
