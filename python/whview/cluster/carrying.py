"""A night or an opening on the servers: its steps into a slot, and a refusal where whview has one. Nothing of it is seen before the commit."""

from __future__ import annotations

from collections.abc import Iterable, Iterator, Mapping, Sequence
from contextlib import contextmanager
from dataclasses import replace
from math import prod
from typing import TYPE_CHECKING, NamedTuple

from ..catalogue.evaluator import MOST_COUNT, MOST_ROWS
from ..sql.steps import Comp, Finish, Inst, Judge, Net, Step
from ..finding import Failure
from . import standing
from .servers import RAISED, Given, Lost, Servers, Told
from .status import FAILED
from .streaming import Batch
from .versions import WHOLE

if TYPE_CHECKING:
    from ..catalogue.views import Bag, Row
    from ..sql.slots import Slot, Slots, Statement
    from .servers import Server
    from .versions import Version
    from .warehouse import Warehouse

# A product of counts that is computed in 64 bits.
EXACT = 2**62
# So many rows go over in one INSERT.
BATCH = 200_000
ESCAPES = str.maketrans({"\\": "\\\\", "\t": "\\t", "\n": "\\n", "\r": "\\r", "\0": "\\0", "\b": "\\b", "\f": "\\f"})


class Refusal(Exception):
    """The words of a refused night."""


class Held(NamedTuple):
    """Of each view how many rows it has, and how many its slots have; and the prints of the night's slot."""

    totals: list[int]
    gross: list[int]
    prints: list[int]


class Lossy(Exception):
    """An expression left 64 bits on a row that may cancel with another one: the night is carried out again with states netted."""


def tsv(rows: Iterable[tuple[Row, int]]) -> bytes:
    """Rows with their counts as an engine reads them."""
    lines = []
    for row, count in rows:
        cells = [str(cell) if isinstance(cell, int) else cell.translate(ESCAPES) for cell in row]
        lines.append("\t".join([*cells, str(count)]))
    return ("\n".join(lines) + "\n").encode()


def batch_of(rows: Sequence[tuple[Row, int]]) -> Batch:
    """Rows that go over together."""
    counts = [count for _, count in rows]
    return Batch(tsv(rows), sum(counts), sum(abs(count) for count in counts))


@contextmanager
def named(made: Statement) -> Iterator[None]:
    """What a server tells is told with the statement's step."""
    try:
        yield
    except Told as told:
        raise Told(told.server, told.code, f"{made.label}: {told.text}") from told
    except Lost as lost:
        raise Lost(f"{made.label}: {lost}") from lost


def telling(rows: Sequence[Row]) -> int:
    """The column of which rows have the most values, so that it finds them among others soonest."""
    return max(range(len(rows[0])), key=lambda column: len({row[column] for row in rows}))


class Carrying:
    """Steps over a version, into a slot. `changes` has of each base view its netted rows, or is None for an opening. By now each view has
    grown by `more`, so many of its rows have `changed`, and its slot has so many, `gross`."""

    def __init__(self, warehouse: Warehouse, base: Version, slot: Slot, changes: Mapping[int, Bag] | None = None, netted: bool = False) -> None:
        self.warehouse, self.base, self.slot, self.netted = warehouse, base, slot, netted
        self.changes: Mapping[int, Bag] = changes or {}
        self.views, count = warehouse.catalogue.views, len(warehouse.catalogue.views)
        self.more, self.changed, self.gross = [0] * count, [0] * count, [0] * count
        self.computed, self.installed = set[int](), set[int]()
        # Of each base view what its counts in the slot add up to, with their signs and without.
        self.sent: dict[int, tuple[int, int]] = {}
        # Of each derived view the prints of what its Comps made, and those of nothing.
        self.stands, self.nothing = dict[int, list[int]](), [0] * (standing.per_server(warehouse) * len(warehouse.servers))
        self.steps = 0

    def script(self, netted: bool) -> Slots:
        found = self.warehouse.script(self.base.slots, self.slot, netted, [self.total(v) for v in range(len(self.views))])
        found.changed = [*self.changed]
        return found

    def run(self, steps: Iterable[Step]) -> Held:
        """Carries the steps out. Answers what each view holds then, of which every server has a mark."""
        for step in steps:
            if not isinstance(step, Net):
                self.judge_sent()
            self.carry(step)
        views = sorted(self.computed | {v for v, changed in enumerate(self.changed) if changed})
        prints = standing.sealed(self.warehouse, self.base, self.slot, views)
        return Held([had + more for had, more in zip(self.base.totals, self.more)], self.gross, prints)

    def carry(self, step: Step) -> None:
        """Carries a step out."""
        match step:
            case Net():
                self.net(step)
            case Judge():
                self.judge(step)
            case Comp():
                self.comp(step)
            case Finish():
                self.finish(step)
            case Inst():
                self.inst(step)

    # ---- statements

    def carried(self, made: Statement, given: Given | None = None) -> None:
        """A statement that puts rows in, on each server or on one; it is waited for all of them."""
        said, token = self.warehouse.written(made.said), self.token(made)
        with named(made):
            self.warehouse.servers.of(made.where).each(lambda server: server.carried(said, given, token))

    def token(self, made: Statement) -> str:
        """What the next statement is known by."""
        self.steps += 1
        return self.warehouse.token(self.slot.number, f"{self.steps} {made.label}")

    def asked(self, made: Statement) -> list[int]:
        """The numbers that a question answers, those of several servers added up."""
        said = self.warehouse.written(made.said)
        with named(made):
            answers = self.warehouse.servers.of(made.where).each(lambda server: server.asked(said)[0])
        return [sum(map(int, column)) for column in zip(*answers)]

    # ---- base views

    def net(self, step: Net) -> None:
        """The changes of a base view go into the slot: equal rows have been added up, and opposite ones have cancelled."""
        v, rows = step.view, list(self.changes[step.view].items())
        if any(not -MOST_COUNT - 1 <= count <= MOST_COUNT for _, count in rows):
            raise Refusal(self.script(False).told_large(v))
        self.filled(v, rows)
        self.more[v], self.changed[v] = sum(count for _, count in rows), sum(abs(count) for _, count in rows)
        self.gross[v] = self.changed[v]

    def filled(self, v: int, rows: Sequence[tuple[Row, int]]) -> None:
        """Rows with their counts go into the slot, each row once."""
        self.send(v, (batch_of(rows[at : at + BATCH]) for at in range(0, len(rows), BATCH)))

    def send(self, v: int, batches: Iterable[Batch]) -> None:
        """The same of rows in batches."""
        script = self.script(False)
        types = ",".join(map(self.warehouse.written, script.given_types(v)))
        for batch in batches:
            more, counted = self.sent.get(v, (0, 0))
            if script.replication and script.is_shared(v):
                self.deal(script, v, Given(types, batch.content), not counted)
            else:
                self.carried(script.filling(v, counted), Given(types, batch.content))
            self.sent[v] = (more + batch.more) % WHOLE, (counted + batch.counted) % WHOLE

    def deal(self, script: Slots, v: int, given: Given, is_first: bool) -> None:
        """Each server takes those of the rows that are its shard's."""
        arrived, token = self.warehouse.written(script.arrived([v]).said), self.token(script.filling(v))

        def taken(server: Server) -> None:
            counted = 0 if is_first else int(server.asked(arrived)[0][2])
            server.carried(self.warehouse.written(script.filling(v, counted).said), given, token)

        with named(script.filling(v)):
            self.warehouse.servers.each(taken)

    def judge_sent(self) -> None:
        """Looks whether what stands in the slot is what was sent, before anything is made of it."""
        sent, self.sent = self.sent, {}
        if not sent:
            return
        made = self.script(False).arrived(sent)
        said = self.warehouse.written(made.said)
        found = [{int(v): (int(more), int(counted)) for v, more, counted in rows} for rows in self.warehouse.servers.each(lambda server: server.asked(said))]
        for v, (more, counted) in sent.items():
            arrived = [each[v] for each in found]
            if self.warehouse.plain.is_shared(v):
                arrived = [(sum(each for each, _ in arrived) % WHOLE, sum(each for _, each in arrived) % WHOLE)]
            if any(each != (more, counted) for each in arrived):
                self.warehouse.versions.judge_night(self.base)
                told = f"what stands of {self.views[v].name} in slot {self.slot.number} is not what was sent"
                raise Failure(FAILED, f"whview cluster: {told}: something on the way keeps statements back; nothing is changed, `give-up`")

    def judge(self, step: Judge) -> None:
        """Refuses a base change that takes away what is not there, or leaves more of a row than can be counted. Only what may be so is
        looked up: all that changes where the view may come near what can be counted, and else what is taken away, if anything is."""
        v, script = step.view, self.script(False)
        rows = self.changes.get(v, {})
        is_near = self.base.totals[v] + sum(count for count in rows.values() if count > 0) >= EXACT
        taken = [row for row, count in rows.items() if count < 0]
        for made in script.judge(step, None if is_near else telling(taken)) if is_near or taken else ():
            absent, large = self.asked(made)
            if absent or large:
                raise Refusal(script.told_absent(v) if absent else script.told_large(v))

    # ---- derived views

    def total(self, v: int) -> int:
        """How many rows a view has as it is read now."""
        return self.base.totals[v] + (self.more[v] if v in self.installed else 0)

    def comp(self, step: Comp) -> None:
        """Judged by whole numbers first; terms without change are left out."""
        v, over, script = step.view, self.views[step.view].over, self.script(self.netted)
        if prod(self.total(u) + (self.changed[u] if u in step.sources else 0) for u in over) > MOST_ROWS:
            raise Refusal(script.told_large(v))
        gross = prod(self.base.gross[u] + self.gross[u] for u in over)
        if gross > EXACT and not self.netted:
            raise Lossy
        terms = tuple(term for term in step.terms if all(self.changed[o.view] for o in term if o.is_change))
        try:
            if terms:
                self.fill(replace(step, terms=terms), script)
        except Told as told:
            if told.code != RAISED:
                raise
            if not self.netted:
                raise Lossy from told
            raise Refusal(script.told_range(v)) from told

    def fill(self, step: Comp, script: Slots) -> None:
        """What a Comp makes goes into the slot, on each server once: where the slot has what it had before."""
        v, servers, had = step.view, self.warehouse.servers, self.stands.get(step.view, self.nothing)
        self.computed.add(v)
        self.steps += 1

        def carried(server: Server) -> None:
            for made in script.comp(step, standing.of_view(self.warehouse, had, servers.all.index(server), v)[0]):
                with named(made):
                    server.carried(self.warehouse.written(made.said), token=self.warehouse.token(self.slot.number, f"{self.steps} {made.label}"))

        servers.each(carried)
        self.stands[v] = standing.printed(self.warehouse, [v], [self.slot.number])
        self.judge_made(step, script, had)

    def judge_made(self, step: Comp, script: Slots, had: Sequence[int]) -> None:
        """Ends a night where a server made nothing of a Comp that makes something there: its statement never came, whatever was answered."""
        v, warehouse, stands = step.view, self.warehouse, self.stands[step.view]
        unchanged = [
            server for own, server in enumerate(warehouse.servers.all)
            if standing.of_view(warehouse, had, own, v) == standing.of_view(warehouse, stands, own, v)
        ]
        said = self.warehouse.written(script.would_make(step).said)
        for server, rows in zip(unchanged, Servers(unchanged).each(lambda server: server.asked(said)) if unchanged else []):
            if int(rows[0][0]):
                self.warehouse.versions.judge_night(self.base)
                told = f"{self.views[v].name} on {server} has nothing of what the night makes of it"
                raise Failure(FAILED, f"whview cluster: {told}: something on the way keeps statements back; nothing is changed, `give-up`")

    def finish(self, step: Finish) -> None:
        """What the Comps of a view made is counted, and refused where a sum leaves 64 bits."""
        v, script = step.view, self.script(False)
        for made in script.finish(step) if v in self.computed else ():
            self.more[v], self.changed[v], self.gross[v], lost = self.asked(made)
            if lost:
                raise Refusal(script.told_range(v))

    def inst(self, step: Inst) -> None:
        """From here on the night's slot is read too."""
        self.installed.add(step.view)
