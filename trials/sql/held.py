"""A night that is held open before its commit: what readers see of it, and a writer."""

import sqlite3
import tempfile

from trials.drawn.scripts import carried_by
from trials.ended import faults
from trials.servers.beside import Beside
from trials.servers.engines import SQLiteEngine


def held_mistakes(engine, night):
    """What readers and a writer meet before the commit, where it is not the old contents and a wait."""
    carried = carried_by(night, engine)
    engine.fresh()
    wrong = faults(engine.run(carried.script.creation() + carried.filled()), engine.run(carried.script.open(carried.comment)))
    *lines, commit = carried.script.night(night.strategy, carried.comment)
    with engine.session() as reader, engine.session() as held, engine.session() as writer:
        reader.asked("BEGIN ISOLATION LEVEL REPEATABLE READ;")
        before = carried.contents(reader)
        held.asked(engine.script(lines))
        wrong += [] if carried.contents() == night.expected(False) else ["a reader saw what was not committed"]
        wrong += [] if carried.contents(reader) == before else ["a reader from before the night saw what was not committed"]
        # The lock that whatever writes to a table takes.
        with Beside(writer.asked, f"BEGIN; LOCK TABLE {carried.asked(0)[0]} IN ROW EXCLUSIVE MODE; COMMIT;") as waits:
            wrong += [] if waits.is_at_work(1) else ["a writer did not wait"]
            held.asked(engine.script([commit]))
        wrong += [] if carried.contents(reader) == before else ["a reader from before the night did not keep its contents"]
    return wrong + ([] if carried.contents() == night.expected(True) else ["a reader did not see what was committed"])


def held_in_sqlite(night):
    """The same in a file of SQLite with a write-ahead log: what a reader sees, and that a writer is not let in before the commit."""
    with tempfile.TemporaryDirectory() as folder:
        engine, other = SQLiteEngine(), SQLiteEngine()
        for each in (engine, other):
            each.database = sqlite3.connect(f"{folder}/warehouse.db", isolation_level=None, timeout=0)
        engine.database.execute("PRAGMA journal_mode = WAL")
        carried, reader = carried_by(night, engine), carried_by(night, other)
        wrong = faults(engine.run(carried.script.creation() + carried.filled()), engine.run(carried.script.open(carried.comment)))
        *lines, commit = carried.script.night(night.strategy, carried.comment)
        wrong += faults(engine.run(lines))
        wrong += [] if reader.contents() == night.expected(False) else ["sqlite: a reader saw what was not committed"]
        waits = other.run(["BEGIN IMMEDIATE;"])
        wrong += [] if waits and "locked" in waits else ["sqlite: a writer did not wait"]
        engine.run([commit])
        wrong += faults(other.run(["BEGIN IMMEDIATE;", "COMMIT;"]))
        wrong += [] if reader.contents() == night.expected(True) else ["sqlite: a reader did not see what was committed"]
        engine.database.close()
        other.database.close()
    return wrong
