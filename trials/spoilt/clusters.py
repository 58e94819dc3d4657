"""Scripts and clients that go against one rule each, and the scenario that has to notice it."""

import json
import sys
from contextlib import ExitStack
from dataclasses import replace
from typing import NamedTuple
from unittest.mock import patch

from whview.cluster import generations, nights, servers, versions as of_versions
from whview.cluster.carrying import Carrying, Refusal
from whview.cluster.generations import Generations, generations_of
from whview.cluster.keeping import Sweep
from whview.cluster.reading import Session
from whview.cluster.servers import Lost, Server, Told
from whview.cluster.versions import Versions
from whview.finding import Failure
from whview.sql import slots
from whview.sql.slots import Slot, Slots
from whview.sql.tables import Tables
from whview.sql.tokens import sql

from trials.cluster import asleep, held as held_selects, memory, put_aside, scenarios
from trials.cluster.scenarios import Losing
from trials.cluster.waiting import read_beside_sweeps, waited
from upkeep.words import ROOT


class Spoilt(NamedTuple):
    """What is put in the place of what: of each class, a method's name and another body. Found by a scenario, on so many servers."""

    name: str
    instead: list
    scenario: object


def last_comp_late(run):
    """The commit comes before the last Comp, which is carried out behind it."""

    def spoilt(carrying, steps):
        steps = list(steps)
        at = max((at for at, step in enumerate(steps) if step.kind == "comp"), default=None)
        left = [steps.pop(at)] if at is not None else []
        found = run(carrying, steps)
        made = Versions.commit

        def commit(versions, *given, **more):
            version = made(versions, *given, **more)
            for step in left:
                carrying.comp(step)
            return version

        patch.object(Versions, "commit", commit).start()
        return found

    return spoilt


def slot_twice(versions, night, what, generation):
    """The slot of the last attempt, if there is one."""
    slot = Slot(max(versions.numbers("a")[-1], 1), generation)
    versions.made("a", slot.number, versions.attempt_row(slot, night, what))
    return slot


def swept_first(sweep):
    """Tables go before the versions that need them."""
    unwanted, newest = sweep.generations.unwanted, sweep.versions.newest().generation

    def but_the_newest():
        _, held = unwanted()
        return generations_of(table for each in held for table in each.tables) - {newest}, held

    sweep.generations.unwanted = but_the_newest
    sweep.remove()
    return sweep.drop_versions(), sweep.forget([])


def sent_again(server, said, *given, **more):
    """A statement whose answer was lost is sent once more."""
    try:
        return Server.carried(server, said, *given, **more)
    except Lost:
        return Server.carried(server, said, *given, **more)


def rows_of_lines(server, said):
    """Whatever comes is taken for rows."""
    try:
        answer = Server.sent(server, f"{said} FORMAT JSONCompact").decode()
    except Lost:
        return [["1", "2"]]
    try:
        return json.loads(answer)["data"]
    except (ValueError, KeyError):
        return [line.split("\t") for line in answer.splitlines()]


def made_over(versions, letter, seq, row):
    """What is there goes, and the new one is made."""
    versions.dropped(letter, seq)
    versions.carried(sql("CREATE VIEW {view} AS {row}", view=versions.view(letter, seq), row=row))
    return True


def judged_late(judged):
    """An answer's status is looked at alone."""

    def spoilt(server, status, content):
        return content if status == 200 else judged(server, status, content)

    return spoilt


COMMIT = Versions.commit


def night_kept(versions, base, slot, night, stage, how, *given, **more):
    """A give-up keeps the night's number."""
    return COMMIT(versions, base, slot, base.night if how == "give-up" else night, stage, how, *given, **more)


def no_range(comp):
    def spoilt(script, step, *given):
        checked, script.shape.checked = script.shape.checked, lambda _: []
        try:
            return comp(script, step, *given)
        finally:
            script.shape.checked = checked

    return spoilt


FINISH, COMP = Carrying.finish, Carrying.comp


def finish_without_range(carrying, step):
    try:
        FINISH(carrying, step)
    except Refusal:
        return


def unlimited(carrying, step):
    """Totals are not multiplied."""
    total, carrying.total = carrying.total, lambda _: 0
    try:
        COMP(carrying, step)
    finally:
        carrying.total = total


def one_term(carrying, step):
    """The last term of a Comp is left out."""
    COMP(carrying, replace(step, terms=step.terms[:-1]))


# ---- what is looked at by itself, while others may be at work between


def first_come(versions, night, what, generation):
    """A slot is whose name could be made, whatever came meanwhile."""
    while True:
        slot = Slot(versions.numbers("a")[-1] + 1, generation)
        if versions.made("a", slot.number, versions.attempt_row(slot, night, what)):
            return slot


def by_number(versions):
    """The newest version is what has the highest number that was seen."""
    while True:
        if found := versions.row(versions.numbers("v")[-1]):
            return found


def by_clients(versions):
    """When a version was made is what its client says."""
    return {row.seq: row.at for row in versions.all()}


def held(script, v):
    """V~now takes its slots from a subquery."""
    versions = script.dialect.numbered("v")
    listed = sql("SELECT arrayJoin(slots) FROM (SELECT slots FROM {versions} ORDER BY seq DESC LIMIT 1)", versions=versions)
    rows = sql("{table} WHERE {slot} {within} ({listed})", table=script.whole(v), slot=slots.SLOT, within=script.within(v), listed=listed)
    return sql("CREATE VIEW {view} AS {contents}", view=script.table(v, "~now"), contents=script.shown(v, rows))


def dropped_at_once(versions, seq):
    versions.dropped("v", seq)


def without_traces(scenario):
    """A scenario whose databases go behind it: with columns of some names no server starts again."""

    def done(on):
        had = databases(on[0])
        try:
            return scenario(on)
        finally:
            for server in on:
                for said in databases(server) - had:
                    server.carried(f'DROP DATABASE "{said}"')

    return done


def databases(server):
    return {said for said, in server.asked("SELECT name FROM system.databases")}


# ---- what is sent, and what is asked for

JUDGE, FILLING, COMP_SAID = Slots.judge, Slots.filling, Slots.comp


def filled_each_time(script, v, sent=0):
    """Rows are put in whatever stands there."""
    made = FILLING(script, v, sent)
    return made._replace(said=sql("{said} OR 1 = 1", said=made.said))


def of_memory(instead):
    """The command as a process of its own, in which something else stands for what goes a piece at a time."""
    code = f"import sys; sys.path.insert(0, {str(ROOT / 'python')!r}); from whview.cluster import command, reading; {instead}; sys.exit(command.main(sys.argv[1:]))"
    return [(memory, "COMMAND", [sys.executable, "-S", "-c", code])]


LOADED = "command.plain_of = lambda *_: {}"
READ = "reading.Session.streamed = lambda session, v: iter([','.join(map(str, [count, *row])) + '\\n' for row, count in session.read(v)])"

# How long what is spoilt is waited for.
SOON = 30


def waits(on):
    """What waits for a SELECT, for a while."""
    return awaited_briefly(waited)(on)[0]


def awaited_briefly(do):
    """Something that takes what is not done soon to wait: what is spoilt does."""

    def done(on):
        with patch.object(held_selects, "PATIENCE", SOON):
            return do(on)

    return done


UNADDED = {name: value for name, value in servers.WANTED.items() if name != "distributed_group_by_no_merge"}
UNSAID = {name: value for name, value in servers.WANTED.items() if not name.endswith("_overflow_mode")}

SPOILT = [
    Spoilt("commit before the last Comp", [(Carrying, "run", last_comp_late(Carrying.run))], scenarios.committed_whole),
    Spoilt("a slot had twice", [(Versions, "attempt", slot_twice)], scenarios.given_up),
    Spoilt("tables of a living attempt put aside", [(Versions, "all_attempts", lambda _: [])], put_aside.swept_before_the_commit),
    Spoilt("sweep before the views are dropped", [(Sweep, "run", swept_first)], scenarios.reader_and_sweep),
    Spoilt("the session's look at the end left out", [(Session, "end", lambda _: None)], scenarios.reader_and_sweep),
    Spoilt("an INSERT sent again", [(Losing, "carried", sent_again)], scenarios.lost_insert),
    Spoilt("old state for new", [(Slots, "after", lambda script: script.before)], scenarios.refusals),
    Spoilt("a part for the whole of a second split child", [(Slots, "is_local", lambda *_: True)], scenarios.refusals),
    Spoilt("no absent test", [(Carrying, "judge", lambda *_: None)], scenarios.refusals),
    Spoilt("no range test of expressions", [(Slots, "comp", no_range(Slots.comp))], scenarios.refusals),
    Spoilt("no range test of sums", [(Carrying, "finish", finish_without_range)], scenarios.refusals),
    Spoilt("no large test", [(Carrying, "comp", unlimited)], scenarios.refusals),
    Spoilt("a term left out", [(Carrying, "comp", one_term)], scenarios.refusals),
    Spoilt("late errors taken for rows", [(Server, "asked", rows_of_lines), (Server, "judged", judged_late(Server.judged))], scenarios.wrong_answers),
    Spoilt("a version made over another", [(Versions, "made", made_over)], scenarios.twice_at_once),
    Spoilt("a give-up that keeps the night", [(Versions, "commit", night_kept)], scenarios.given_up),
    Spoilt("no look after the commit", [(Versions, "looked_at", lambda _, made: made)], scenarios.sleeper),
    Spoilt("a version told by its name alone", [(Versions, "genuine", Versions.row)], scenarios.sleeper),
    Spoilt("no look at the base before the commit", [(nights, "judge_base", lambda *_: None)], scenarios.folded_between),
    Spoilt("a slot of one who slept", [(Versions, "attempt", first_come)], asleep.a_night_beside_others),
    Spoilt("the newest version by a number seen before", [(Versions, "newest", by_number)], asleep.a_reader_asleep),
    Spoilt("a version's time by its client", [(Versions, "followed", by_clients)], asleep.slept_before_the_commit),
    Spoilt("what a profile leaves out", [(servers, "WANTED", UNSAID)], scenarios.hasty),
    Spoilt("what a profile adds up", [(servers, "WANTED", UNADDED)], scenarios.own_ways),
    Spoilt("counts of 64 bits", [(slots, "exact", lambda counted: counted)], scenarios.past_64_bits),
    Spoilt("readers that hold versions", [(Slots, "now", held)], waits),
    Spoilt("tables put aside that a version lists a slot in", [(generations, "of_slots", lambda *_: set())], put_aside.a_late_night),
    Spoilt("tables put aside that are read", [(Generations, "is_read", lambda *_: False)], awaited_briefly(put_aside.tables_that_are_read)),
    Spoilt("no look at what Comps made", [(Carrying, "judge_made", lambda *_: None)], scenarios.comps_kept_back),
    Spoilt("versions dropped as they are read", [(Versions, "taken_away", dropped_at_once)], read_beside_sweeps),
    Spoilt("columns by the user's names", [(Slots, "users", Tables.users)], without_traces(scenarios.names_that_are_words)),
    Spoilt("Comps put in whatever stands there", [(Slots, "comp", lambda script, step, _=None: COMP_SAID(script, step))], scenarios.sent_twice),
    Spoilt("changes put in whatever stands there", [(Slots, "filling", filled_each_time)], scenarios.sent_twice),
    Spoilt("no look at what was sent", [(Carrying, "judge_sent", lambda *_: None)], scenarios.kept_back),
    Spoilt("a fold into the tables of before", [(of_versions, "OWN_TABLES", ())], put_aside.nothing_empty),
    Spoilt("a look at all rows that change", [(Slots, "judge", lambda script, step, _=None: JUDGE(script, step))], scenarios.judged_by_key),
    Spoilt("a connection for each statement", [(Server, "idle_connection", lambda _: None)], scenarios.connections_stay),
    Spoilt("a table that is loaded from memory", of_memory(LOADED), memory.in_little_memory),
    Spoilt("a view that is read into memory", of_memory(READ), memory.in_little_memory),
]


def is_noticed(spoilt, on, end=lambda: None):
    """Whether the scenario finds it on these servers, by what it tells or by an end with an error that a client is told. `end` is done then."""
    with ExitStack() as stack:
        for of, method, instead in spoilt.instead:
            stack.enter_context(patch.object(of, method, instead))
        stack.callback(patch.stopall)
        stack.callback(end)
        try:
            return bool(spoilt.scenario(on))
        except (Failure, Told, Lost):
            return True
