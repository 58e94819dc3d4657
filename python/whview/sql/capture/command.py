"""The words of `whview sql` that are about tables which applications write to, and what is written for them."""

from __future__ import annotations

import sys
from argparse import Namespace
from typing import Any, NamedTuple

from ..catalogue import read
from ..comments import Comments
from ..tokens import Sql, Unfit
from .check import Answer
from .check import checked as check
from .checks import Checks
from .definitions import filled_anew
from .dry import Dry
from .existing import Existing, Strangers
from .live import Database, Live, LiveScript, S
from .measured import Measured, measured, steps_of
from .monitored import told_history
from .planned import planned, sizes_text
from .proposed import Proposed
from .sizes import Past, Sizes
from .sources import Source, sources


def proposed(live: Live[Any]) -> list[str]:
    """A first catalogue of the database."""
    database = live.database()
    schema = live.words.source or database.own_schema
    found = Proposed(database.dialect, database.tables(schema), database.views(schema), schema)
    for each in found.told():
        print(f"whview sql: {each}", file=sys.stderr)
    return [found.text().rstrip("\n")]


# ---- sizes and plans


def sizes_before(script: LiveScript, database: Database) -> list[Past]:
    """The sizes for the next night; from where they are is told."""
    found, nights = Sizes(script, database).before()
    by = f"by {nights} {'night' if nights == 1 else 'nights'} of the history" if nights else "by those of the views below them, since the history has no night yet"
    print(f"whview sql: sizes of base views by the tables of changes, of derived ones {by}", file=sys.stderr)
    return found


def sizes_after(script: LiveScript, database: Database) -> list[Past]:
    """The sizes of the last night."""
    found = Sizes(script, database).after()
    if found is None:
        raise Unfit("the history has no night of all these views")
    return found


def costs_of(script: LiveScript, database: Database) -> Measured:
    """What the history says that work costs."""
    sizes = Sizes(script, database)
    nights, past = sizes.steps(), sizes.past()
    done = []
    for night in past.keys() & nights.keys():
        if all(view.name in past[night] for view in script.views):
            done += steps_of(script, nights[night], [past[night][view.name] for view in script.views])
    found = measured(script.views, done)
    if found is None:
        raise Unfit("the history has no night whose steps were timed and read and put rows: what work costs cannot be measured yet")
    return found


def costs_text(script: LiveScript, costs: Measured) -> list[str]:
    """The proposal, as the options and the column of weights have it."""
    weights = [f"{view.name},{weight}" for view, weight in zip(script.views, costs.weights)]
    return [f"# measured from {costs.steps} steps", f"--inst-cost {costs.inst_cost}", "view,weight", *weights]


def with_plan(live: Live[S], script: S, database: Database) -> S:
    """The script of a catalogue that was planned for the next night."""
    words = live.words
    costs = [each for pair in (("--inst-cost", words.inst_cost), ("--comp-cost", words.comp_cost)) if pair[1] for each in pair]
    found = costs_of(script, database) if words.measured else None
    if found:
        costs = ["--inst-cost", str(found.inst_cost)]
    text = sizes_text(script.views, sizes_before(script, database), found.weights if found else None)
    return live.script(planned(words, text, costs))


# ---- what is captured and filled


class ToCapture(NamedTuple):
    """What is captured: the schema of the tables, the base views with theirs, and the names that the catalogue has no more."""

    schema: str
    sources: dict[int, Source]
    left_out: Strangers


def to_capture(live: Live[S], script: S, database: Database, existing: Existing) -> ToCapture:
    """The tables of all base views, or where that is said of those that are new, stand otherwise, or are named."""
    words = live.words
    schema = words.source or (live.schema(script) if existing.is_captured else database.own_schema)
    is_part = (words.changed or words.names) and live.takes_some(script)
    some = {*existing.new(), *existing.mirrors(), *existing.marked(), *named(words, script)} if is_part else script.steps.base()
    base = [v for v in sorted(some) if not script.views[v].over]
    return ToCapture(schema, sources(script, database, schema, base), existing.strangers())


def let_go(live: Live[S], script: S, names: Strangers) -> list[Sql]:
    """The statements that let go what the catalogue has no more, where that is said; else it is told."""
    if live.words.drop:
        return live.let_go(script, names)
    if any(names):
        listed = ", ".join(name for each in names for name in each)
        print(f"whview sql: {listed}: captured or filled, and not in the catalogue; `whview sql capture --drop` lets it go", file=sys.stderr)
    return []


def captured(live: Live[S], script: S) -> list[Sql]:
    """The statements that capture what the catalogue has."""
    database = live.database(script)
    existing = Existing(script, database)
    wanted = to_capture(live, script, database, existing)
    found = live.identified(script, wanted.schema, wanted.sources, [] if live.words.drop else wanted.left_out.base)
    return [*let_go(live, script, wanted.left_out), *live.captured(script, existing, found)]


def opened(live: Live[S], script: S) -> list[Sql]:
    """The statements that fill the derived views, or those that are named, or what is new or defined otherwise than it was filled."""
    words = live.words
    if not words.open:
        return []
    named_ones: set[int] | None = set(named(words, script)) if words.names else None
    if words.changed:
        named_ones = {*(named_ones or ()), *changed(script, live.database(script))}
    is_any = named_ones is None or filled_anew(script.steps, named_ones)
    return script.open(Comments(script.catalogue).short, named_ones) if is_any else []


def changed(script: LiveScript, database: Database) -> set[int]:
    """The derived views that are new, or were filled by another definition, or have other columns."""
    existing = Existing(script, database)
    if not existing.is_captured:
        return set(script.steps.derived())
    with database.session(False) as session:
        return {*existing.unlike(session), *existing.derived()}


def named(words: Namespace, script: LiveScript) -> list[int]:
    """The numbers of the views that are named, or none."""
    return chosen(words, script) if words.names else []


# ---- what is asked for


def of_database(words: Namespace, script: LiveScript, database: Database) -> list[str]:
    """What is told of a database."""
    if words.sizes or words.sizes_after:
        found = sizes_before(script, database) if words.sizes else sizes_after(script, database)
        return sizes_text(script.views, found).splitlines()
    return costs_text(script, costs_of(script, database)) if words.costs else []


def chosen(words: Namespace, script: LiveScript) -> list[int]:
    """The numbers of the views that are named, or of all."""
    if unknown := [said for said in words.names if said not in script.catalogue.names]:
        raise Unfit(f"there is no table or view {unknown[0]!r} in the catalogue")
    return [script.catalogue.names[said] for said in dict.fromkeys(words.names)] or list(range(len(script.views)))


def checked(live: Live[S], script: S, database: Database) -> Answer:
    """A check of what is named, or of what was checked the longest ago."""
    words = live.words
    views = Checks(script).in_turn(database, chosen(words, script)) if words.in_turn else chosen(words, script)
    base = [v for v in views if not script.views[v].over]
    found = sources(script, database, words.source or live.schema(script), base) if base else {}
    return check(script, database, found, views, words.repair)


def answered(live: Live[Any]) -> Answer:
    """What is told of a database, and the status."""
    words = live.words
    script = live.script(read(words.path))
    database = live.database(script)
    return checked(live, script, database) if words.check else Answer(told_history(script, database, words.line), 0)


def night(live: Live[S], script: S) -> list[str]:
    """A night, or what came of it where it is a dry one."""
    if live.words.plan:
        script = with_plan(live, script, live.database(script))
    live.before_night(script)
    comment = Comments(script.catalogue).short
    if live.words.dry:
        return Dry(script, live.database(script), comment).told()
    made = live.carried(script, script.night(script.catalogue.correct(), comment))
    return [*script.dialect.head, *script.dialect.written(made)]


def written(live: Live[Any]) -> list[str]:
    """The text that is asked for."""
    words = live.words
    live.judge_words()
    if words.catalogue:
        return proposed(live)
    catalogue = read(words.path)
    script = live.kept_way(catalogue) if words.capture or words.uncapture else live.script(catalogue)
    dialect = script.dialect
    if words.sizes or words.sizes_after or words.costs:
        return of_database(words, script, live.database(script))
    if words.uncapture:
        return [*dialect.head, *dialect.written(live.uncaptured(script))]
    if not words.capture and not words.open:
        return night(live, script)
    for warning in catalogue.warnings if words.capture else ():
        print(f"whview sql: {warning}", file=sys.stderr)
    found = captured(live, script) if words.capture else []
    found += opened(live, script)
    # A script without anything to do says that all is done.
    return [*dialect.head, *dialect.written(found or dialect.creation([]))]
