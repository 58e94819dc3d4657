"""Dialogues that go against one rule each: what compares `whview live` with the right one has to notice all of them, and of the falsified
machines those that one worker who draws every job can tell from the right one."""

from trials.oracle.dialogue import Dialogue
from trials.oracle.later_nights import Fault
from trials.oracle.machine import Machine
from trials.spoilt.exchanged import other
from trials.spoilt.machines import FALSIFIED
from whview.catalogue.evaluator import after

# These differ where several workers are at work, where a job is taken or done by itself, or where nights are known beforehand.
UNTOLD = [
    "a stage begins before its wave is done",
    "NoNight comes before NoWorker",
    "Idle comes before NoNight",
    "a refused job is free",
    "NoNight comes before NightOpen",
]


def given_up_by_itself(own, it):
    for told in own():
        yield told
        if told.startswith("refused"):
            it.machine.reply("giveup")


def ready_always(own, _):
    told = list(own())
    return told if told[-1] == "ready" else [*told, "ready"]


def refused_first(own, it, text):
    return "refused NightOpen" if it.machine.night else own(text)


def left_out(own, it, text):
    try:
        return own(text)
    except Fault as fault:
        if not str(fault).startswith("part "):
            raise
        return own("@changes " + text.partition("@changes ")[2] if "@changes " in text else "")


def opening_first(own, it, text):
    if it.opening.own is None:
        return own(text)
    changes, _ = own(text)
    return changes, it.opening.strategy(it.opening.own)


def own_event(own, it, words):
    if words in (["begin"], ["page"]) or words[:1] in (["take"], ["done"]) and len(words) == 2:
        return it.machine.reply(words[0], *map(int, words[1:])) + "\n"
    return own(words)


def moved(own, it, desk, name, limit, cells):
    """A page that is read: the bookmark is put behind the row, and then behind the page."""
    told = own(desk, name, limit, cells)
    if not told.startswith("#"):
        return told
    session = it.machine.session(desk)
    session.view, session.row = it.machine.names[name], it.row(name, cells)
    return it.replied("read", desk, name, limit)


def with_itself(own, it, desk, name, limit, row):
    return own(desk, name, limit, row and (*row[:-1], row[-1] - 1))


def between(old, new):
    return [after(one, {row: -count for row, count in other.items()}) for one, other in zip(new, old)]


FALSIFIED_DIALOGUES = [other(Dialogue, name, instead) for name, instead in {
    "texts of a night that does not begin stay": {"forget": lambda *_: None},
    "a night is given up where it is refused": {"carried_on": given_up_by_itself},
    "a night is ready although it was refused": {"carried_on": ready_always},
    "a night is not carried on": {"carried_on": lambda *_: ["ready"]},
    "NightOpen comes before faults": {"begun": refused_first},
    "a strange part is left out": {"read": left_out},
    "the opening's strategy stands above a night's": {"read": opening_first},
    "a schedule's own event is taken": {"told": own_event},
    "a blank line is unknown": {"told": lambda own, _, words: own(words) if words else "unknown\n"},
    "a carriage return is a blank": {"take": lambda own, _, line: own(line.removesuffix(b"\r"))},
    "a page has numbers for texts": {"shown": lambda _, __, ___, cells: cells},
    "a page behind a row moves the bookmark": {"behind": moved},
    "a page behind a row begins at the view's first": {"row": lambda *_: None},
    "texts of a row that is named stay": {"row": lambda own, it, *given: own(*given) and own(*given), "forget": lambda *_: None},
    "tables are those of the version before": {"tables": lambda own, it, sizes, versions: own([sum(table.values()) for table in it.machine.versions[-2:][0]], versions)},
    "tables tell different rows": {"tables": lambda own, it, sizes, versions: own([len(table) for table in it.machine.versions[-1]], versions)},
    "tables tell all versions": {"tables": lambda own, it, sizes, versions: own(sizes, range(len(it.machine.versions)))},
    "changes are turned round": {"changes": lambda own, _, written: own([{row: -count for row, count in change.items()} for change in written])},
    "changes are rows that come alone": {"changes": lambda own, _, written: own([{row: n for row, n in change.items() if n > 0} for change in written])},
    "changes outlive their night": {"changes": lambda own, it, written: own(between(*it.machine.versions[-2:]) if not it.machine.night and it.machine.current else written)},
    "a page ends where more follows": {"page": lambda own, _, *given: own(*given).removesuffix("more\n") + "end\n"},
}.items()]
FALSIFIED_MACHINES = [other(Machine, "a page begins at the row that is named", {"behind": with_itself})]
FALSIFIED_MACHINES += [kind for kind in FALSIFIED if kind.__name__ not in UNTOLD]
