"""Machines that go against one rule each: what compares a program with the right machine has to notice all of them.

Each has a name, and of what the right machine does what is done otherwise: a function of the right one's own, the machine, and the words.
"""

from trials.oracle.machine import MOST_KEYS, Machine
from trials.spoilt.exchanged import other
from whview.catalogue.evaluator import MOST_COUNT, Refused, after


def then(does):
    """The right one, and behind it this."""

    def spoilt(own, it, *given):
        told = own(*given)
        does(it)
        return told

    return spoilt


def before(word, is_so):
    """The right one, but refused with this word before all others where it is so."""

    def spoilt(own, it, *given):
        if is_so(it, *given):
            raise Refused(word)
        return own(*given)

    return spoilt


def where_refused(does):
    """The right one, and where it refuses besides this, which is given the word."""

    def spoilt(own, it, *given):
        try:
            return own(*given)
        except Refused as refused:
            does(it, str(refused), *given)
            raise

    return spoilt


# ---- pages, stages and jobs


def counted_rows(own, it):
    night = it.open_night()
    own()
    return f"paged {sum(abs(night.changes[night.stage][row]) for row in night.left[: it.keys])}"


def lost_page(own, it):
    night, told = it.open_night(), own()
    it.night.tables = night.tables
    return told


def change_for_count(own, it):
    night, told = it.open_night(), own()
    change = night.changes[night.stage]
    written = night.tables[night.stage] | {row: change[row] for row in night.left[: it.keys]}
    it.night.tables[night.stage] = {row: count for row, count in written.items() if count > 0}
    return told


def never_passed(_, it, night):
    night.drawn = night.done = 0
    if isinstance(night.stage, int):
        night.left = sorted(it.changed(night, night.stage))


def early_stage(own, it, worker):
    told = own(worker)
    if it.night.wave and 0 < it.night.done and it.night.drawn == len(it.night.wave):
        it.night.place += 1
        it.come_to_stage(it.night)
        it.jobs = [None] * len(it.jobs)
    return told


def late_refusal(own, _, night):
    try:
        own(night)
    except Refused as refused:
        night.late = refused


def late_page(own, it):
    if it.night and hasattr(it.night, "late"):
        raise it.night.late
    return own()


def no_change(own, _, night, v):
    try:
        return own(night, v)
    except Refused:
        if not night.wave:
            raise
        night.changes[v] = {}
        return {}


def kept_number(_, it):
    it.open_night()
    it.night, it.jobs = None, [None] * len(it.jobs)
    return f"version {it.current}"


def kept_jobs(own, it):
    jobs, told = it.jobs, own()
    it.jobs = jobs
    return told


def highest_job(own, it, worker):
    own(worker)
    it.jobs[worker] = len(it.night.wave) - 1 - it.jobs[worker]
    return f"job {it.jobs[worker]}"


def numbered_through(own, it, worker):
    own(worker)
    return f"job {sum(len(stage) for stage in it.night.stages[: it.night.place] if isinstance(stage, list)) + it.jobs[worker]}"


def has_no_job(it, worker):
    it.worker(worker)
    night = it.open_night()
    return not night.wave or night.drawn == len(night.wave)


def free_job(it, word, worker):
    if word in ("Large", "Range"):
        it.jobs[worker] = None


# ---- desks and values


def own_places(own, _, session, v, limit):
    places = vars(session).setdefault("places", {})
    session.view, session.row = v, places.get(v)
    told = own(session, v, limit)
    places[v] = session.row
    return told


def last_page_alone(own, it, session, v, limit):
    told, table = own(session, v, limit), it.shown_to(session)[v]
    if session.row is None and table:
        session.row = max(table)
    return told


def read_anew(it, _, desk, *__):
    if session := it.session(desk):
        session.row = None


def place_kept(own, it, desk):
    session, told = it.session(desk), own(desk)
    vars(it).setdefault("places", {})[desk] = (session.view, session.row)
    return told


def place_of_before(own, it, desk):
    told = own(desk)
    it.sessions[desk].view, it.sessions[desk].row = vars(it).get("places", {}).get(desk, (None, None))
    return told


def read_twice(own, it, session, v, limit):
    told = own(session, v, limit)
    session.row = max((row for row in it.shown_to(session)[v] if session.row and row < session.row), default=session.row)
    return told


def never_last(own, _, session, v, limit):
    told = own(session, v, limit)
    return told.removesuffix("end") + "more" if told.endswith("end") and told.count("[") == limit else told


def left_out(own, _, *given):
    try:
        own(*given)
    except Refused:
        pass


def new_sources(own, _, over, sources, tables, changes):
    return own(over, sources, [after(table, changes[u]) if u in sources else table for u, table in enumerate(tables)], changes)


def without_all(own, _, over, sources, *given):
    terms = list(own(over, sources, *given))
    return terms[:-1] if len(sources) > 1 else terms


def is_past_limit(it, desk, _, limit):
    session = it.session(desk)
    return session and it.unexpired(session.version) and not 1 <= limit <= MOST_KEYS


def is_of_expired(it, desk):
    session = it.session(desk)
    return session and not it.unexpired(session.version)


def at_work(it):
    return "active" if it.night else "idle"


FALSIFIED = [other(Machine, name, instead) for name, instead in {
    # pages and stages
    "a page has a key more": {"cut": lambda _, it, left: (left[: it.keys + 1], left[it.keys + 1 :])},
    "a page comes a key late": {"cut": lambda _, it, left: (left[1 : it.keys + 1] or left[:1], left[it.keys + 1 :])},
    "a page counts rows": {"page": counted_rows},
    "a page is lost": {"page": lost_page},
    "a page writes its change as the count": {"page": change_for_count},
    "a commit shows the contents before": {"commit": then(lambda it: it.versions.__setitem__(-1, it.versions[-2]))},
    "a view without a change has a page": {"come_to_stage": never_passed},
    "a stage begins before its wave is done": {"done": early_stage},
    "a commit does not wait": {"commit": lambda _, it: it.ended(it.open_night().tables)},
    "a change is computed by its page": {"come_to_stage": late_refusal, "page": late_page},
    "a comp takes a change without a value for none": {"changed": no_change},
    "a wave has all comps before an inst": {"joins": staticmethod(lambda *_: True)},
    # versions
    "a session reads what is written": {"shown_to": lambda own, it, reads: it.night.tables if it.night and reads.version == it.current else own(reads)},
    "a session reads the current version": {"shown_to": lambda _, it, __: it.versions[-1]},
    "an expired session is served": {"unexpired": lambda *_: True},
    "the version before expires at once": {"unexpired": lambda _, it, version: version == it.current},
    "the last kept version stays in a night": {"unexpired": lambda _, it, version: it.current - version < it.kept},
    "a version too many is read": {"unexpired": lambda _, it, version: it.current - version <= it.kept - bool(it.night)},
    "a version too few is read": {"unexpired": lambda _, it, version: version == it.current or it.current - version < it.kept - 1 - bool(it.night)},
    "two versions are kept always": {"unexpired": lambda _, it, version: it.current - version < 2 - bool(it.night)},
    "a night leaves the current version alone": {"unexpired": lambda _, it, version: it.current - version < (1 if it.night else it.kept)},
    "a night takes two versions": {"unexpired": lambda _, it, version: version == it.current or it.current - version < it.kept - 2 * bool(it.night)},
    "a give-up expires nothing": {"giveup": then(lambda it: vars(it).update(kept=it.kept + 1))},
    "an expired session is told the oldest version": {"expired": lambda _, it, __: f"expired {max(0, it.current - it.kept)} current {it.current} {at_work(it)}"},
    "an expired session is told the oldest as current": {
        "expired": lambda _, it, session: f"expired {session.version} current {it.current - it.kept} {at_work(it)}"},
    "giving up keeps the number": {"giveup": kept_number},
    "giving up keeps what was written": {"giveup": lambda _, it: it.ended(it.open_night().tables)},
    "a night that was given up is tried again": {"giveup": then(lambda it: vars(it).update(begun=it.begun - 1))},
    "a night that was refused is used up": {"begin": where_refused(lambda it, word: vars(it).update(begun=it.begun + (word in ("Absent", "Large"))))},
    # jobs
    "giving up keeps the jobs": {"giveup": kept_jobs},
    "the highest job is drawn first": {"take": highest_job},
    "jobs are numbered through the night": {"take": numbered_through},
    "Busy comes after NoJob": {"take": before("NoJob", has_no_job)},
    "NoNight comes before NoWorker": {"take": before("NoNight", lambda it, _: not it.night)},
    "Idle comes before NoNight": {"done": before("Idle", lambda it, worker: it.worker(worker) or it.jobs[worker] is None)},
    "a refused job is free": {"done": where_refused(free_job)},
    "NoNight comes before NightOpen": {"begin": before("NoNight", lambda it: it.begun == len(it.nights))},
    # desks
    "each view has a place of its own": {"rows": own_places},
    "a last page is not read again": {"rows": last_page_alone},
    "a refused read begins anew": {"read": where_refused(read_anew)},
    "a session goes on where the one before was": {"close": place_kept, "open": place_of_before},
    "a row is read twice": {"rows": read_twice},
    "a full page is never the last": {"rows": never_last},
    "a limit is judged before the view": {"read": before("Limit", is_past_limit)},
    "a view is judged before the session": {"read": before("NoView", lambda it, desk, name, _: it.session(desk) and name not in it.names)},
    "NoSession comes before NoDesk": {"session": lambda _, it, desk: it.sessions[desk] if desk < len(it.sessions) else None,
                                      "open": before("NoDesk", lambda it, desk: desk >= len(it.sessions))},
    "an expired session is not closed": {"close": before("NoSession", is_of_expired)},
    # values
    "what is large is told before what is absent": {
        "judge": before("Large", lambda _, table, change: any(table.get(row, 0) + count > MOST_COUNT for row, count in change.items()))},
    "the last base view is judged first": {"base_views": lambda own, _: own()[::-1]},
    "no product is large": {"within": lambda *_: None},
    "a row without a value is left out": {"gather": left_out},
    "a comp reads the tables before the night": {"comp": lambda own, it, view, sources, _, changes: own(view, sources, it.versions[-1], changes)},
    "a comp reads new tables of its sources": {"terms": new_sources},
    "a comp lacks the term of all changes": {"terms": without_all},
    "a group of no rows stays": {"shown": lambda own, _, view, key, sums: own(view, key, sums) or ((key + tuple(sums), 1) if view.keep is None else None)},
    "a group whose sum is zero leaves": {"shown": lambda own, _, view, key, sums: None if view.keep is None and 0 in sums[1:] else own(view, key, sums)},
}.items()]
