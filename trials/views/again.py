"""Views that are taken again while somebody reads them: whatever comes of the script, each read finds the view, and its rows."""

import tempfile
from contextlib import contextmanager
from threading import Event, Thread
from time import monotonic, sleep

from trials.servers.postgresql import Broken
from trials.views.kept import Kept
from trials.views.shop import TABLES

# Views that are taken again as they are, with other columns behind those that were, with other ones in the place of these, and with other expressions.
VIEWS = {
    "by_city": "SELECT city, count(*) AS n, max(id) AS last FROM customers GROUP BY city",
    "dear": "SELECT id, customer, total * 2 AS twice FROM orders WHERE total > 5",
    "named": "SELECT c.name, o.state, count(*) AS n FROM customers AS c JOIN orders AS o ON o.customer = c.id GROUP BY c.name, o.state",
}
OTHERS = {
    "by_city": "SELECT city, count(*) AS n, max(id) AS last, sum(score) AS score FROM customers GROUP BY city",
    "dear": "SELECT id, customer, total * 3 AS twice FROM orders WHERE total > 4",
    "named": "SELECT upper(c.name) AS name, count(*) AS n FROM customers AS c JOIN orders AS o ON o.customer = c.id GROUP BY upper(c.name)",
}
# So long no read may take beside a script that waits for somebody's transaction, in seconds.
MOST = 2.0


class Readers:
    """Somebody who reads all views again and again, and notes what is wrong with what comes. Nobody writes meanwhile: each view has the rows of what it was
    defined as before, or of what it is now."""

    def __init__(self, kept, *definitions):
        self.kept, self.wrong, self.many, self.longest = kept, [], 0, 0.0
        self.expected = {name: [rows_of(kept.session, f"({views[name]})") for views in definitions] for name in VIEWS}
        self.ended, self.thread = Event(), Thread(target=self.read)

    def read(self):
        """What is wrong with reads, one after another."""
        with self.kept.server.session(self.kept.name, "reader") as session:
            while not self.ended.is_set():
                for view in VIEWS:
                    self.wrong += self.read_once(session, view)

    def read_once(self, session, view):
        """What is wrong with one read."""
        began = monotonic()
        try:
            rows = rows_of(session, f"wh.{view}")
        except Broken as fault:
            return [f"a reader of {view}: {fault.told}"]
        self.many, self.longest = self.many + 1, max(self.longest, monotonic() - began)
        return [] if rows in self.expected[view] else [f"a reader of {view} sees {rows[:3]}, and not one of {self.expected[view]}"]


def rows_of(session, what):
    """The rows of a view, or of a query, each as a text."""
    return sorted(session.rows(f"SELECT v::text FROM {what} AS v"))


@contextmanager
def reading(kept, *definitions):
    """Readers beside what is done here."""
    readers = Readers(kept, *definitions)
    readers.thread.start()
    try:
        yield readers
    finally:
        readers.ended.set()
        readers.thread.join()


def taken(kept, views):
    """Defines views anew where nobody sees them between, and answers the script that takes them."""
    kept.session.rows("BEGIN")
    for name, query in views.items():
        kept.session.rows(f"DROP VIEW IF EXISTS {name}")
        kept.session.rows(f"CREATE VIEW {name} AS {query}")
        kept.session.rows(f"GRANT SELECT ON {name} TO reader")
    kept.session.rows("COMMIT")
    return kept.again_taken(list(views))


def opened(server, folder):
    """A shop whose views are taken, and which somebody else may read."""
    kept = Kept(server, "shop_again", folder)
    kept.said(TABLES)
    kept.session.rows("DO $$ BEGIN IF to_regrole('reader') IS NULL THEN CREATE ROLE reader LOGIN; END IF; END $$")
    kept.carried(taken(kept, VIEWS))
    kept.session.rows("GRANT USAGE ON SCHEMA wh TO reader")
    for name in VIEWS:
        kept.session.rows(f"GRANT SELECT ON wh.{name} TO reader")
    return kept


def stopped(script, at):
    """A script which fails behind so many of its transactions."""
    ends = [place for place, line in enumerate(script) if line == "COMMIT;" or line.startswith("END $take")]
    return [*script[: ends[at] + 1], "SELECT 1 / 0;", *script[ends[at] + 1:]], at + 1 < len(ends)


def failing_mistakes(kept):
    """What is wrong beside scripts that fail at each place, one after another: they take views that are defined otherwise."""
    changed = {**VIEWS, **OTHERS}
    script, wrong, at, goes_on = taken(kept, changed), [], 0, True
    with reading(kept, VIEWS, changed) as readers:
        while goes_on:
            failing, goes_on = stopped(script, at)
            wrong += fails(kept, failing, "division by zero")
            script, at = kept.again_taken(list(VIEWS)), at + 1
    with reading(kept, changed) as after:
        kept.carried(kept.again_taken(list(VIEWS)))
    return [*wrong, *(f"beside scripts that fail: {each}" for each in readers.wrong), *after.wrong, *kept.differences()], at


def fails(kept, script, why):
    """A mistake where a script does not fail for this reason."""
    try:
        kept.carried(script)
    except Broken as fault:
        return [] if why in fault.told else [fault.told]
    return [f"a script that fails by {why} went through"]


def judged_mistakes(kept):
    """What is wrong where a script refuses what there is: the views stay over what is kept."""
    asked = "SELECT pg_get_viewdef('wh.dear'::regclass)"
    before, script = kept.session.rows(asked), kept.again_taken(list(VIEWS))
    kept.session.rows("ALTER TABLE customers ALTER COLUMN name DROP NOT NULL")
    wrong = fails(kept, script, "otherwise than it was")
    kept.session.rows("ALTER TABLE customers ALTER COLUMN name SET NOT NULL")
    return wrong + ([] if kept.session.rows(asked) == before else ["a script that was refused has changed its views"])


def waiting_mistakes(kept):
    """What is wrong where somebody has read the views in a transaction that goes on for a while."""
    script = kept.again_taken(list(VIEWS))
    with kept.server.session(kept.name) as session, reading(kept, VIEWS) as readers:
        session.rows("BEGIN")
        session.rows("SELECT count(*) FROM wh.by_city")
        thread = Thread(target=kept.carried, args=(script,))
        thread.start()
        sleep(3)
        session.rows("COMMIT")
        thread.join()
    wrong = [f"beside a script that waits: {each}" for each in readers.wrong]
    return wrong + ([f"a read took {readers.longest:.1f} s beside a script that waits"] if readers.longest > MOST else [])


def again_mistakes(server):
    """What readers find beside scripts that take views again."""
    with tempfile.TemporaryDirectory() as folder:
        kept = opened(server, folder)
        wrong = kept.differences()
        with reading(kept, VIEWS) as readers:
            kept.carried(kept.again_taken(list(VIEWS)))
        wrong += [*readers.wrong, *kept.differences(), *waiting_mistakes(kept), *judged_mistakes(kept)]
        found, many = failing_mistakes(kept)
        kept.close()
    return [*wrong, *found][:9], f"{readers.many} reads beside a script that takes views again, and reads beside {many} that fail"
