"""Captures the tables of an application by whview sql, and lets it write while nights run.

Whatever an application does to its tables is done to captured ones, one case each: after the next night the views have to be what the
tables give by themselves. Transactions commit late, two nights run at once, and a thousand small transactions beside ten nights must not
wait for a lock. Clients and servers are killed in nights, and a standby follows and takes over: nothing is lost and nothing is twice.
Catalogues of databases are compared with the views that they are made from, sizes and dry nights with what nights do, and what nights read
with what changed. Whoever owns a captured table, or plants functions and operators where names are looked up, gains nothing by it, and captures are
made again after tables and catalogues changed.
All that applications do is done once more to tables that are captured from the server's log, whose slot is killed, moved and lost, and what pgbench
pays for it is told. Captures and nights that are spoilt have to be noticed, and the commands of docs/SQL.md are run as they are written. The PostgreSQL server
is this tool's own, of bounded memory, in a temporary folder; where there is none, and it cannot be installed, SQLite is tried alone.
"""

import os
import signal
import sys
from contextlib import ExitStack
from pathlib import Path

from trials.capture import again, drawn_nights, drawn_triggers, encoded, intruders, kept_plans, killed, log, long_texts, own, page, parted, proposals, reads, refused, soak, standby
from trials.capture import together, values, writers_beside
from trials.capture.application import Live
from trials.capture.case import each_of
from trials.capture.cases import case_mistakes
from trials.capture.catalogues import catalogue_mistakes
from trials.capture.checks import check_mistakes
from trials.capture.places import LivePostgreSQL, LiveSQLite
from trials.capture.planted import planted_mistakes
from trials.servers.databases import in_folder
from trials.servers.postgresql import Server, postgresql
from trials.spoilt.captures import unnoticed
from upkeep.words import program, words_with_program

PACKAGES = ("psycopg", "hypothesis")
KILLS, SEED, SHOWN, DRAWN, ROUNDS = 30, 20261127, 12, 15, 10
KILLED_ROWS, SOAKED = 600, 30


def counted(ends):
    return ", ".join(f"{ends[end]} {end}" for end in sorted(ends))


class Trial:
    """The databases, and what went wrong so far. Each part answers what it tried, for each database, SQLite's first or that of the server alone."""

    def __init__(self, stack, asked):
        self.asked, self.started, self.wrong, path = asked, program(asked.program), [], Path(stack.enter_context(in_folder()))
        self.lite, self.live, self.only = Live(LiveSQLite(stack.enter_context(in_folder())), path), None, asked.only or ""
        if programs := postgresql():
            server = stack.enter_context(Server(programs))
            os.environ.update(PGHOST=str(server.folder), PGUSER="postgres", PATH=f"{programs}:{os.environ['PATH']}")
            self.live = Live(LivePostgreSQL(server), path)
            self.live.asked("CREATE ROLE seller;")
        self.lives = [self.lite, self.live] if self.live else [self.lite]

    def of_each(self, mistakes, what):
        """Something on each of the databases, which are told with how many there were."""
        told = []
        for live in self.lives:
            wrong, many = mistakes(live, self.only)
            self.wrong += wrong
            told.append(f"{many} {what} by {live.engine}")
        return ", ".join(told)

    def noted(self, found):
        wrong, told = found
        self.wrong += wrong
        return told

    def cases(self):
        return self.of_each(case_mistakes, "cases")

    def checked(self):
        return self.of_each(check_mistakes, "drifts")

    def changed(self):
        return self.of_each(catalogue_mistakes, "changed catalogues")

    def drawn(self):
        self.wrong += drawn_triggers.drawn_mistakes(self.lite, ROUNDS, self.asked.seed)
        told = [f"{ROUNDS} rounds of drawn statements beside triggers by sqlite"]
        if self.live:
            ends = self.noted(drawn_nights.drawn_mistakes(self.live.database.server, self.started, DRAWN, self.asked.seed))
            told.insert(0, f"{sum(ends.values())} drawn nights ({counted(ends)})")
        return "; ".join(told)

    def planned(self):
        """Catalogues, sizes, plans and dry nights of databases, and what is refused."""
        self.wrong += [text for live in self.lives for text in proposals.mistakes(live, self.started)]
        return f"{len(proposals.VIEWS) + sum(map(len, proposals.OWN.values()))} views of an application, sizes and plans"

    def kept(self):
        self.wrong += [text for live in self.lives for text in each_of(live, {"kept plans": lambda live: kept_plans.mistakes(live, self.started)})]
        return "nights by plans that were kept"

    def valued(self):
        """Views over values at the edges of their types, and rows that are refused."""
        for live in self.lives:
            self.wrong += values.mistakes(live) + refused.mistakes(live) + each_of(live, {"long texts": long_texts.mistakes})
        self.wrong += encoded.mistakes(self.live) + own.mistakes(self.live) if self.live else []
        return "views over values at the edges of their types"

    def read(self):
        """What nights read where little changes."""
        self.wrong += reads.reads_mistakes(self.live.database.server)
        return "nights that look rows up"

    def guarded(self):
        """Who gets in, and captures that are made again."""
        self.wrong += each_of(self.live, {**intruders.TRIED, "planted": lambda live: planted_mistakes(live, self.started), **again.TRIED, "all": together.mistakes})
        return "nobody gets in, captures made again"

    def parted(self):
        self.wrong += each_of(self.live, parted.TRIED)
        return "partitions that come and leave"

    def page(self):
        self.wrong += page.page_mistakes(self.started, self.live and self.live.database.server)
        return "the walks of docs/SQL.md"

    def spoilt(self):
        self.wrong += [text for live in self.lives for text in unnoticed(live)]
        return "spoilt captures and nights are noticed"

    def beside(self):
        self.wrong += writers_beside.sqlite_writer_mistakes(self.lite)
        if not self.live:
            return "a writer that waits its turn"
        self.wrong += each_of(self.live, writers_beside.BESIDE)
        return f"late transactions, two nights at once; {self.noted(writers_beside.writer_mistakes(self.live))}"

    def killed(self):
        told = []
        for live, mistakes in zip(self.lives, (killed.sqlite_kill_mistakes, killed.kill_mistakes)):
            live.rows, rows = KILLED_ROWS, live.rows
            ends = self.noted(mistakes(live, self.asked.count, self.asked.seed))
            live.rows = rows
            told.append(f"{self.asked.count} kills by {live.engine} ({counted(ends)})")
        return ", ".join(told)

    def soaked(self):
        return self.noted(soak.soak_mistakes(self.live, self.asked.seconds, self.asked.seed))

    def followed(self):
        self.wrong += standby.standby_mistakes(self.live)
        return "a standby"

    def log(self):
        """Tables that are captured from the log."""
        wrong, done = log.log_mistakes(self.started, self.live, self.asked.count, self.asked.seed, self.only)
        self.wrong += [f"from the log: {text}" for text in wrong]
        return done


# What is tried where no part is named: in this order, and by SQLite alone where there is no server, but for those that want one.
PARTS = ("cases", "checked", "changed", "drawn", "planned", "kept", "valued", "read", "guarded", "parted", "page", "spoilt", "beside", "killed", "soaked", "followed")
OF_THE_SERVER = {
    "read": "no tables that are gone through", "guarded": "nobody who would get in", "parted": "no partitions", "soaked": "nothing at once", "followed": "no standby",
    "log": "no log",
}


def main():
    signal.signal(signal.SIGTERM, lambda *_: sys.exit(1))
    words = words_with_program(__doc__, KILLS, SEED)
    words.add_argument("--only", help="the cases alone whose names have this in them")
    words.add_argument("--seconds", type=int, default=SOAKED, help="how long everything goes on at once (%(default)s)")
    words.add_argument("--part", choices=(*PARTS, "log"), help="this part alone; of cases, checks and changes those with --only in their names")
    asked = words.parse_args()
    parts = [asked.part] if asked.part else ["cases"] if asked.only is not None else PARTS
    with ExitStack() as stack:
        trial = Trial(stack, asked)
        told = [getattr(trial, part)() if trial.live or part not in OF_THE_SERVER else OF_THE_SERVER[part] for part in parts]
    for each in trial.wrong[:SHOWN]:
        print(f"mistake: {each}")
    left_out = "" if trial.live else "; PostgreSQL is not there and cannot be installed, and was left out"
    print(f"try_live: {'; '.join(told)}, {len(trial.wrong)} mistakes{left_out}")
    return 1 if trial.wrong else 0
