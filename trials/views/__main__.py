"""Views as people write them, taken by whview sql take: after opening and after every night each reads as the view itself, or it is refused with its reason.

Each construct has its cases over a shop with values at the edges of their types; then views are drawn from a grammar of all of them over drawn tables; and ten
views each of five public applications' schemas, and seven each of four others, are taken as their operators would write them. The walks of docs/SQL.md are run
as they are written. The PostgreSQL server is this tool's own, of bounded memory, in a temporary folder. Views of files of SQLite are tried in the same ways.
"""

import os
import sys
import tempfile

from trials import pages
from trials.servers.postgresql import Server, postgresql
from trials.views import files
from trials.views.again import again_mistakes
from trials.views.cases import BELOW, FOLDED, REFUSED, TAKEN
from trials.views.drawn_views import drawn_mistakes
from trials.views.file_ways import ways_mistakes
from trials.views.kept import Kept
from trials.views.log import log_mistakes
from trials.views.looked_up import looked_up_mistakes
from trials.views.planted import planted_mistakes
from trials.views.public import OTHERS, public_mistakes
from trials.views.shop import DAYS, TABLES
from trials.views.together import together_mistakes
from upkeep.words import words

PACKAGES = ("psycopg", "hypothesis", "pglast")
PARTS = (
    "cases", "refused", "together", "again", "looked_up", "drawn", "public", "others", "log", "planted", "page",
    "file_cases", "file_refused", "file_drawn", "file_ways", "file_page",
)
# So many views at most are taken together here, so that what they keep has room in one warehouse.
TOGETHER, SHOWN = 20, 12
HEADING, FILE_HEADING = "Views as people wrote them", "Views of a file of SQLite"


def shop(server, folder):
    """A shop whose views nobody has taken."""
    kept = Kept(server, "shop", folder)
    kept.said(FOLDED + TABLES + BELOW)
    return kept


def batches(only):
    """The constructs that have this in their names, in batches of views that are taken together."""
    found, last = [], {}
    for construct, queries in TAKEN.items():
        if only not in construct:
            continue
        if last and sum(map(len, last.values())) + len(queries) > TOGETHER:
            found, last = [*found, last], {}
        last[construct] = queries
    return [*found, last] if last else found


def views_made(kept, wanted):
    """Makes views, and answers their names with what each of them tries."""
    names = {}
    for construct, queries in wanted.items():
        for at, query in enumerate(queries, 1):
            name = "".join(letter if letter.isalnum() else "_" for letter in construct.lower())[:30] + f"_{at}"
            kept.session.rows(f"CREATE VIEW {name} AS {query}")
            names[name] = construct
    return names


def batch_mistakes(kept, wanted):
    """What is wrong with views that are taken together, after opening and after each day's night."""
    names = views_made(kept, wanted)
    wrong = [f"{name} is refused: {why}" for name, why in kept.refused(list(names)).items()]
    wrong += [f"opened: {each}" for each in kept.differences()]
    for day, statements in DAYS.items():
        kept.said(statements)
        kept.night()
        wrong += [f"{day}: {each}" for each in kept.differences()]
    return wrong


def case_mistakes(server, only):
    """What is wrong with the views of all constructs."""
    wrong, tried = [], batches(only)
    for wanted in tried:
        with tempfile.TemporaryDirectory() as folder:
            kept = shop(server, folder)
            wrong += [each[:700] for each in batch_mistakes(kept, wanted)]
            kept.close()
    many, constructs = sum(len(queries) for wanted in tried for queries in wanted.values()), sum(map(len, tried))
    return wrong, f"{many} views of {constructs} constructs, opened and over {len(DAYS)} nights"


def refused_mistakes(server, only):
    """What is taken that has to be refused, or refused for another reason or without its place."""
    wrong, tried = [], {name: case for name, case in REFUSED.items() if only in name}
    with tempfile.TemporaryDirectory() as folder:
        kept = shop(server, folder)
        for at, (name, (query, why)) in enumerate(tried.items()):
            kept.session.rows(f"CREATE VIEW refused_{at} AS {query}")
            told = kept.refused([f"refused_{at}"]).get(f"refused_{at}", "it was taken")
            wrong += [] if why in told and f"refused_{at}, line " in told else [f"{name}: {told}"]
        kept.close()
    return wrong, f"{len(tried)} views refused with line and reason"


def drawn(server, asked):
    """What is wrong with drawn views."""
    wrong, counts, reasons = drawn_mistakes(server, asked.drawn, asked.seed)
    told = ", ".join(f"{many} {what}" for what, many in sorted(counts.items()))
    return wrong, f"{asked.drawn} drawn views: {told}; reasons: {dict(reasons) or 'none'}"


def page_mistakes(server):
    """What the walk of the page prints otherwise than the page says."""
    found = pages.blocks_of("SQL.md", HEADING)
    with pages.examples_in_folder() as folder:
        ran = pages.run(found["sh"][0], folder, server)
    right = (ran.stdout, ran.returncode) == (found[""][0], 0)
    return [] if right else [f"the page: {ran.stdout}{ran.stderr}"], "the walk of docs/SQL.md"


def file_page_mistakes():
    """The same of the walk with a file of SQLite."""
    found = pages.blocks_of("SQL.md", FILE_HEADING)
    with pages.examples_in_folder() as folder:
        ran = pages.run(found["sh"][0], folder)
    right = (ran.stdout, ran.returncode) == (found[""][0], 0)
    return [] if right else [f"the page: {ran.stdout}{ran.stderr}"], "the walk of docs/SQL.md with a file"


def of_files(asked):
    """What is tried of files, which want no server."""
    return {
        "file_cases": lambda: files.case_mistakes(asked.only), "file_refused": lambda: files.refused_mistakes(asked.only),
        "file_drawn": lambda: files.drawn_mistakes(asked.drawn, asked.seed), "file_ways": ways_mistakes, "file_page": file_page_mistakes,
    }


def of_server(server, asked):
    """What is tried of databases of a server."""
    return {
        "cases": lambda: case_mistakes(server, asked.only), "refused": lambda: refused_mistakes(server, asked.only), "drawn": lambda: drawn(server, asked),
        "together": lambda: together_mistakes(server), "again": lambda: again_mistakes(server), "looked_up": lambda: looked_up_mistakes(server),
        "public": lambda: public_mistakes(server, asked.only), "others": lambda: public_mistakes(server, asked.only, OTHERS),
        "log": lambda: log_mistakes(server.programs), "planted": lambda: planted_mistakes(server),
        "page": lambda: page_mistakes(server),
    }


def tried(wanted, parts):
    """What is wrong in the parts of these that are wanted, and what was tried."""
    found = [act() for part, act in parts.items() if part in wanted]
    return [each for wrong, _ in found for each in wrong], [said for _, said in found]


def main():
    parser = words(__doc__)
    parser.add_argument("--only", default="", metavar="WORD", help="the constructs, and the packages of applications, that have this in their names")
    parser.add_argument("--drawn", type=int, default=300, metavar="N", help="so many drawn views (%(default)s)")
    parser.add_argument("--seed", type=int, default=20261129, help="from where views are drawn (%(default)s)")
    parser.add_argument("--parts", default=",".join(PARTS), help="what is tried (%(default)s)")
    asked, programs = parser.parse_args(), postgresql()
    wanted = asked.parts.split(",")
    if unknown := set(wanted) - set(PARTS):
        sys.exit(f"trials/run views has no parts {', '.join(sorted(unknown))}; it has {', '.join(PARTS)}")
    wrong, told = tried(wanted, of_files(asked))
    if set(wanted) - set(of_files(asked)):
        if not programs:
            sys.exit("trials/run views wants PostgreSQL: apt-get install -y postgresql")
        with Server(programs) as server:
            os.environ.update(PGHOST=str(server.folder), PGUSER="postgres", PATH=f"{programs}:{os.environ['PATH']}")
            found, said = tried(wanted, of_server(server, asked))
            wrong, told = [*wrong, *found], [*told, *said]
    print("\n".join([*wrong[:SHOWN], *told, f"{len(wrong)} mistakes" if wrong else "no mistakes"]))
    return 1 if wrong else 0
