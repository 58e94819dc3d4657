"""All views of all constructs in one take, which keeps more than a warehouse has: several of them over the same mirrors, whose nights are one."""

import tempfile
from contextlib import redirect_stderr
from io import StringIO

from trials.views.cases import BELOW, FOLDED, TAKEN
from trials.views.kept import Kept
from trials.views.shop import DAYS, TABLES

# What is left by and by of so many views, so that several warehouses become one.
FEW = 12
SCHEMA = "SELECT count(*) FROM pg_namespace AS n WHERE n.nspname = 'wh'"
MIRRORS = 'SELECT view FROM wh."~captured" ORDER BY view'


def views_made(kept):
    """Makes all views, and answers their names."""
    names = []
    for construct, queries in TAKEN.items():
        for at, query in enumerate(queries, 1):
            names.append("".join(letter if letter.isalnum() else "_" for letter in construct.lower())[:30] + f"_{at}")
            kept.session.rows(f"CREATE VIEW {names[-1]} AS {query}")
    return names


def warehouses(kept):
    """How many warehouses the folder has."""
    return len(list(kept.folder.glob("warehouse_*/catalogue.toml"))) or len(list(kept.folder.glob("catalogue.toml")))


def nights_mistakes(kept, days):
    """What is wrong after some days' nights."""
    wrong = []
    for day, statements in days.items():
        kept.said(statements)
        kept.night()
        wrong += [f"{day}: {each}" for each in kept.differences()]
    return wrong


def checked_mistakes(kept):
    """What a check says of all tables together."""
    from whview.sql.capture import command as capturing
    from whview.sql.capture.live_postgresql import LiveInPostgreSQL
    lines, status = capturing.answered(LiveInPostgreSQL(kept.words(check=True)))
    return [] if status == 0 else [f"a check says {lines[:5]}"]


def together_mistakes(server):
    """What is wrong with all views in one take: filled, over nights, with fewer views, and once it is let go."""
    with tempfile.TemporaryDirectory() as folder:
        kept = Kept(server, "shop_together", folder)
        kept.said(FOLDED + TABLES + BELOW)
        names, days = views_made(kept), list(DAYS.items())
        kept.carried(kept.again_taken(names))
        many, tables = warehouses(kept), kept.session.rows(MIRRORS)
        wrong = [] if many > 1 else ["all views have room in one warehouse"]
        wrong += [f"opened: {each}" for each in kept.differences()] + nights_mistakes(kept, dict(days[:2])) + checked_mistakes(kept)
        kept.carried(kept.again_taken(names[:FEW]))
        wrong += [] if warehouses(kept) == 1 else [f"{FEW} views have no room in one warehouse"]
        with redirect_stderr(StringIO()):
            kept.carried(kept.script(capture=True, changed=True, drop=True, open=True))
        wrong += [f"fewer: {each}" for each in kept.differences()] + nights_mistakes(kept, dict(days[2:]))
        for name in kept.taken:
            kept.session.rows(f'DROP VIEW wh."{name}"')
        kept.carried(kept.script(uncapture=True))
        kept.close()
    return wrong[:9], f"{len(names)} views in one take: {many} warehouses over {len(tables)} mirrors, over {len(days)} nights, and with fewer views"
