"""What somebody plants under the name of a type that stood in a view of his: no writer and no night calls it with the rights of whoever took the view."""

import tempfile
from contextlib import redirect_stderr
from io import StringIO

from trials.servers.postgresql import Broken
from trials.views.kept import Kept
from whview.views import take

# A type whose name gets another meaning once views with its values are taken; the label is one that a row type reads, too.
TABLES = """
CREATE TYPE colour AS ENUM ('(1)', 'red');
CREATE TABLE things (id int PRIMARY KEY, colour colour, many int);
INSERT INTO things SELECT i, CASE WHEN i % 3 = 0 THEN '(1)' ELSE 'red' END::colour, i FROM generate_series(1, 9) AS i;
CREATE TABLE called (by_whom text);
CREATE FUNCTION noted() RETURNS bool LANGUAGE plpgsql SECURITY INVOKER AS $$ BEGIN INSERT INTO public.called VALUES (current_user); RETURN TRUE; END $$;
"""
VIEWS = {
    "firsts": "SELECT count(*) AS n, sum(many) AS many FROM things WHERE colour = '(1)'",
    "by_colour": "SELECT colour, count(*) FILTER (WHERE colour IN ('red', '(1)')) AS n FROM things GROUP BY colour",
    "named": "SELECT id, coalesce(colour, 'red') AS colour FROM things",
}
PLANTED = {
    "a domain": "ALTER TYPE colour RENAME TO hidden; CREATE DOMAIN colour AS hidden CHECK (noted());",
    "a row type": "ALTER TYPE colour RENAME TO hidden; CREATE DOMAIN checked AS int CHECK (noted()); CREATE TYPE colour AS (one checked);",
}
WRITES = "INSERT INTO things VALUES (10, '(1)', 10); UPDATE things SET many = many + 1 WHERE id < 4; DELETE FROM things WHERE id = 5;"


def planted_mistakes(server):
    """Who called what was planted."""
    wrong = []
    for what, statements in PLANTED.items():
        with tempfile.TemporaryDirectory() as folder:
            kept = Kept(server, "planted", folder)
            kept.said(TABLES + "".join(f"CREATE VIEW {name} AS {query};" for name, query in VIEWS.items()))
            kept.taken = list(VIEWS)
            with redirect_stderr(StringIO()):
                kept.carried(take.taken(kept.words(views=",".join(VIEWS), role="whview")))
            wrong += kept.differences()
            kept.said(statements)
            for written in WRITES.split(";")[:-1]:
                kept.said(written)
            try:
                kept.night()
            except Broken as fault:
                wrong += [] if "run whview sql capture" in fault.told or "captured" in fault.told else [f"{what}: {fault.told[:300]}"]
            wrong += [f"{what} was called by {whom}" for whom, in kept.session.rows("SELECT DISTINCT by_whom FROM called")]
            wrong += [f"{what}: {each}" for each in kept.differences()]
            kept.close()
    return wrong, f"{len(PLANTED)} types planted under the name of one that {len(VIEWS)} views have values of"
