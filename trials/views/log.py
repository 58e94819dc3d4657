"""Views whose tables are captured from the server's log: what is kept is computed from what the log tells of a row."""

import os
import tempfile
from contextlib import redirect_stderr
from io import StringIO
from unittest import mock

from trials.servers.postgresql import Server
from trials.views.cases import BELOW, FOLDED, TAKEN
from trials.views.kept import Kept
from trials.views.shop import DAYS, TABLES
from whview.sql.tokens import Unfit
from whview.views import take

# Beside the cases of all constructs: values that are long, and stay as they were while their row changes; types whose texts settings change.
MORE = {
    "long_values": "SELECT id, length(said) AS letters, left(said, 3) AS first, md5(raw::text) AS sum, note ->> 'k' AS k FROM letters",
    "by_kind": "SELECT said LIKE 'b%' AS is_b, count(*) AS n, max(sent) AS last, sum(length(said)) AS letters FROM letters GROUP BY 1",
    "times": "SELECT id, waited, sent, speed, small, tags, flag FROM letters",
}
LETTERS = """
CREATE TABLE letters (id int PRIMARY KEY, said text, raw bytea, note jsonb, waited interval, sent timestamptz, speed float8, small real, tags text[], "char" "char", flag boolean);
ALTER TABLE letters ALTER COLUMN said SET STORAGE EXTERNAL, ALTER COLUMN raw SET STORAGE EXTERNAL, ALTER COLUMN note SET STORAGE EXTERNAL;
INSERT INTO letters SELECT i, repeat(chr(97 + i % 3), 3000 * (i % 3) + 1), decode(md5(i::text) || repeat('ab', 3000), 'hex'), jsonb_build_object('k', i, 'v', repeat('w', 4000)),
  i * interval '-1 mon 2 days 3.5 seconds', timestamptz '2026-03-28 22:00+00' + i * interval '1 hour', i / 7.0, i / 3.0,
  ARRAY['a]:', 'b "c"', NULL], 'x', i % 2 = 0 FROM generate_series(1, 12) AS i;
"""
LETTERS_DAY = """
UPDATE letters SET waited = waited + interval '1 day', flag = NULL WHERE id % 2 = 0;
UPDATE letters SET said = 'b' || said, tags = NULL, speed = '-0' WHERE id = 4;
UPDATE letters SET note = note || '{"k": "n"}', small = 'NaN' WHERE id = 5;
DELETE FROM letters WHERE id = 6;
INSERT INTO letters (id, said, speed) VALUES (20, '', 'infinity'), (21, E'\\\\N', 1e-300), (22, NULL, NULL);
"""
STRANGE = {"bits": ("b bit(3)", "b::text"), "owned": ("b pair", "b IS NULL"), "labels": ("b mood", "b")}
SETTINGS = "ALTER DATABASE shop_log SET {each}"


class Logged(Server):
    """A server whose log tells what was written."""

    settings = Server.settings + " -c wal_level=logical -c max_replication_slots=3"


def taken(kept, views):
    """The script that takes views from the log."""
    kept.taken = list(views)
    with redirect_stderr(StringIO()):
        return take.taken(kept.words(views=",".join(views), from_log=True, role="whview"))


def views_made(kept):
    """Makes one view of each construct that reads no enumeration, and those of letters, and answers their names."""
    plain = {construct: [each for each in queries if "mood" not in each] for construct, queries in TAKEN.items()}
    queries = {"of_" + "".join(letter if letter.isalnum() else "_" for letter in construct.lower())[:40]: each[0] for construct, each in plain.items() if each}
    for name, query in {**queries, **MORE}.items():
        kept.session.rows(f"CREATE VIEW {name} AS {query}")
    return [*queries, *MORE]


def strange_mistakes(kept):
    """What is taken though the log does not tell its values."""
    wrong = []
    kept.session.rows("CREATE TYPE pair AS (a cents, b int)")
    for name, (column, said) in STRANGE.items():
        kept.said(f"CREATE TABLE {name} (id int PRIMARY KEY, {column}); CREATE VIEW of_{name} AS SELECT id, {said} AS s FROM {name};")
        try:
            taken(kept, [f"of_{name}"])
            wrong.append(f"{name} was taken from the log")
        except Unfit as fault:
            wrong += [] if "not read from the log" in str(fault) else [f"{name}: {fault}"]
    return wrong


def log_mistakes(programs):
    """What is wrong with views from the log, after opening and over nights."""
    with Logged(programs) as server, tempfile.TemporaryDirectory() as folder, mock.patch.dict(os.environ, {"PGHOST": str(server.folder)}):
        kept = Kept(server, "shop_log", f"{folder}/kept")
        kept.said(FOLDED + TABLES + BELOW + LETTERS)
        for each in ("intervalstyle = sql_standard", "extra_float_digits = -9", "bytea_output = escape", "datestyle = german"):
            kept.session.rows(SETTINGS.format(each=each))
        names = views_made(kept)
        kept.carried(taken(kept, names))
        wrong = [f"opened: {each}" for each in kept.differences()]
        for day, statements in {"letters": LETTERS_DAY, **DAYS}.items():
            kept.said(statements)
            kept.night()
            wrong += [f"{day}: {each}" for each in kept.differences()]
        wrong += strange_mistakes(kept)
        kept.session.close()
    return wrong, f"{len(names)} views captured from the log, over {1 + len(DAYS)} nights"
