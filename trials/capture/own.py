"""Nights over tables of one's own in PostgreSQL, whose changes come by tables of changes: which rows are told where one is refused, and long texts."""

from trials.capture.application import unlike
from trials.capture.case import each_of
from trials.capture.long_texts import CATALOGUE as TEXTS_CATALOGUE
from trials.capture.refused import BASE, JOINED, KEPT, LAST, OVER_IT
from trials.ended import faults
from trials.tables.given_nights import lay, written

LISTED = "INSERT INTO sums SELECT i, CASE WHEN i % 2 = 0 THEN 'north' ELSE 'south' END, i * 10, i, i {one} FROM generate_series(1, 9) AS i;"
LARGE = ("(4, 'north', 40, 4, 4, -1), (4, 'north', 9223372036854775800, 4, 4, 1)", "(2, 'north', 20, 2, 2, -1), (2, 'north', 21, 2, 2, 1)")
# A catalogue's views, and what is told of a night by which a number leaves 64 bits.
REFUSED = {
    "a sum": (LAST, "refused range by_region: in the group (region north) from sums (id 4)"),
    "a sum with a view over it": (LAST + OVER_IT, "refused range by_region: in the group (region north) from sums (id 4)"),
    "a product that is kept": (KEPT, "refused range kept: sums (id 4)"),
    "a product over two tables": (JOINED, "refused range joined: in the group (region north) from sums (id 4), regions (region north)"),
    "a product that is kept, and summed": (KEPT + '[[view]]\nname = "all"\nover = ["kept"]\ngroup = []\ncount = "n"\nsum = [["all", "kept.double"]]\n',
                                           "refused range kept: sums (id 4)"),
}


class Own:
    """Tables of one's own by a catalogue, in a database, and what whview sql writes for them."""

    def __init__(self, live, catalogue, *more):
        self.database, self.path, self.more = live.database, lay(live.path / "own", catalogue), more
        self.database.fresh()

    def told(self, *words):
        """What a script of whview sql is told, or None."""
        made = written(*words, *self.more, self.path)
        return made.told if made.status else self.database.run(made.text)

    def refuses(self, word, *words):
        """What is told that has to be refused by a word, where it is something else."""
        told = self.told(*words)
        return [] if word in (told or "") else [f"{words} was told {told!r}"]


def refused_mistakes(live):
    """Nights and openings in which a number leaves 64 bits tell the group and the rows that did it, with counts in the tables and without."""
    return [f"{name}: {text}" for name, (views, word) in REFUSED.items() for plain in (("--plain", "*"), ()) for text in refused_mistakes_of(live, views, word, plain)]


def refused_mistakes_of(live, views, word, plain):
    own, one = Own(live, BASE + views, *plain), "" if plain else ", 1"
    wrong = faults(own.told("--create"))
    live.asked(LISTED.format(one=one) + f"INSERT INTO regions VALUES ('north', 2{one}), ('south', 3{one});")
    wrong += faults(own.told("--open"))
    live.asked(f'INSERT INTO "sums~changes" VALUES {", ".join(LARGE)};')
    wrong += own.refuses(word, "--night")
    live.asked('DELETE FROM "sums~changes"; UPDATE sums SET amount = 9223372036854775800 WHERE id = 4;')
    wrong += own.refuses(word, "--open")
    live.asked("UPDATE sums SET amount = 40 WHERE id = 4;")
    return wrong + faults(own.told("--open") or own.told("--night"))


# What is written, night by night: texts of 12,800 letters that no compression makes small, some alike but for the last one, and another one's digest.
LONG = "(SELECT string_agg(md5(i::text), '') FROM generate_series(1, 400) AS i)"
DIGESTED = f"(SELECT encode(sha256(convert_to({LONG}, 'UTF8')), 'hex'))"
TEXTS = (
    f"INSERT INTO \"notes~changes\" VALUES (1, 'a', 'here', 1), (2, 'b', 'there', 1), (3, 'a', 'here', 1), (4, {LONG}, 'here', 1), (5, {LONG} || 'y', {LONG}, 1);"
    f" INSERT INTO \"places~changes\" VALUES ('here', 'x', 1), ('there', 'y', 1), ({LONG}, {LONG} || 'town', 1);",
    f"INSERT INTO \"notes~changes\" VALUES (6, {LONG} || 'z', 'here', 2), (7, {DIGESTED}, 'here', 1), (1, 'a', 'here', -1); INSERT INTO \"places~changes\""
    f" VALUES ('here', {LONG} || 'second', 1);",
    f"INSERT INTO \"notes~changes\" VALUES (4, {LONG}, 'here', -1), (6, {LONG} || 'z', 'here', -1), (8, 'a', {LONG}, 1); INSERT INTO \"places~changes\" VALUES ('there', 'y', -1),"
    f" ({LONG}, {LONG} || 'town', -1), ({LONG}, {LONG} || 'towns', 1);",
)
# Of each view what the tables give, and what it has with its counts.
BY_HAND = {
    "placed": ("SELECT n.said, p.town FROM notes AS n JOIN places AS p ON p.place = n.place CROSS JOIN generate_series(1, n.\"#\" * p.\"#\")",
               'SELECT said, town, "#" FROM placed'),
    "by_said": ('SELECT said, sum("#"), sum(id * "#") FROM notes GROUP BY said', "SELECT said, n, ids, 1 FROM by_said"),
    "by_both": ('SELECT p.town, n.said, sum(n."#" * p."#") FROM notes AS n JOIN places AS p ON p.place = n.place GROUP BY 1, 2', "SELECT town, said, n, 1 FROM by_both"),
}


def texts_mistakes(live):
    """Texts longer than a row of an index in tables that --create makes: nights go on, and find them apart."""
    own = Own(live, TEXTS_CATALOGUE)
    wrong = faults(own.told("--create"), own.told("--open"))
    for number, said in enumerate(TEXTS, 1):
        live.asked(said)
        wrong += [f"night {number}: {told[:300]}" for told in faults(own.told("--night")) or unlike(live.database, BY_HAND)]
    return wrong + [f"opened: {told[:300]}" for told in faults(own.told("--open")) or unlike(live.database, BY_HAND)]


def read_mistakes(live):
    """A night looks the groups of a text up by the index over digests, and whoever asks for one by the other index: neither goes through the table."""
    own = Own(live, TEXTS_CATALOGUE)
    wrong = faults(own.told("--create"))
    live.asked("INSERT INTO notes SELECT i, 'said ' || i, 'place ' || i % 50, 1 FROM generate_series(1, 60000) AS i; INSERT INTO places SELECT 'place ' || i, 'town ' || i % 7, 1"
               " FROM generate_series(0, 49) AS i;")
    wrong += faults(own.told("--open"))
    live.asked("VACUUM ANALYZE;")
    scans = "SELECT coalesce(sum(seq_scan), 0) FROM pg_stat_user_tables WHERE relname IN ('by_said', 'by_both', 'notes');"
    live.asked("INSERT INTO \"notes~changes\" VALUES (7, 'said 7', 'place 7', -1), (7, 'said 8', 'place 7', 1); SELECT pg_stat_force_next_flush();")
    (before,) = live.asked(scans)
    wrong += faults(own.told("--night"))
    (after,) = live.asked(scans)
    wrong += [] if before == after else [f"a night goes through tables of texts: {after} times, and before {before}"]
    plan = " ".join(live.asked("EXPLAIN (COSTS OFF) SELECT n FROM by_said WHERE said = 'said 9';"))
    return wrong + ([] if "Index" in plan else [f"who asks for a text goes by {plan}"])


TRIED = {"rows that are refused": refused_mistakes, "long texts": texts_mistakes, "texts that are looked up": read_mistakes}


def mistakes(live):
    return [f"tables of one's own: {text}" for text in each_of(live, TRIED)]
