"""Texts of ten thousand letters in captured, grouped and joined columns: nights go on, and tell texts apart that differ at their ends alone."""

from trials.capture.application import stored, unlike
from trials.ended import faults
from trials.tables.given_nights import lay
from whview.catalogue.from_bundle import views_of

# What no compression makes small, and such texts that are alike but for the last letter; and a text that is another one's digest.
LONG = {"postgresql": "(SELECT string_agg(md5(i::text), '') FROM generate_series(1, 400) AS i)",
        "sqlite": "(WITH RECURSIVE n (i) AS (SELECT 1 UNION ALL SELECT i + 1 FROM n WHERE i < 800) SELECT group_concat(i * 7919 * i * i, '') FROM n)"}
DIGEST = {"postgresql": "(SELECT encode(sha256(convert_to(said, 'UTF8')), 'hex') FROM notes WHERE id = 4 LIMIT 1)", "sqlite": "'a digest'"}
MADE = (
    "CREATE TABLE notes (id int NOT NULL, said text NOT NULL, place text NOT NULL); CREATE TABLE places (place text NOT NULL, town text NOT NULL);"
    " INSERT INTO notes VALUES (1, 'a', 'here'), (2, 'b', 'there'), (2, 'b', 'there'), (3, 'a', 'here'); INSERT INTO places VALUES ('here', 'x'), ('there', 'y');"
)
CATALOGUE = """
[[view]]
name = "notes"
columns = ["id", "said:text", "place:text"]
[[view]]
name = "places"
columns = ["place:text", "town:text"]
[[view]]
name = "placed"
over = ["notes", "places"]
join = [["notes.place", "places.place"]]
keep = [["said", "notes.said"], ["town", "places.town"]]
[[view]]
name = "by_said"
over = ["notes"]
group = [["said", "notes.said"]]
count = "n"
sum = [["ids", "notes.id"]]
[[view]]
name = "by_both"
over = ["placed"]
group = [["town", "placed.town"], ["said", "placed.said"]]
count = "n"
"""
WRITTEN = (
    "INSERT INTO notes VALUES (4, {long}, 'here'); INSERT INTO notes VALUES (5, {long} || 'y', 'there'), (5, {long} || 'z', 'there'), (5, {long} || 'z', 'there');",
    "INSERT INTO notes SELECT 6, {digest}, 'here'; INSERT INTO places VALUES ({long}, {long} || 'town'); UPDATE notes SET place = {long} WHERE id = 5 AND said = {long} || 'z';",
    "UPDATE notes SET said = said || 'more' WHERE id = 4; INSERT INTO notes VALUES (7, {long} || 'z', {long}), (8, 'short', {long}); DELETE FROM notes WHERE id = 6;",
    "UPDATE places SET town = 'z' WHERE place = {long}; DELETE FROM notes WHERE id = 5; INSERT INTO notes VALUES (9, {backslashes}, 'here'), (9, {long} || {backslashes}, 'here');",
    "DELETE FROM notes WHERE id > 3; DELETE FROM places WHERE place = {long};",
)
COUNTED = ("notes", "places", "placed")
EXPECTED = {
    "notes": "SELECT id, said, place FROM notes", "places": "SELECT place, town FROM places",
    "placed": "SELECT n.said, p.town FROM notes AS n JOIN places AS p ON p.place = n.place",
    "by_said": "SELECT said, count(*) AS n, sum(id) AS ids FROM notes GROUP BY said",
    "by_both": "SELECT p.town, n.said, count(*) AS n FROM notes AS n JOIN places AS p ON p.place = n.place GROUP BY 1, 2",
}
BACKSLASHES = {"postgresql": r"repeat('\\x5c\\', 30)", "sqlite": r"'\\x5c\\'"}


def mistakes(live):
    """What nights leave of such texts otherwise than the tables give."""
    path, parts = lay(live.path / "long texts", CATALOGUE), {"long": LONG[live.engine], "digest": DIGEST[live.engine], "backslashes": BACKSLASHES[live.engine]}
    views = {view.name: (EXPECTED[view.name], stored(live.database, view.name, [column for column, _ in view.columns], view.name in COUNTED))
             for view in views_of(CATALOGUE)}
    live.database.fresh()
    live.database.make([MADE])
    wrong = faults(live.opened(path=path))
    for number, text in enumerate(WRITTEN, 1):
        live.asked(text.format(**parts))
        wrong += [f"night {number}: {told[:300]}" for told in faults(live.run("--live", path=path)) or unlike(live.database, views)]
    return wrong + [f"opened: {told[:300]}" for told in faults(live.run("--live", "--open", path=path)) or unlike(live.database, views)]
