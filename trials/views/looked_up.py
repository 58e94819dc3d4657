"""The first, the least and the largest of groups with many values: a reader looks them up by an index, and reads no group whole."""

import tempfile

from trials.views.kept import Kept

ROWS, SENSORS, MOST_OF_A_GROUP = 12_000, 20, 20
TABLES = f"""
CREATE TABLE readings (id bigint PRIMARY KEY, sensor int NOT NULL, place text, at timestamp, value float8, note text);
INSERT INTO readings SELECT i, i % {SENSORS}, CASE WHEN i % {SENSORS} = 0 THEN NULL ELSE repeat('place ', i % {SENSORS}) END,
  CASE WHEN i % 97 = 5 THEN NULL ELSE timestamp '2026-01-01' + (i::bigint * 7919 % {ROWS}) * interval '13 seconds' END, (i::bigint * 104729 % 100003) / 7.0 - 5000, 'n' || i % 5
  FROM generate_series(1, {ROWS}) AS i;
"""
VIEWS = {
    "latest": "SELECT DISTINCT ON (sensor) sensor, at, id, value FROM readings ORDER BY sensor, at DESC NULLS LAST, id",
    "latest_place": "SELECT DISTINCT ON (place) place, at, id, note FROM readings WHERE note <> 'n3' ORDER BY place, at DESC, id DESC",
    "first_place": "SELECT DISTINCT ON (place) place, at, value FROM readings ORDER BY place, at, note, id",
    "extremes": "SELECT sensor, min(at) AS first, max(at) AS last, min(value) AS a, max(value) FILTER (WHERE note = 'n1') AS b FROM readings GROUP BY sensor",
    "extremes_place": "SELECT place, min(at) AS first, max(value) AS b FROM readings GROUP BY place",
    "latest_value": "SELECT place, (array_agg(value ORDER BY at DESC NULLS LAST, id))[1] AS last FROM readings GROUP BY place",
    "all_of_them": "SELECT min(at) AS a, max(at) AS b, max(value) AS c FROM readings",
}
DAYS = (
    "DELETE FROM readings WHERE (at, id) IN (SELECT max(at), max(id) FROM readings GROUP BY sensor); DELETE FROM readings WHERE value > 9000;",
    "DELETE FROM readings WHERE sensor = 3; UPDATE readings SET at = NULL WHERE at > '2026-01-06'; UPDATE readings SET value = 'NaN' WHERE id % 4000 = 1;",
    "DELETE FROM readings WHERE sensor > 11; INSERT INTO readings VALUES (0, 5, 'new', '2020-01-01', '-infinity', 'n1');",
)


def scanned(plan):
    """How many rows the scans of a plan have read, also those that they left out."""
    many = (plan["Actual Rows"] + plan.get("Rows Removed by Filter", 0)) * plan["Actual Loops"] if "Relation Name" in plan else 0
    return many + sum(map(scanned, plan.get("Plans", ())))


def rows_read(kept, view):
    """How many rows of what is kept a reader of a view reads."""
    return scanned(kept.session.rows(f"EXPLAIN (ANALYZE, FORMAT JSON) SELECT * FROM wh.{view}")[0][0][0]["Plan"])


def looked_up_mistakes(server):
    """What is wrong with such views, and how many rows of each group readers look at."""
    with tempfile.TemporaryDirectory() as folder:
        kept, most = Kept(server, "readings", folder), 0
        kept.said(TABLES)
        for name, query in VIEWS.items():
            kept.session.rows(f"CREATE VIEW {name} AS {query}")
        wrong = [f"{name} is refused: {why}" for name, why in kept.refused(list(VIEWS)).items()]
        for statements in ("", *DAYS):
            if statements:
                kept.said(statements)
                kept.night()
            wrong += kept.differences()
            read = {view: rows_read(kept, view) for view in VIEWS}
            most = max(most, *read.values())
            wrong += [f"{view} reads {many} rows of {SENSORS} groups" for view, many in read.items() if many > SENSORS * MOST_OF_A_GROUP]
        kept.close()
    return wrong, f"{len(VIEWS)} views of the first of groups with {ROWS // SENSORS} rows each: at most {most} rows read of {ROWS}"
