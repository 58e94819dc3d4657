"""Views over values at the edges of their types: what is taken has to be what the database computes, row by row, and what is not taken has
its reason in the words of what stands there."""

from typing import NamedTuple

from trials.capture import proposals

TABLES = {
    "postgresql": [
        "CREATE TABLE rates (id int PRIMARY KEY, amount numeric(18,6) NOT NULL, rate numeric(18,6) NOT NULL, large bigint NOT NULL,"
        " units numeric(18,0) NOT NULL, few int NOT NULL, price numeric(10,2), is_cheap boolean GENERATED ALWAYS AS (price < 5) STORED);",
        "CREATE TABLE others (id int PRIMARY KEY, amount numeric(18,6) NOT NULL, units numeric(18,0));",
    ],
    "sqlite": [
        "CREATE TABLE rates (id INTEGER PRIMARY KEY, amount DECIMAL(15,6) NOT NULL, rate DECIMAL(15,6) NOT NULL, large BIGINT NOT NULL,"
        " units NUMERIC(15,0) NOT NULL, few INT NOT NULL, price DECIMAL(10,2), is_cheap BOOLEAN GENERATED ALWAYS AS (price < 5) STORED);",
        "CREATE TABLE others (id INTEGER PRIMARY KEY, amount DECIMAL(15,6) NOT NULL, units NUMERIC(15,0));",
    ],
}
# The largest numbers of these columns, and others round the place where a product or a scaled number leaves 64 bits.
LARGEST = {"postgresql": ("999999999999.999999", "999999999999999999"), "sqlite": ("999999999.999999", "999999999999999")}
ROWS = (
    "INSERT INTO rates VALUES (1, {amount}, {amount}, 9223372036854775807, {units}, 2147483647, 99999999.99), (2, -{amount}, {amount}, -9223372036854775807, -{units},"
    " -2147483647, -99999999.99), (3, 0, {amount}, 0, 0, 0, 0), (4, 1.5, 2, 1, 1, 1, 1.5), (5, 3037.000499, 3037.0005, 2, 9223372036854, 2, NULL),"
    " (6, 3037.000500, 3037.0005, 3, 9223372036855, 3, 0.01), (7, 1000000, 1.000001, -1, -1, -1, 2), (8, -3037000.5, -3037000.5, 9223372036854775, 5, 100, 7.5),"
    " (9, 5.000001, 0.000001, 5, 5, 5, 5), (10, 9223372.036854, 1000000, 9223372036854, 9223372036854, 6, 4.99);",
    "INSERT INTO others VALUES (1, 1.5, 2), (2, {amount}, {units}), (3, -{amount}, -{units}), (4, 0, NULL), (5, 5.000001, 5), (8, 2, 5), (9, 0.5, 9223372036854);",
)
LATER = (
    "UPDATE rates SET amount = -amount WHERE id IN (1, 8, 10); UPDATE rates SET large = -large, few = -few; DELETE FROM rates WHERE id = 3;",
    "UPDATE rates SET amount = rate, rate = 0.000001 WHERE id < 6; INSERT INTO rates VALUES (20, {amount}, -{amount}, 2, 6, 7, 8);"
    " UPDATE rates SET units = 6 WHERE id = 9; UPDATE others SET amount = amount - 1, units = 6 WHERE id > 3;",
)
# Comparisons beyond 64 bits, each with the word of the reason for which it is not taken, or none where it is.
BOTH = {
    "small": ("SELECT r.id FROM rates AS r WHERE r.large > 1.5", ""),
    "small_turned": ("SELECT r.id FROM rates AS r WHERE 1.5 > r.large", ""),
    "even": ("SELECT r.id FROM rates AS r WHERE r.large = 1.5 OR r.large <> 2.5 AND r.units <= 0.5", ""),
    "not_below": ("SELECT r.id FROM rates AS r WHERE NOT r.large < -1.5", ""),
    "finer": ("SELECT r.id FROM rates AS r WHERE r.price > 4.9876 AND r.price <= 99999999.98999", ""),
    "finer_or_null": ("SELECT r.id FROM rates AS r WHERE NOT r.price <> 4.990001 OR r.price <> 7.500001", ""),
    "among": ("SELECT r.id FROM rates AS r WHERE r.large BETWEEN -0.5 AND 3.5 AND r.few NOT IN (1.5, 2)", ""),
    "unlike": ("SELECT r.id FROM rates AS r WHERE r.price IS DISTINCT FROM 1.5 AND r.price IS DISTINCT FROM 4.999", ""),
    "alike": ("SELECT r.id, o.id AS other FROM rates AS r, others AS o WHERE r.units IS NOT DISTINCT FROM o.units OR NOT r.price IS DISTINCT FROM 7.5", ""),
    "generated": ("SELECT r.id FROM rates AS r WHERE r.is_cheap", ""),
    "scales": ("SELECT r.id FROM rates AS r WHERE r.units > r.amount", ""),
    "scales_equal": ("SELECT r.id FROM rates AS r WHERE r.units = r.amount OR r.amount <= r.large", ""),
    "scales_not": ("SELECT r.id FROM rates AS r WHERE NOT r.large > r.amount AND r.units <> r.amount", ""),
    "scales_across": ("SELECT r.id, o.id AS other FROM rates AS r, others AS o WHERE r.id = o.id AND r.large >= o.amount AND o.units < r.amount", ""),
    "joined_by_scales": ("SELECT r.id, o.id AS other FROM rates AS r JOIN others AS o ON r.units = o.amount", ""),
}
OWN = {
    "postgresql": {
        "product": ("SELECT r.id FROM rates AS r WHERE r.amount * r.rate > 1000000", ""),
        "product_below": ("SELECT r.id FROM rates AS r WHERE r.amount * r.rate < -1000000 OR r.amount * r.rate = 1000001", ""),
        "product_not": ("SELECT r.id FROM rates AS r WHERE NOT (r.amount * r.rate <= 1000000 OR r.rate * r.amount = 9)", ""),
        "product_unlike": ("SELECT r.id FROM rates AS r WHERE r.amount * r.rate <> 3 AND -1 * (r.amount * r.rate) < 5", ""),
        "product_and_column": ("SELECT r.id FROM rates AS r WHERE r.units * r.few >= r.large OR r.large <> r.units * r.few * -2", ""),
        "scaled_column": ("SELECT r.id FROM rates AS r WHERE r.few > r.amount * 1000000 AND r.price * 100000 < r.amount", ""),
        "product_of_sum": ("SELECT r.id FROM rates AS r WHERE (r.few - 1) * r.amount > 7", ""),
        "added": ("SELECT r.id FROM rates AS r WHERE r.amount * r.rate - 1 > 20 AND r.amount + r.units > 5 OR r.few - r.units * r.few < 9", ""),
        "product_across": ("SELECT r.id FROM rates AS r JOIN others AS o ON o.id = r.id WHERE r.rate * o.units > 7", ""),
        "two_products": ("SELECT r.id FROM rates AS r WHERE r.amount * r.rate > r.large * r.few", "may not hold"),
        "product_and_decimals": ("SELECT r.id FROM rates AS r WHERE r.amount * r.rate >= r.price", "make a view that keeps rates.amount * rates.rate"),
        "three_factors": ("SELECT r.id FROM rates AS r WHERE r.amount * r.rate * r.units > 5", "make a view that keeps"),
    },
    "sqlite": {
        "product": ("SELECT r.id FROM rates AS r WHERE r.large * r.few > 1000000", ""),
        "product_not": ("SELECT r.id FROM rates AS r WHERE NOT (r.large * r.few <= 10 OR r.few * 3 = 6)", ""),
        "in_floating_point": ("SELECT r.id FROM rates AS r WHERE r.amount * r.rate > 1000000", "floating point"),
        "kept_product": ("SELECT r.id, r.price * r.few AS cost FROM rates AS r WHERE r.price IS NOT NULL AND r.id < 20 AND r.id > 3", ""),
        "over_kept": ("SELECT k.id FROM kept_product AS k WHERE k.cost > 5", "floating point"),
        "group_of_kept": ("SELECT k.cost, count(*) AS many FROM kept_product AS k GROUP BY k.cost", "floating point"),
    },
}


# What is said of views that are not taken, by the word of it.
NAMED_TABLES = {
    "postgresql": ["CREATE TABLE kinds (id int PRIMARY KEY, day date NOT NULL, at timestamp NOT NULL, name text NOT NULL, data jsonb, ip inet, tags text[],"
                   " price numeric(10,2), flag boolean NOT NULL, share float8); CREATE TABLE heir () INHERITS (kinds);"],
    "sqlite": ["CREATE TABLE kinds (id INTEGER PRIMARY KEY, day DATE NOT NULL, at DATETIME NOT NULL, name TEXT NOT NULL, data TEXT, price DECIMAL(10,2),"
               " flag BOOLEAN NOT NULL, share REAL);"],
}
NAMED_BOTH = {
    "liked": ("SELECT k.id FROM kinds AS k WHERE k.name LIKE 'a%'", "it has LIKE: let the application fill a column"),
    "not_liked": ("SELECT k.id FROM kinds AS k WHERE k.name NOT LIKE 'a%'", "LIKE: let the application fill a column"),
    "distinct_of_sum": ("SELECT k.id FROM kinds AS k WHERE k.price + 1 IS DISTINCT FROM k.id", "it asks IS DISTINCT FROM of what may be NULL"),
    "today": ("SELECT k.id FROM kinds AS k WHERE k.day >= CURRENT_DATE", "it has CURRENT_DATE, which changes while no row does"),
    "in_json": ("SELECT k.id FROM kinds AS k WHERE k.data ->> 'x' = 'y'", "it has the operator ->>, which looks into JSON"),
    "shares": ("SELECT k.id, k.share FROM kinds AS k", "share is of the type "),
    "parts": ("SELECT k.id, k.id / 2 AS half FROM kinds AS k", "it has the operator /: let the application fill a column"),
}
NAMED = {
    "postgresql": {
        **NAMED_BOTH,
        "in_case": ("SELECT k.id FROM kinds AS k WHERE k.name ILIKE 'a%'", "it has ILIKE"),
        "patterns": ("SELECT k.id FROM kinds AS k WHERE k.name !~ '^a'", "the operator !~, which looks for a pattern"),
        "json_kept": ("SELECT k.id, k.data FROM kinds AS k", "its column data is of the type jsonb"),
        "json_held": ("SELECT k.id FROM kinds AS k WHERE k.data @> '{}'", "it has the operator @>"),
        "of_net": ("SELECT k.id FROM kinds AS k WHERE k.ip << '10.0.0.0/8'", "it has the operator <<"),
        "of_address": ("SELECT k.id FROM kinds AS k WHERE k.ip = '10.0.0.1'", "its column ip is of the type inet"),
        "any_tag": ("SELECT k.id FROM kinds AS k WHERE 'x' = ANY (k.tags)", "the members of an array that is no list of values"),
        "first_tag": ("SELECT k.id, k.tags[1] AS tag FROM kinds AS k", "it takes a part of an array"),
        "array_made": ("SELECT k.id, ARRAY[k.id, 2] AS both FROM kinds AS k", "it makes an array"),
        "only_itself": ("SELECT k.id FROM ONLY kinds AS k", "it is over ONLY kinds"),
        "count_cast": ("SELECT k.flag, count(*)::int AS many FROM kinds AS k GROUP BY k.flag", "it casts count(*) to integer: leave the cast out"),
        "all_cast": ("SELECT sum(k.id)::int AS many FROM kinds AS k", "it casts sum(..) to integer: leave the cast out"),
        "whole_second": ("SELECT k.id, k.at::timestamp(0) AS at FROM kinds AS k", "it casts to timestamp(0) without time zone"),
        "of_zone": ("SELECT k.id, k.at AT TIME ZONE 'UTC' AS at FROM kinds AS k", "it has AT TIME ZONE"),
        "is_true": ("SELECT k.id FROM kinds AS k WHERE k.flag IS TRUE", "it has IS TRUE"),
        "collated": ("""SELECT k.id FROM kinds AS k WHERE k.name COLLATE "C" = 'x'""", "it has COLLATE"),
        "next_day": ("SELECT k.id, k.at + INTERVAL '1 day' AS at FROM kinds AS k", "it has an INTERVAL"),
        "rolled_up": ("SELECT k.flag, count(*) AS many FROM kinds AS k GROUP BY ROLLUP (k.flag)", "it groups by ROLLUP"),
        "locked": ("SELECT k.id FROM kinds AS k FOR UPDATE", "it locks what it reads by FOR"),
    },
    "sqlite": {
        **NAMED_BOTH,
        "globbed": ("SELECT k.id FROM kinds AS k WHERE k.name GLOB 'a*'", "it has the operator GLOB"),
        "is_three": ("SELECT k.id FROM kinds AS k WHERE k.price IS 3", "it has IS 3"),
        "cast_count": ("SELECT k.flag, CAST(count(*) AS INT) AS many FROM kinds AS k GROUP BY k.flag", "it has CAST"),
    },
}


# Days and moments of SQLite, each column in a form of its own, compared as the texts that they are.
EVENTS = {"sqlite": ["CREATE TABLE events (id INTEGER PRIMARY KEY, at DATETIME NOT NULL, zoned TIMESTAMP NOT NULL, parted DATETIME, fine DATETIME, counted DATETIME,"
                     " day DATE NOT NULL);"]}
EVENT = "INSERT INTO events VALUES ({id}, '2026-01-01 00:00:{s}', '2026-01-01T00:00:{s}Z', '2026-01-01T00:00:{s}', '2026-01-01T00:00:{s}.250Z', 1767225600 + {s}, '2026-01-{s}');"
EVENT_ROWS = tuple(EVENT.format(id=number, s=f"{number:02}") for number in range(1, 13))
EVENT_LATER = (
    "UPDATE events SET at = '2026-01-01 00:00:05.5', parted = NULL WHERE id = 4; UPDATE events SET zoned = '2025-12-31T23:59:59Z', day = '2025-12-31' WHERE id = 9;"
    " UPDATE events SET fine = '2026-01-01T00:00:05.000Z', counted = counted + 5 WHERE id < 4; DELETE FROM events WHERE id = 12;",
)
OF_EVENTS = {
    "from_five": ("SELECT e.id FROM events AS e WHERE e.at >= '2026-01-01 00:00:05'", ""),
    "before_five": ("SELECT e.id FROM events AS e WHERE e.at < '2026-01-01 00:00:05' AND e.parted >= '2026-01-01T00:00:02'", ""),
    "zoned_from": ("SELECT e.id FROM events AS e WHERE e.zoned >= '2026-01-01T00:00:05Z'", ""),
    "fine_from": ("SELECT e.id FROM events AS e WHERE e.fine >= '2026-01-01T00:00:05.000Z' OR e.day < '2026-01-04'", ""),
    "counted_from": ("SELECT e.id FROM events AS e WHERE e.counted > 1767225605", ""),
    "counted_groups": ("SELECT e.counted, count(*) AS many FROM events AS e WHERE e.counted IS NOT NULL GROUP BY e.counted", ""),
    "other_form": ("SELECT e.id FROM events AS e WHERE e.zoned >= '2026-01-01 00:00:05'", "not written as a moment written as 0000-00-00T00:00:00Z"),
    "day_of_moment": ("SELECT e.id FROM events AS e WHERE e.at >= '2026-01-01'", "is not written as a moment"),
    "two_forms": ("SELECT e.id FROM events AS e WHERE e.zoned >= e.at", "it compares a moment"),
    "counted_day": ("SELECT e.id FROM events AS e WHERE e.counted >= '2026-01-01 00:00:05'", "which is no number"),
}


# What is no number comes after all numbers, and equals itself.
MARKS = {"postgresql": ["CREATE TABLE marks (id int PRIMARY KEY, price numeric(10,2) NOT NULL, other numeric(10,2));",
                        "CREATE VIEW marks_again AS SELECT m.id, m.price FROM marks AS m WHERE m.price >= 100;"]}
MARK_ROWS = ("INSERT INTO marks VALUES (1, 100, 99.99), (2, 100.01, 100.01), (3, 'NaN', 'NaN'), (4, 99999999.99, 'NaN'), (5, -1, NULL), (6, 100, NULL);",)
MARK_LATER = ("UPDATE marks SET price = 'NaN' WHERE id = 1; UPDATE marks SET other = 'NaN' WHERE id > 4;", "UPDATE marks SET price = 100.01 WHERE id = 3;")
OF_MARKS = {
    "above": ("SELECT m.id FROM marks AS m WHERE m.price > 100.001", ""),
    "not_above": ("SELECT m.id FROM marks AS m WHERE NOT m.price > 100.001 OR m.price <= m.other", ""),
    "like_other": ("SELECT m.id FROM marks AS m WHERE m.price = m.other OR m.other < 99.999", ""),
    "unlike_other": ("SELECT m.id FROM marks AS m WHERE m.other IS DISTINCT FROM m.price AND m.price <> 100.000001", ""),
    "each_price": ("SELECT a.id, b.id AS other FROM marks AS a JOIN marks_again AS b ON a.price = b.price", ""),
}


def largest(live, texts):
    """Texts with the largest numbers of the columns in them."""
    return [text.format(**dict(zip(("amount", "units"), LARGEST[live.engine]))) for text in texts]


class Sort(NamedTuple):
    """A sort of views over tables, of one engine or both: what makes the tables, their rows, the views, and what is written later."""

    tables: dict
    rows: tuple
    views: dict
    later: tuple


# Reasons that name what stands in a view; days and moments in the forms that SQLite lets them have; what is no number, where it is compared; comparisons
# and products past 64 bits.
SORTS = (
    Sort(NAMED_TABLES, (), NAMED, ()), Sort(EVENTS, EVENT_ROWS, {"sqlite": OF_EVENTS}, EVENT_LATER), Sort(MARKS, MARK_ROWS, {"postgresql": OF_MARKS}, MARK_LATER),
    Sort(TABLES, ROWS, {engine: {**BOTH, **own} for engine, own in OWN.items()}, LATER),
)


def mistakes_of(live, sort):
    """What the catalogue of these views takes otherwise than it should, and what nights over it leave otherwise than the database computes."""
    live.database.fresh()
    rows, later = (largest(live, texts) if sort.tables is TABLES else texts for texts in (sort.rows, sort.later))
    return proposals.proposed(live, sort.views[live.engine], [*sort.tables[live.engine], *rows], later)


def mistakes(live):
    return [f"{live.engine}: values: {text}"[:900] for sort in SORTS if live.engine in sort.tables for text in mistakes_of(live, sort)]
