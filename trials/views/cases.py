"""Views as people write them, by construct: each is taken and right after each night, or refused for a reason."""

TAKEN = {
    "row expressions": [
        "SELECT id, upper(name) AS big, CASE WHEN city IS NULL THEN 'none' ELSE city END AS where_, score * 2 AS twice, left(name, 3) AS short FROM customers",
        "SELECT lower(product) AS p, coalesce(note, '-') AS note, qty::numeric / 3 AS third, note LIKE '\\\\%' AS is_slash FROM lines",
        "SELECT extra ->> 'k' AS k, tags[1] AS t, mood::text || '!' AS m, code || '|' AS c FROM customers",
        "SELECT date_trunc('month', created) AS month, extract(dow FROM created) AS dow, created::date AS day FROM orders",
        "SELECT id, total BETWEEN 3 AND 9 AS is_between, state IN ('open', 'paid') AS is_some, nullif(state, 'open') AS s, greatest(total, 5) AS g FROM orders",
    ],
    "all types": [
        "SELECT id, born, score, mood, tags, extra, code, token, is_old, debt, address FROM customers",
        "SELECT id, customer, state, created, paid, total, wide, wait FROM orders",
        "SELECT mood, is_old, code, token, address, born, count(*) AS n FROM customers GROUP BY mood, is_old, code, token, address, born",
        "SELECT wide, count(*) AS n FROM orders GROUP BY wide",
        "SELECT wait, sum(wide) AS w, avg(wide) AS a FROM orders GROUP BY wait",
        "SELECT extra, tags, count(*) AS n FROM customers GROUP BY extra, tags",
        "SELECT id, speed, slow FROM odd",
        "SELECT speed, min(slow) AS a, max(slow) AS b, count(*) AS n FROM odd GROUP BY speed",
        'SELECT "Order", "user" || "a b" AS "both of", count(*) AS "select" FROM odd GROUP BY "Order", "user" || "a b"',
        'SELECT sum("Order") AS s, max("a b") AS "User", lower("user") AS u FROM odd AS r GROUP BY "user"',
    ],
    "filters": [
        "SELECT id, name FROM customers WHERE city LIKE 'City%' AND NOT (score > 5 OR mood = 'sad')",
        "SELECT product, count(*) AS n FROM lines WHERE qty > 1 AND (price < 5 OR note IS NULL) GROUP BY product",
        "SELECT id FROM orders WHERE created >= '2026-01-03' AND created < '2026-01-09' AND state IS DISTINCT FROM 'open'",
        "SELECT id FROM orders WHERE 100 / nullif(total, 0) > 20",
    ],
    "inner joins": [
        "SELECT o.id, c.name, c.city FROM orders AS o JOIN customers AS c ON c.id = o.customer",
        "SELECT c.city, l.product, sum(l.qty) AS q FROM customers AS c, orders AS o, lines AS l WHERE c.id = o.customer AND l.order_id = o.id GROUP BY c.city, l.product",
        "SELECT name, seconds FROM (SELECT id AS customer, name FROM customers) AS c JOIN visits USING (customer)",
        "SELECT o.id, l.product FROM orders AS o JOIN lines AS l ON l.order_id = o.id AND l.price > 2 AND o.state = 'open' AND l.qty < o.customer",
        "SELECT o.state, count(*) AS n FROM orders AS o JOIN lines AS l ON l.order_id = o.id AND l.qty < o.customer GROUP BY o.state",
        "SELECT l.small, c.id, count(*) AS n FROM lines AS l JOIN customers AS c ON c.id = l.small GROUP BY l.small, c.id",
        "SELECT a.id, b.product FROM orders AS a JOIN lines AS b ON a.state = b.product OR a.id = b.qty",
    ],
    "self-joins": [
        "SELECT a.name, b.name AS boss FROM customers AS a JOIN customers AS b ON b.id = a.boss",
        "SELECT a.city, count(*) AS pairs FROM customers AS a JOIN customers AS b ON a.city = b.city AND a.id < b.id GROUP BY a.city",
        "SELECT a.name, b.name AS boss, c.name AS top FROM customers AS a JOIN customers AS b ON b.id = a.boss JOIN customers AS c ON c.id = b.boss",
    ],
    "counts, sums, averages": [
        "SELECT customer, state, count(*) AS n, count(total) AS there, sum(total) AS total, avg(total) AS mean FROM orders GROUP BY customer, state",
        "SELECT product, sum(qty) AS q, avg(qty) AS a, sum(small) AS s, sum(qty * price) AS worth, avg(qty * price - 1) AS w FROM lines GROUP BY product",
        "SELECT count(*) AS n, sum(qty) AS q, avg(price) AS p, count(note) AS notes, max(price) AS most FROM lines",
        "SELECT sum(id) AS ids, avg(id) AS mean, sum(debt) AS debt FROM customers",
        "SELECT c.city, sum(l.qty * l.price * c.id) AS s, sum(l.qty + c.id) AS t FROM customers AS c JOIN orders AS o ON o.customer = c.id JOIN lines AS l"
        " ON l.order_id = o.id GROUP BY c.city",
        "SELECT city, sum(score) AS s, avg(score) AS a, stddev(id) AS d FROM customers GROUP BY city",
    ],
    "expressions in GROUP BY": [
        "SELECT date_trunc('day', created) AS day, lower(state) AS state, count(*) AS n FROM orders GROUP BY 1, 2",
        "SELECT CASE WHEN qty > 2 THEN 'many' ELSE 'few' END AS k, count(*) AS n, sum(price) AS p FROM lines GROUP BY 1",
        "SELECT coalesce(o.state, c.city) AS k, count(*) AS n FROM orders AS o JOIN customers AS c ON c.id = o.customer GROUP BY coalesce(o.state, c.city)",
        "SELECT id / 10 * 10 AS tens, count(*) AS n FROM orders GROUP BY id / 10 * 10",
        "SELECT c.id, c.name, c.extra, count(*) AS n FROM customers AS c JOIN orders AS o ON o.customer = c.id GROUP BY c.id",
        "SELECT (created AT TIME ZONE 'UTC')::date AS day, count(*) AS n FROM orders GROUP BY 1",
    ],
    "FILTER, CASE, truth": [
        "SELECT state, count(*) FILTER (WHERE total > 10) AS dear, sum(total) FILTER (WHERE total > 10) AS s, avg(total) FILTER (WHERE customer > 3)"
        " AS a FROM orders GROUP BY state",
        "SELECT c.city, count(*) FILTER (WHERE o.total > 5 AND c.id > 2) AS n, sum(CASE WHEN o.state = 'open' OR c.score > 3 THEN o.total ELSE 0 END) AS s FROM customers AS c"
        " JOIN orders AS o ON o.customer = c.id GROUP BY c.city",
        "SELECT state, bool_and(total > 5) AS b, bool_or(total IS NULL) AS o, every(customer > 2) AS e FROM orders GROUP BY state",
        "SELECT product, sum(CASE WHEN qty > 2 THEN price END) AS s, max(price) FILTER (WHERE qty > 2) AS m FROM lines GROUP BY product",
    ],
    "min, max": [
        "SELECT customer, min(created) AS first, max(created) AS last, min(state) AS s, max(total) AS t, min(wide) AS w FROM orders GROUP BY customer",
        "SELECT min(paid) AS a, max(paid) AS b, min(state) AS c, max(wait) AS d FROM orders",
        "SELECT product, max(qty) AS q, min(note) AS note FROM lines GROUP BY product",
        "SELECT max(born) AS b, min(born) AS a, max(mood) AS m, max(name) AS n FROM customers",
    ],
    "count(DISTINCT), sum(DISTINCT)": [
        "SELECT customer, count(DISTINCT state) AS s, count(DISTINCT total) AS t FROM orders GROUP BY customer",
        "SELECT count(DISTINCT product) AS p, sum(DISTINCT qty) AS q, count(DISTINCT wide) AS w FROM lines, (SELECT wide FROM orders) AS o",
        "SELECT c.city, count(DISTINCT o.state) AS n FROM customers AS c JOIN orders AS o ON o.customer = c.id GROUP BY c.city",
    ],
    "DISTINCT": [
        "SELECT DISTINCT city, mood FROM customers",
        "SELECT DISTINCT o.state, c.city FROM orders AS o JOIN customers AS c ON c.id = o.customer ORDER BY 1, 2",
        "SELECT DISTINCT wide FROM orders",
    ],
    "DISTINCT ON, first, latest": [
        "SELECT DISTINCT ON (customer) customer, id, state, created FROM orders ORDER BY customer, created DESC, id",
        "SELECT DISTINCT ON (c.city) c.city, o.id, o.total FROM customers AS c JOIN orders AS o ON o.customer = c.id ORDER BY c.city, o.created, o.id DESC",
        "SELECT customer, (array_agg(id ORDER BY created DESC, id))[1] AS last FROM orders GROUP BY customer",
        "SELECT product, string_agg(note, ',' ORDER BY note) AS notes, array_agg(DISTINCT qty) AS q FROM lines GROUP BY product",
    ],
    "the first by an index": [
        "SELECT DISTINCT ON (h.thing) h.thing, t.said, h.at + 1 AS later, h.value FROM hist AS h JOIN things AS t USING (thing) ORDER BY h.thing, h.at DESC, h.nth, h.value",
        "SELECT DISTINCT ON (thing, at) thing, at, nth, value FROM hist ORDER BY at DESC, thing, nth DESC LIMIT 7",
        "SELECT DISTINCT ON (h.thing) h.thing, c.name, h.value FROM hist AS h JOIN things AS t ON t.thing = h.thing AND t.owner = h.thing JOIN customers AS c ON c.id = t.owner"
        " WHERE t.said LIKE '%1' ORDER BY h.thing, h.at, h.nth DESC",
        "SELECT c.name, x.value FROM customers AS c LEFT JOIN (SELECT DISTINCT ON (thing) thing, value FROM hist ORDER BY thing, at DESC, nth) AS x ON x.thing = c.id",
        "SELECT DISTINCT ON (state) state, id, total FROM orders ORDER BY state, total, id",
        "SELECT DISTINCT ON (state) state, id, total FROM orders ORDER BY state DESC, total DESC, id DESC",
        "SELECT DISTINCT ON (state) state, id, total FROM orders ORDER BY state, total NULLS FIRST, id",
        "SELECT DISTINCT ON (state) state, id, total FROM orders ORDER BY state, total DESC NULLS LAST, id LIMIT 3",
        "SELECT DISTINCT ON (product, qty) product, qty, price, note, order_id FROM lines WHERE qty > 0 ORDER BY qty, product, price DESC, note, order_id, small",
        "SELECT DISTINCT ON (lower(c.city)) lower(c.city) AS city, o.created::date AS day, o.id, c.name FROM customers AS c JOIN orders AS o ON o.customer = c.id"
        " ORDER BY lower(c.city), o.created::date DESC, o.id",
        "SELECT DISTINCT ON (page) page, at, customer, seconds + 1 AS more FROM visits WHERE seconds > 3 ORDER BY page, at DESC, seconds, customer",
        "SELECT DISTINCT ON (\"user\") \"user\", speed, id FROM odd ORDER BY \"user\", speed DESC, id",
        "SELECT DISTINCT ON (\"user\") \"user\", slow, id FROM odd ORDER BY \"user\", slow, id",
        "SELECT \"user\", min(speed) AS a, max(speed) AS b, max(slow) FILTER (WHERE id > 2) AS c FROM odd GROUP BY \"user\"",
        "SELECT product, max(price) FILTER (WHERE note IS NULL) AS a, min(qty) FILTER (WHERE price > 3) AS b, max(qty) AS c FROM lines GROUP BY product",
        "SELECT state, (array_agg(id ORDER BY total DESC, id))[1] AS a, (array_agg(total ORDER BY total, id))[1] AS b, (array_agg(wide ORDER BY paid DESC NULLS LAST, id))[1]"
        " AS c, (array_agg(id ORDER BY total NULLS FIRST, id DESC))[1] AS d FROM orders GROUP BY state",
        "SELECT (array_agg(name ORDER BY born DESC, id))[1] AS youngest, max(born) AS b, (array_agg(tags ORDER BY id))[1] AS t FROM customers",
        "SELECT c.city, (array_agg(o.id ORDER BY o.created, o.id))[1] AS first FROM customers AS c JOIN orders AS o ON o.customer = c.id GROUP BY c.city",
        "SELECT c.name, x.id FROM customers AS c LEFT JOIN (SELECT DISTINCT ON (customer) customer, id FROM orders ORDER BY customer, created DESC, id) AS x ON x.customer = c.id",
        "SELECT p.product, max(l.price) AS m, min(l.qty) AS q FROM (SELECT DISTINCT product FROM lines) AS p LEFT JOIN lines AS l ON l.product = p.product GROUP BY p.product",
    ],
    "HAVING, ORDER BY, LIMIT, ratios": [
        "SELECT product, count(*) AS n FROM lines GROUP BY product HAVING count(*) > 20 AND sum(qty) > 10",
        "SELECT state, count(*) AS n, round(sum(total) / count(*), 1) AS mean FROM orders GROUP BY state ORDER BY count(*) DESC, state LIMIT 3",
        "SELECT id, total FROM orders ORDER BY total DESC NULLS LAST, id LIMIT 5 OFFSET 2",
        "SELECT product, 100.0 * count(*) / nullif(sum(qty), 0) AS ratio, to_char(sum(price), 'FM999990.00') AS shown FROM lines GROUP BY product",
    ],
    "windows": [
        "SELECT id, customer, row_number() OVER (PARTITION BY customer ORDER BY created, id) AS r, sum(total) OVER (PARTITION BY customer) AS t FROM orders",
        "SELECT state, count(*) AS n, count(*)::numeric / sum(count(*)) OVER () AS share, rank() OVER (ORDER BY count(*) DESC) AS r FROM orders GROUP BY state",
        "SELECT id, lag(total) OVER w AS before FROM orders WINDOW w AS (PARTITION BY customer ORDER BY created, id)",
    ],
    "GROUPING SETS, ROLLUP, CUBE": [
        "SELECT city, mood, count(*) AS n, grouping(city) AS g FROM customers GROUP BY ROLLUP (city, mood)",
        "SELECT c.city, o.state, sum(o.total) AS s FROM customers AS c JOIN orders AS o ON o.customer = c.id GROUP BY GROUPING SETS ((c.city), (o.state), ())",
        "SELECT product, qty, count(*) AS n FROM lines GROUP BY CUBE (product, qty)",
    ],
    "LEFT, RIGHT and FULL JOIN": [
        "SELECT c.name, o.id, o.total FROM customers AS c LEFT JOIN orders AS o ON o.customer = c.id AND o.total > 10",
        "SELECT c.id, c.name, count(o.id) AS n, sum(o.total) AS total, max(o.created) AS last FROM customers AS c LEFT JOIN orders AS o ON o.customer = c.id GROUP BY c.id, c.name",
        "SELECT c.city, o.state, count(*) AS n FROM customers AS c LEFT JOIN orders AS o ON o.customer = c.id LEFT JOIN lines AS l ON l.order_id = o.id GROUP BY c.city, o.state",
        "SELECT c.id, o.id AS o FROM customers AS c FULL JOIN orders AS o ON o.customer = c.id AND o.state = 'open'",
        "SELECT o.id, c.name FROM customers AS c RIGHT JOIN orders AS o ON o.customer = c.id WHERE c.score > 2 OR c.id IS NULL",
        "SELECT c.name FROM customers AS c LEFT JOIN orders AS o ON o.customer = c.id WHERE o.id IS NULL",
        "SELECT c.city, count(*) AS n, count(o.id) AS orders FROM customers AS c LEFT JOIN (orders AS o JOIN lines AS l ON l.order_id = o.id AND 10 / nullif(l.qty, 0) > 3)"
        " ON o.customer = c.id GROUP BY c.city",
    ],
    "columns of both sides": [
        "SELECT id, c.name, o.state FROM customers c FULL JOIN (SELECT customer AS id, state FROM orders) o USING (id)",
        "SELECT id, count(*) AS n, max(o.total) AS t FROM customers c FULL JOIN (SELECT customer AS id, total FROM orders) o USING (id) FULL JOIN (SELECT qty AS id FROM lines) l"
        " USING (id) GROUP BY id HAVING id IS NOT NULL ORDER BY id",
        "SELECT id, q.note FROM customers c RIGHT JOIN (SELECT qty AS id, note FROM lines) q USING (id) LEFT JOIN (SELECT customer AS id FROM visits) v USING (id)",
    ],
    "EXISTS, IN, NOT EXISTS, NOT IN": [
        "SELECT id FROM customers AS c WHERE EXISTS (SELECT 1 FROM orders AS o WHERE o.customer = c.id AND o.state = 'open')",
        "SELECT city, count(*) AS n FROM customers WHERE id IN (SELECT customer FROM orders WHERE total > 10) GROUP BY city",
        "SELECT c.city, count(*) AS n FROM customers AS c WHERE NOT EXISTS (SELECT 1 FROM orders AS o WHERE o.customer = c.id AND o.total > 5) GROUP BY c.city",
        "SELECT id FROM customers WHERE id NOT IN (SELECT customer FROM orders)",
        "SELECT id FROM customers WHERE id NOT IN (SELECT customer FROM orders WHERE customer IS NOT NULL)",
        "SELECT name, (SELECT count(*) FROM orders AS o WHERE o.customer = c.id) AS n, (SELECT max(total) FROM orders AS o WHERE o.customer = c.id) AS m FROM customers AS c",
        "SELECT id FROM orders WHERE total > ALL (SELECT price FROM lines WHERE price IS NOT NULL AND order_id = 7)",
    ],
    "UNION ALL, UNION, EXCEPT, INTERSECT": [
        "SELECT 'c' AS kind, name AS said FROM customers UNION ALL SELECT 'l', product FROM lines",
        "SELECT city FROM customers UNION SELECT product FROM lines",
        "SELECT id FROM customers EXCEPT SELECT customer FROM orders",
        "SELECT kind, count(*) AS n FROM (SELECT 'a' AS kind, id FROM customers UNION ALL SELECT 'b', id FROM orders) AS u GROUP BY kind",
        "SELECT state AS k, count(*) AS n FROM orders GROUP BY state UNION ALL SELECT product, sum(qty) FROM lines GROUP BY product",
    ],
    "CTEs and queries in FROM": [
        "WITH x AS (SELECT customer, sum(total) AS t FROM orders GROUP BY customer) SELECT c.name, x.t FROM customers AS c JOIN x ON x.customer = c.id WHERE x.t > 10",
        "SELECT avg(n) AS mean, max(n) AS most FROM (SELECT customer, count(*) AS n FROM orders GROUP BY customer) AS q",
        "WITH o AS (SELECT id, customer FROM orders WHERE state = 'open'), l AS (SELECT order_id, qty FROM lines WHERE qty > 0) SELECT o.customer, sum(l.qty) AS q FROM o"
        " JOIN l ON l.order_id = o.id GROUP BY o.customer",
        "SELECT c.name, last.id FROM customers AS c LEFT JOIN LATERAL (SELECT o.id FROM orders AS o WHERE o.customer = c.id ORDER BY o.created DESC, o.id LIMIT 1) AS last ON true",
        "SELECT v.label, c.name, c.city FROM (VALUES (1, 'first'), (2, NULL), (3, 'third'), (3, 'again')) AS v (id, label) JOIN customers AS c ON c.id = v.id",
        "SELECT v.state, v.rank, count(o.id) AS n, sum(o.total) AS t FROM (VALUES ('open', 1.5), ('paid', 2), (NULL, 3)) AS v (state, rank) LEFT JOIN orders AS o ON o.state = v.state"
        " GROUP BY v.state, v.rank",
        "WITH v (state, w) AS (VALUES ('open', 1), ('paid', 10)) SELECT o.customer, sum(v.w * o.id) AS points FROM orders AS o JOIN v USING (state) GROUP BY o.customer",
        "SELECT c.id, v.kind, v.said FROM customers AS c CROSS JOIN LATERAL (VALUES ('name', c.name), ('city', c.city)) AS v (kind, said) WHERE v.said IS NOT NULL",
        "SELECT q.label, q.n FROM (SELECT v.label, v.n FROM (VALUES ('a', 1), ('b', 2)) AS v (label, n)) AS q WHERE q.n IN (VALUES (2), (7)) UNION ALL VALUES ('c', 3)"
        " UNION ALL SELECT state, count(*) FROM orders GROUP BY state",
        "WITH a AS (SELECT city, count(*) AS n FROM customers GROUP BY city), b AS (SELECT max(n) AS n FROM a) SELECT a.city FROM a JOIN b ON a.n = b.n",
    ],
    "views over views": [
        "SELECT u.big, open_orders.id FROM (SELECT id, upper(name) AS big FROM customers) AS u JOIN open_orders ON open_orders.customer = u.id",
        "SELECT customer, count(*) AS n FROM open_orders GROUP BY customer",
        "SELECT s.state, s.n, t.n AS other FROM by_state AS s LEFT JOIN by_state AS t ON t.n < s.n",
    ],
    "tables with heirs": [
        "SELECT id, said FROM parents",
        "SELECT p.id, count(*) AS n, max(p.said) AS said FROM parents AS p JOIN customers AS c ON c.id = p.id GROUP BY p.id",
        "SELECT DISTINCT ON (id) id, said, length(said) AS long FROM parents ORDER BY id, length(said), said",
    ],
    "queries beside groups": [
        "SELECT state, round(100.0 * count(*) / (SELECT count(*) FROM orders), 2) AS share FROM orders GROUP BY state",
        "SELECT c.city, sum(c.score) AS score, (SELECT max(total) FROM orders WHERE state = 'open') AS most, (SELECT sum(o.total) FROM orders AS o WHERE o.customer = max(c.id)) AS last"
        " FROM customers AS c GROUP BY c.city",
        "SELECT c.id, (SELECT count(*) + c.boss FROM orders AS o WHERE o.customer = c.id AND o.total < c.score) AS n, count(o.id) AS m FROM customers AS c LEFT JOIN orders AS o"
        " ON o.customer = c.id GROUP BY c.id HAVING count(*) > (SELECT min(x.n) FROM (SELECT count(*) AS n FROM orders GROUP BY customer) AS x)",
    ],
    "counts of rows": [
        "SELECT c.city, count(o.*) AS orders, count(o.*) FILTER (WHERE o.state = 'open') AS open FROM customers AS c LEFT JOIN orders AS o ON o.customer = c.id GROUP BY c.city",
        "SELECT state, count(o.*) AS orders FROM orders AS o GROUP BY state",
    ],
    "what is asked on reading": [
        "SELECT customer, count(*) AS n FROM orders WHERE created > now() - interval '100 years' GROUP BY customer",
        "SELECT page, sum(seconds) AS s FROM visits WHERE at::date >= '2026-03-29' GROUP BY page",
        "SELECT date_trunc('day', at) AS day, count(*) AS n FROM visits GROUP BY 1",
        "SELECT to_char(created, 'YYYY-MM') AS month, count(*) AS n FROM orders GROUP BY 1",
        "SELECT id, t, e.key, e.value FROM customers, unnest(tags) AS t, jsonb_each_text(extra) AS e WHERE t <> 'a'",
        "WITH RECURSIVE d (day) AS (SELECT g::date FROM generate_series(timestamp '2026-01-01', '2026-01-06', '1 day') AS g), n AS (SELECT created::date AS day, count(*) AS n"
        " FROM orders GROUP BY 1) SELECT day, coalesce(n, 0) AS n FROM d LEFT JOIN n USING (day)",
        "SELECT t.tag, count(*) AS n FROM customers AS c CROSS JOIN LATERAL unnest(c.tags) AS t (tag) GROUP BY t.tag",
        "SELECT d.day, count(o.id) AS n FROM generate_series(timestamp '2026-01-01', '2026-01-06', '1 day') AS d (day) LEFT JOIN orders AS o ON"
        " o.created::date = d.day GROUP BY d.day",
    ],
}
BELOW = """
CREATE VIEW open_orders AS SELECT id, customer, created, total FROM orders WHERE state = 'open';
CREATE VIEW by_state AS SELECT state, count(*) AS n FROM orders GROUP BY state;
CREATE FUNCTION twice(given int) RETURNS int LANGUAGE sql IMMUTABLE AS 'SELECT 2 * given';
CREATE VIEW twice_below AS SELECT twice(id) AS t FROM customers;
CREATE SCHEMA elsewhere;
CREATE TABLE elsewhere.things (id int PRIMARY KEY);
CREATE MATERIALIZED VIEW kept AS SELECT id FROM customers;
CREATE TABLE parents (id int PRIMARY KEY, said text);
CREATE TABLE heirs () INHERITS (parents);
INSERT INTO parents VALUES (1, 'one'), (2, 'two'), (5, 'five');
INSERT INTO heirs VALUES (1, 'one more'), (3, NULL), (5, 'five'), (5, 'five');
CREATE TABLE hist (thing int, at int, nth smallint, value numeric, PRIMARY KEY (thing, at, nth));
CREATE TABLE things (thing int PRIMARY KEY, owner int, said text);
INSERT INTO things SELECT i, CASE WHEN i % 3 > 0 THEN i END, 'thing ' || i FROM generate_series(1, 14) AS i;
INSERT INTO hist SELECT i % 16, i / 5, i % 2, i / 3.0 FROM generate_series(1, 120) AS i;
CREATE TABLE odd (id int PRIMARY KEY, speed float8, place point, folded text COLLATE folded, slow real, "Order" int, "user" text, "a b" text, select_ int);
INSERT INTO odd VALUES (1, 0.1, NULL, 'A', 0.1, 1, 'x', 'y', 1), (2, '-0', NULL, 'a', 0, 1, 'x', NULL, 2), (3, 'NaN', NULL, 'b', '-infinity', 2, 'r.x', 'y', 3),
  (4, 4.9406564584124654e-324, NULL, NULL, NULL, NULL, NULL, '', 4), (5, 0, '(1,2)', 'B', 3.4e38, 2, '"', 'r', NULL);
"""
FOLDED = "CREATE COLLATION folded (provider = icu, locale = 'und-u-ks-level2', deterministic = false);"
REFUSED = {
    "volatile functions": ("SELECT id, random() AS r FROM customers", "otherwise each time"),
    "functions of one's own": ("SELECT twice(id) AS t FROM customers", "not one of the server's own"),
    "functions of one's own in a view below": ("SELECT t FROM twice_below", "not one of the server's own"),
    "sums of floats": ("SELECT sum(speed) AS s FROM odd", "cast them to numeric"),
    "what is of floats alone": ("SELECT corr(id, customer) AS c FROM orders", "write it by sums of numerics"),
    "types without a text": ("SELECT id, place FROM odd", "of which nights keep no values"),
    "collations that fold": ("SELECT folded, count(*) AS n FROM odd GROUP BY folded", "of which nights keep no values"),
    "materialized views": ("SELECT id FROM kept", "REFRESH"),
    "LIMIT without an order": ("SELECT id FROM orders LIMIT 3", "write ORDER BY"),
    "values in no order": ("SELECT array_agg(id) AS ids FROM orders", "write ORDER BY within it"),
    "recursion": ("WITH RECURSIVE r AS (SELECT 1 AS n UNION ALL SELECT n + 1 FROM r WHERE n < 3) SELECT n FROM r", "how deep it goes"),
    "tables of another schema": ("SELECT c.id, e.id AS other FROM customers AS c JOIN elsewhere.things AS e ON e.id = c.id", "another schema than public"),
    "locks": ("SELECT id FROM customers FOR UPDATE", "locks nothing"),
    "columns of nothing": ("SELECT FROM customers", "name a column"),
    "records out of JSON": ("SELECT x.k FROM customers AS c, jsonb_to_record(c.extra) AS x (k int)", "take each value out by ->>"),
    "samples": ("SELECT id FROM customers TABLESAMPLE SYSTEM (50)", "this is no table"),
    "whole rows": ("SELECT c FROM customers AS c", "name its columns"),
}
