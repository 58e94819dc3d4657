"""Views of a folder as people write them, by construct: each is right after each night, or refused for a reason. Both PostgreSQL's parser and SQLite read them."""

TAKEN = {
    "row expressions": [
        "SELECT id, upper(name) AS big, CASE WHEN city IS NULL THEN 'none' ELSE city END AS where_, score * 2 AS twice, substr(name, 1, 3) AS short FROM customers",
        "SELECT lower(product) AS p, coalesce(note, '-') AS note, qty / 3 AS third, note LIKE '%N' AS is_n, trim(note) AS t, length(note) AS n FROM lines",
        "SELECT strftime('%Y-%m', created) AS month, date(created) AS day, total BETWEEN 3 AND 9 AS is_between, state IN ('open', 'paid') AS is_some FROM orders",
        "SELECT id, nullif(state, 'open') AS s, max(total, 5) AS g, ifnull(state, 'none') || '!' AS m, iif(total > 5, 'dear', 'cheap') AS c FROM orders",
        "SELECT * FROM customers",
        "SELECT o.*, c.name FROM orders o JOIN customers c ON c.id = o.customer",
        "SELECT * FROM lines",
    ],
    "filters": [
        "SELECT id, name FROM customers WHERE city LIKE 'City%' AND NOT (score > 5 OR vip)",
        "SELECT product, count(*) AS n FROM lines WHERE qty > 1 AND (price < 5 OR note IS NULL) GROUP BY product",
        "SELECT id FROM orders WHERE created >= '2026-01-03' AND created < '2026-01-09' AND state IS DISTINCT FROM 'open'",
        "SELECT id FROM orders WHERE 100 / nullif(total, 0) > 20",
        "SELECT id, vip FROM customers WHERE vip IS NOT TRUE",
        "SELECT count(*) AS n FROM lines WHERE note = '' OR note = '\\N'",
    ],
    "inner joins": [
        "SELECT o.id, c.name, c.city FROM orders AS o JOIN customers AS c ON c.id = o.customer",
        "SELECT c.city, l.product, sum(l.qty) AS q FROM customers AS c, orders AS o, lines AS l WHERE c.id = o.customer AND l.order_id = o.id GROUP BY c.city, l.product",
        "SELECT name, seconds FROM (SELECT id AS customer, name FROM customers) AS c JOIN visits USING (customer)",
        "SELECT o.state, count(*) AS n FROM orders AS o JOIN lines AS l ON l.order_id = o.id AND l.qty < o.customer GROUP BY o.state",
        "SELECT a.id, b.product FROM orders AS a JOIN lines AS b ON a.state = b.product OR a.id = b.qty",
        "SELECT o.id, v.page FROM orders o JOIN visits v ON date(v.at) = date(o.created)",
    ],
    "self-joins": [
        "SELECT a.name, b.name AS boss FROM customers AS a JOIN customers AS b ON b.id = a.boss",
        "SELECT a.city, count(*) AS pairs FROM customers AS a JOIN customers AS b ON a.city = b.city AND a.id < b.id GROUP BY a.city",
    ],
    "counts, sums, averages": [
        "SELECT customer, state, count(*) AS n, count(total) AS there, sum(total) AS total, avg(total) AS mean FROM orders GROUP BY customer, state",
        "SELECT product, sum(qty) AS q, avg(qty) AS a, sum(qty * price) AS worth, avg(qty * price - 1) AS w FROM lines GROUP BY product",
        "SELECT count(*) AS n, sum(qty) AS q, avg(price) AS p, count(note) AS notes, max(price) AS most FROM lines",
        "SELECT c.city, sum(l.qty * l.price * c.id) AS s, sum(l.qty + c.id) AS t FROM customers AS c JOIN orders AS o ON o.customer = c.id JOIN lines AS l"
        " ON l.order_id = o.id GROUP BY c.city",
        "SELECT sum(vip) AS vips, sum(score > 3) AS high, total(score) AS t FROM customers",
    ],
    "expressions in GROUP BY": [
        "SELECT date(created) AS day, lower(state) AS state, count(*) AS n FROM orders GROUP BY 1, 2",
        "SELECT CASE WHEN qty > 2 THEN 'many' ELSE 'few' END AS k, count(*) AS n, sum(price) AS p FROM lines GROUP BY k",
        "SELECT coalesce(o.state, c.city) AS k, count(*) AS n FROM orders AS o JOIN customers AS c ON c.id = o.customer GROUP BY coalesce(o.state, c.city)",
        "SELECT id / 10 * 10 AS tens, count(*) AS n FROM orders GROUP BY id / 10 * 10",
        "SELECT c.id, c.name, c.born, count(*) AS n FROM customers AS c JOIN orders AS o ON o.customer = c.id GROUP BY c.id",
    ],
    "FILTER, CASE": [
        "SELECT state, count(*) FILTER (WHERE total > 10) AS dear, sum(total) FILTER (WHERE total > 10) AS s, avg(total) FILTER (WHERE customer > 3) AS a"
        " FROM orders GROUP BY state",
        "SELECT c.city, sum(CASE WHEN o.state = 'open' OR c.score > 3 THEN o.total ELSE 0 END) AS s FROM customers AS c JOIN orders AS o ON o.customer = c.id GROUP BY c.city",
        "SELECT product, sum(CASE WHEN qty > 2 THEN price END) AS s, max(price) FILTER (WHERE qty > 2) AS m FROM lines GROUP BY product",
    ],
    "min, max, DISTINCT in them": [
        "SELECT customer, min(created) AS first, max(created) AS last, min(state) AS s, max(total) AS t FROM orders GROUP BY customer",
        "SELECT product, max(qty) AS q, min(note) AS note FROM lines GROUP BY product",
        "SELECT max(born) AS b, min(born) AS a, max(vip) AS m, max(name) AS n FROM customers",
        "SELECT customer, count(DISTINCT state) AS s, count(DISTINCT total) AS t, sum(DISTINCT id / 2) AS h FROM orders GROUP BY customer",
    ],
    "DISTINCT, sets": [
        "SELECT DISTINCT city, vip FROM customers",
        "SELECT DISTINCT o.state, c.city FROM orders AS o JOIN customers AS c ON c.id = o.customer ORDER BY 1, 2",
        "SELECT city AS k FROM customers UNION SELECT state FROM orders",
        "SELECT product AS k FROM lines UNION ALL SELECT page FROM visits",
        "SELECT customer FROM orders EXCEPT SELECT customer FROM visits",
        "SELECT customer FROM orders INTERSECT SELECT id FROM customers",
        "SELECT customer FROM orders UNION SELECT id FROM customers UNION ALL SELECT customer FROM visits EXCEPT SELECT 3",
        "SELECT q.id, c.name FROM (SELECT id FROM customers UNION ALL SELECT id FROM orders UNION ALL SELECT customer FROM visits) q JOIN customers c ON c.id = q.id",
        "SELECT total AS x FROM orders UNION SELECT score + 0.50 FROM customers",
        "SELECT qty * 1.00 AS x FROM lines UNION ALL SELECT price FROM lines",
        "SELECT CAST(qty AS real) AS x FROM lines EXCEPT SELECT CAST(price AS real) FROM lines",
        "SELECT 'a' AS k, o.id FROM customers c LEFT JOIN orders o ON o.customer = c.id UNION ALL"
        " SELECT 'a', o.id FROM orders o WHERE NOT EXISTS (SELECT 1 FROM customers c WHERE o.customer = c.id) UNION ALL SELECT 'b', id FROM customers",
    ],
    "HAVING, ORDER BY, LIMIT, ratios": [
        "SELECT product, count(*) AS n FROM lines GROUP BY product HAVING n > 20 AND sum(qty) > 10",
        "SELECT state, count(*) AS n, round(sum(total) / count(*), 1) AS mean FROM orders GROUP BY state ORDER BY n DESC, state LIMIT 3",
        "SELECT id, total FROM orders ORDER BY total DESC NULLS LAST, id LIMIT 5 OFFSET 2",
        "SELECT product, 100.0 * count(*) / nullif(sum(qty), 0) AS ratio, printf('%.2f', sum(price)) AS shown FROM lines GROUP BY product",
    ],
    "windows": [
        "SELECT id, customer, row_number() OVER (PARTITION BY customer ORDER BY created, id) AS r, sum(total) OVER (PARTITION BY customer) AS t FROM orders",
        "SELECT state, count(*) AS n, count(*) * 1.0 / sum(count(*)) OVER () AS share, rank() OVER (ORDER BY count(*) DESC) AS r FROM orders GROUP BY state",
        "SELECT id, lag(total) OVER w AS before FROM orders WINDOW w AS (PARTITION BY customer ORDER BY created, id)",
    ],
    "outer joins": [
        "SELECT c.name, o.id, o.total FROM customers AS c LEFT JOIN orders AS o ON o.customer = c.id",
        "SELECT c.name, count(o.id) AS n, sum(o.total) AS t, max(o.created) AS last FROM customers AS c LEFT JOIN orders AS o ON o.customer = c.id AND o.state = 'open' GROUP BY c.id",
        "SELECT c.city, count(*) AS n, count(l.product) AS lines, avg(l.price) AS p FROM customers c LEFT JOIN orders o ON o.customer = c.id LEFT JOIN lines l ON l.order_id = o.id"
        " GROUP BY c.city",
        "SELECT coalesce(c.id, o.customer) AS who, o.id FROM customers AS c FULL JOIN orders AS o ON o.customer = c.id",
        "SELECT c.name FROM customers c LEFT JOIN orders o ON o.customer = c.id WHERE o.id IS NULL",
    ],
    "EXISTS, IN, queries in expressions": [
        "SELECT name FROM customers c WHERE EXISTS (SELECT 1 FROM orders o WHERE o.customer = c.id AND o.total > 3)",
        "SELECT name FROM customers c WHERE NOT EXISTS (SELECT * FROM orders o WHERE o.customer = c.id)",
        "SELECT name FROM customers WHERE id IN (SELECT customer FROM orders WHERE state = 'open')",
        "SELECT name FROM customers WHERE id NOT IN (SELECT customer FROM orders)",
        "SELECT name FROM customers WHERE id NOT IN (SELECT customer FROM orders WHERE customer IS NOT NULL)",
        "SELECT c.name, (SELECT count(*) FROM orders o WHERE o.customer = c.id) AS n, (SELECT max(total) FROM orders) AS most FROM customers c",
        "SELECT city, count(*) AS n FROM customers WHERE id IN (SELECT customer FROM visits) GROUP BY city",
    ],
    "WITH, queries in FROM, views over views": [
        "WITH o AS (SELECT customer, sum(total) AS t FROM orders GROUP BY customer) SELECT c.name, o.t FROM customers c JOIN o ON o.customer = c.id",
        "SELECT n, count(*) AS many FROM (SELECT customer, count(*) AS n FROM orders GROUP BY customer) AS q GROUP BY n",
        "SELECT state, count(*) AS n, min(id) AS first FROM open_orders GROUP BY state",
        "SELECT b.state, b.n, o.id FROM by_state b JOIN open_orders o ON o.state = b.state",
    ],
}
BELOW = """
CREATE VIEW open_orders AS SELECT id, customer, state, created, total FROM orders WHERE state = 'open' OR state IS NULL;
CREATE VIEW by_state (state, n) AS SELECT state, count(*) FROM orders GROUP BY state;
"""
TABLES = """
CREATE TABLE customers (id integer PRIMARY KEY, name text NOT NULL, city text, born date, score numeric(8,2), vip boolean, boss integer) WITH (null = 'NA');
CREATE TABLE orders (id bigint PRIMARY KEY, customer integer, state varchar, created timestamp NOT NULL, total numeric(10,2)) WITH (null = 'NA');
CREATE TABLE lines (order_id bigint, product text, qty integer, price numeric(8,2), note text) WITH (null = 'NA');
CREATE TABLE visits (at timestamp NOT NULL, customer integer, page text NOT NULL, seconds integer NOT NULL) WITH (null = 'NA');
"""
REFUSED = {
    "what varies": ("SELECT id, random() AS r FROM customers", "no function that is known"),
    "sums of floats": ("SELECT sum(score / 3) AS s FROM customers", "depends on their order"),
    "any row's value": ("SELECT city, name, count(*) AS n FROM customers GROUP BY city", "any row's value"),
    "texts beside numbers": ("SELECT id FROM customers WHERE id = '3'", "affinity of columns"),
    "several kinds in one": ("SELECT coalesce(city, 0) AS c FROM customers", "cast both to one kind"),
    "no name": ("SELECT id + 1 FROM customers", "name it by AS"),
    "LIMIT without an order": ("SELECT id FROM orders LIMIT 3", "write ORDER BY"),
    "DISTINCT ON": ("SELECT DISTINCT ON (city) city, id FROM customers ORDER BY city, id", "SQLite has none"),
    "recursion": ("WITH RECURSIVE r AS (SELECT 1 AS n UNION ALL SELECT n + 1 FROM r WHERE n < 3) SELECT n FROM r", "how deep it goes"),
    "lists in any order": ("SELECT city, group_concat(name) AS names FROM customers GROUP BY city", "any order"),
    "precedence": ("SELECT name || id + 1 AS n FROM customers", "put parentheses in otherwise"),
    "casts to a day": ("SELECT CAST(created AS date) AS day FROM orders", "SQLite casts to integer, real and text alone"),
    "sets of several kinds of numbers": ("SELECT qty AS x FROM lines UNION SELECT price FROM lines", "one side of it is integer, and the other one numeric(8,2)"),
    "FULL JOIN in a set": ("SELECT 'a' AS k, o.id FROM customers c FULL JOIN orders o ON o.customer = c.id UNION ALL SELECT 'b', id FROM customers", "NULL for the constants"),
    "unknown columns": ("SELECT nobody FROM customers", "no column"),
    "unknown tables": ("SELECT id FROM nowhere", "no such table"),
}
