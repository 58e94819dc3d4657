"""A shop with values at the edges of their types: NULL, ties, repeated rows, empty texts, backslashes, NaN, infinity, and what its days change."""

TABLES = r"""
CREATE TYPE mood AS ENUM ('calm', 'wild', 'sad');
CREATE DOMAIN cents AS bigint CHECK (VALUE >= 0);
CREATE TABLE customers (id int PRIMARY KEY, name text NOT NULL, city text, born date, score numeric(8,2), mood mood, tags text[], extra jsonb, code char(4), boss int,
  token uuid, is_old boolean, debt cents, address inet);
CREATE TABLE orders (id bigint PRIMARY KEY, customer int REFERENCES customers, state varchar(10), created timestamp NOT NULL, paid timestamptz, total numeric(10,2),
  wide numeric, wait interval);
CREATE TABLE lines (order_id bigint, product text, qty int, price numeric(10,2), note text, small smallint);
CREATE TABLE visits (at timestamptz NOT NULL, customer int, page text NOT NULL, seconds int NOT NULL);
INSERT INTO customers SELECT i, 'Name ' || i, CASE WHEN i % 3 = 0 THEN NULL WHEN i = 4 THEN '' ELSE 'City ' || (i % 4) END,
  CASE WHEN i = 7 THEN 'infinity' WHEN i = 8 THEN NULL ELSE date '1980-01-01' + i * 300 END, CASE WHEN i = 9 THEN 'NaN' WHEN i % 5 = 0 THEN NULL ELSE i * 1.25 END,
  CASE i % 4 WHEN 0 THEN NULL WHEN 1 THEN 'calm' WHEN 2 THEN 'wild' ELSE 'sad' END::mood, ARRAY['a', 't' || i % 3], jsonb_build_object('k', i % 3, 'n', i / 2.0),
  'c' || i % 2, nullif((i * 7) % 12, 0), md5(i::text)::uuid, CASE WHEN i % 4 = 3 THEN NULL ELSE i % 2 = 0 END, i * 100, ('10.0.0.' || i)::inet FROM generate_series(1, 12) AS i;
INSERT INTO orders SELECT i, CASE WHEN i % 7 = 0 THEN NULL ELSE 1 + i % 10 END, CASE i % 4 WHEN 0 THEN 'open' WHEN 1 THEN 'paid' WHEN 2 THEN NULL ELSE 'Shut' END,
  CASE WHEN i = 33 THEN '-infinity' ELSE timestamp '2026-01-01' + (i / 2) * interval '7 hours 11 seconds 123 microseconds' END,
  CASE WHEN i % 3 = 0 THEN timestamptz '2026-03-28 00:00+00' + i * interval '13 hours' END, CASE WHEN i % 6 = 0 THEN NULL ELSE (i % 9) * 3.17 END,
  CASE i % 5 WHEN 0 THEN NULL WHEN 1 THEN 1.0 WHEN 2 THEN 1.00 ELSE 12345678901234567890.12345 + i % 2 END, i % 3 * interval '1 mon 2 days 3.5 seconds'
  FROM generate_series(1, 48) AS i;
INSERT INTO lines SELECT 1 + i % 40, 'p' || i % 6, CASE WHEN i % 9 = 0 THEN NULL ELSE i % 5 END, CASE WHEN i % 8 = 0 THEN NULL ELSE (i % 13) * 1.11 END,
  CASE i % 5 WHEN 0 THEN '\N' WHEN 1 THEN NULL WHEN 2 THEN 'N' WHEN 3 THEN '\\N' ELSE '' END, i % 3 FROM generate_series(1, 140) AS i;
INSERT INTO visits SELECT timestamptz '2026-03-28 20:00+00' + i * interval '37 minutes', nullif(i % 5, 0), '/' || (i % 4), i % 60 FROM generate_series(1, 90) AS i;
"""
DAYS = {
    "rows come, leave and change": r"""
INSERT INTO orders SELECT i, 1 + i % 11, CASE i % 3 WHEN 0 THEN 'open' WHEN 1 THEN 'paid' END, timestamp '2026-01-05' + i * interval '3 hours', NULL, i * 1.5, i, NULL
  FROM generate_series(101, 112) AS i;
DELETE FROM orders WHERE id % 11 = 3;
UPDATE orders SET state = 'open', total = NULL, wide = 1.000 WHERE id % 13 = 2;
UPDATE customers SET city = NULL, mood = NULL WHERE id = 4;
UPDATE customers SET city = 'City 1', score = score + 1, extra = '{"k": 9}', born = '-infinity', boss = NULL WHERE id = 5;
DELETE FROM lines WHERE qty = 3;
INSERT INTO lines VALUES (2, 'P1', 7, 2.50, '\N', 3), (2, 'P1', 7, 2.50, '\N', 3), (3, NULL, NULL, NULL, NULL, NULL);
DELETE FROM visits WHERE seconds % 7 = 0;
UPDATE odd SET speed = 'infinity', slow = slow / 3, "user" = 'X', "a b" = '\N' WHERE id < 4;
UPDATE customers SET score = 3 WHERE id = 9;
INSERT INTO heirs VALUES (2, 'again'), (1, 'one'); DELETE FROM ONLY parents WHERE id = 1;
DELETE FROM hist WHERE at % 3 = 1; UPDATE things SET said = said || '1', owner = thing WHERE thing % 4 = 1; DELETE FROM things WHERE thing = 6;
""",
    "groups leave, and one value becomes the least": r"""
DELETE FROM orders WHERE customer = 8 OR state = 'paid';
UPDATE orders SET created = '2000-01-01', total = 'NaN' WHERE id = (SELECT max(id) FROM orders);
UPDATE lines SET price = 0.01, note = NULL WHERE product = 'p2';
INSERT INTO customers (id, name) VALUES (100, 'lonely'), (101, 'lonely');
DELETE FROM visits WHERE page = '/1';
UPDATE lines SET order_id = NULL WHERE product = 'p3';
UPDATE parents SET said = 'all' WHERE id < 4;
UPDATE hist SET at = 100 - at, value = NULL WHERE thing < 8; INSERT INTO things VALUES (6, 6, 'again');
""",
    "all rows leave": "DELETE FROM odd; DELETE FROM parents; DELETE FROM hist; DELETE FROM things; DELETE FROM lines; DELETE FROM visits; DELETE FROM orders; DELETE FROM customers;",
    "some come again": r"""
INSERT INTO customers (id, name, city, score, mood) VALUES (1, 'again', 'City 1', 1.00, 'sad'), (2, 'again', NULL, NULL, NULL);
INSERT INTO orders (id, customer, state, created, total) VALUES (1, 1, 'open', '2026-02-01', 5), (2, NULL, NULL, '2026-02-01', NULL), (3, 2, 'paid', '2026-02-02', 0);
INSERT INTO lines VALUES (1, 'p1', 2, 1.50, 'x', 1), (1, 'p1', 2, 1.50, 'x', 1), (3, '', 0, 0, '', 0);
INSERT INTO parents VALUES (1, 'once more');
INSERT INTO things VALUES (1, 1, 'x1'), (2, NULL, NULL);
INSERT INTO hist VALUES (1, 1, 1, 1), (1, 1, 2, NULL), (2, 5, 5, 'NaN'), (3, 0, 0, 0);
INSERT INTO visits VALUES ('2026-10-25 00:30+00', 1, '/1', 5), ('2026-10-25 01:30+00', 1, '/1', 6);
""",
}
