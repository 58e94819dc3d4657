"""A shop in a file of SQLite, with values at the edges of their types: NULL, ties, repeated rows, empty texts, backslashes, and what its days change."""

# So many whole numbers from 1, of which rows are made.
NUMBERS = "WITH RECURSIVE i (i) AS (SELECT 1 UNION ALL SELECT i + 1 FROM i WHERE i < {})"
TABLES = rf"""
CREATE TABLE Customers (Id INTEGER PRIMARY KEY, Name TEXT NOT NULL, city VARCHAR(20), born DATE, score DECIMAL(8,2), vip BOOLEAN, boss INT, weight REAL, code CHAR(4));
CREATE TABLE orders (id INTEGER PRIMARY KEY, customer INTEGER REFERENCES Customers, state VARCHAR(10), created DATETIME NOT NULL, total DECIMAL(10,2), wide NUMERIC,
  epoch INTEGER, noted TEXT);
CREATE TABLE lines (order_id BIGINT, product TEXT, qty INTEGER, price NUMERIC(8,2), note TEXT, small SMALLINT);
CREATE TABLE visits (at TIMESTAMP NOT NULL, customer INTEGER, page TEXT NOT NULL, seconds INTEGER NOT NULL);
CREATE TABLE odd ([Order] INTEGER NOT NULL, `a b` TEXT, folded TEXT COLLATE NOCASE, picture BLOB, free, speed DOUBLE, PRIMARY KEY ([Order], `a b`));
CREATE TABLE pairs (a INTEGER NOT NULL, b INTEGER NOT NULL, said TEXT, PRIMARY KEY (a, b)) WITHOUT ROWID;
INSERT INTO Customers {NUMBERS.format(12)} SELECT i, CASE WHEN i = 6 THEN '' ELSE 'Name ' || i END, CASE WHEN i % 3 = 0 THEN NULL WHEN i = 4 THEN '' ELSE 'City ' || (i % 4) END,
  CASE WHEN i <> 8 THEN date('1980-01-01', (i * 300) || ' days') END, CASE WHEN i % 5 <> 0 THEN i * 1.25 END, CASE WHEN i % 4 <> 3 THEN i % 2 = 0 END, nullif((i * 7) % 12, 0),
  CASE i % 4 WHEN 0 THEN NULL WHEN 1 THEN i / 3.0 WHEN 2 THEN 2 ELSE -1e-7 * i END, 'c' || (i % 2) FROM i;
INSERT INTO orders {NUMBERS.format(48)} SELECT i, CASE WHEN i % 7 <> 0 THEN 1 + i % 10 END, CASE i % 4 WHEN 0 THEN 'open' WHEN 1 THEN 'paid' WHEN 3 THEN 'Shut' END,
  datetime('2026-01-01', (i / 2 * 7) || ' hours') || CASE WHEN i % 5 = 0 THEN '.500' ELSE '' END, CASE WHEN i % 6 <> 0 THEN round(i % 9 * 3.17, 2) END,
  CASE i % 5 WHEN 0 THEN NULL WHEN 1 THEN 1 WHEN 2 THEN 1.5 WHEN 3 THEN 9007199254740993 ELSE 1e300 END, 1767225600 + i * 40000, datetime('2026-02-27', i || ' hours') FROM i;
INSERT INTO lines {NUMBERS.format(140)} SELECT 1 + i % 40, 'p' || (i % 6), CASE WHEN i % 9 <> 0 THEN i % 5 END, CASE WHEN i % 8 <> 0 THEN round(i % 13 * 1.11, 2) END,
  CASE i % 5 WHEN 0 THEN '\N' WHEN 1 THEN NULL WHEN 2 THEN 'N' WHEN 3 THEN '\\N' ELSE '' END, i % 3 FROM i;
INSERT INTO visits {NUMBERS.format(60)} SELECT datetime('2026-01-02 20:00:00', i || ' hours'), nullif(i % 5, 0), '/' || (i % 4), i % 60 FROM i;
INSERT INTO odd {NUMBERS.format(9)} SELECT i, CASE WHEN i % 2 THEN 'x' ELSE 'X y' END, CASE i % 3 WHEN 0 THEN 'One' WHEN 1 THEN 'ONE' END, x'00', i, i / 7.0 FROM i;
CREATE VIEW open_orders AS SELECT id, customer, state, created, total FROM orders WHERE state = 'open' OR state IS NULL;
CREATE VIEW by_state (state, n) AS SELECT state, count(*) FROM orders GROUP BY state;
"""
DAYS = {
    "rows come, leave and change": rf"""
INSERT INTO orders (id, customer, state, created, total) {NUMBERS.format(12)} SELECT i + 100, 1 + i % 11, CASE i % 3 WHEN 0 THEN 'open' WHEN 1 THEN 'paid' END,
  datetime('2026-01-05', (i * 3) || ' hours'), i * 1.5 FROM i;
DELETE FROM orders WHERE id % 11 = 3;
UPDATE orders SET state = 'open', total = NULL, wide = 1 WHERE id % 13 = 2;
UPDATE Customers SET city = NULL, weight = weight / 3 WHERE id = 5;
UPDATE Customers SET city = 'City 1', score = -3.05, boss = NULL WHERE id = 7;
DELETE FROM lines WHERE qty = 3;
INSERT INTO lines VALUES (2, 'P1', 7, 2.50, '\N', 3), (2, 'P1', 7, 2.50, '\N', 3), (NULL, NULL, NULL, NULL, NULL, NULL);
DELETE FROM visits WHERE seconds % 7 = 0;
UPDATE odd SET speed = speed * 3, `a b` = 'z' || `a b` WHERE [Order] < 4;
REPLACE INTO orders (id, created, total) VALUES (4, '2026-01-04 04:04:04', 4), (404, '2026-01-04 04:04:04', 4.5);
""",
    "groups leave, and one value becomes the least": r"""
DELETE FROM orders WHERE customer = 8 OR state = 'paid';
UPDATE orders SET created = '2000-01-01 00:00:00' WHERE id = (SELECT max(id) FROM orders);
UPDATE lines SET price = 0.01, note = NULL WHERE product = 'p2';
UPDATE lines SET order_id = NULL WHERE product = 'p3';
UPDATE lines SET price = round(price) WHERE product = 'p4';
INSERT INTO Customers (id, name) VALUES (100, 'lonely'), (101, 'lonely');
DELETE FROM visits WHERE page = '/1';
""",
    "all rows leave": "DELETE FROM odd; DELETE FROM lines; DELETE FROM visits; DELETE FROM orders; DELETE FROM Customers;",
    "some come again": r"""
INSERT INTO Customers (id, name, city, born, score, vip, weight) VALUES (1, 'again', 'City 1', '2000-02-29', 1.00, 1, 0), (2, 'again', NULL, NULL, NULL, NULL, NULL);
INSERT INTO orders (id, customer, state, created, total) VALUES (1, 1, 'open', '2026-02-01 00:00:00', 5), (2, NULL, NULL, '2026-02-01 00:00:00', NULL), (3, 2, 'paid', '2026-02-02 00:00:00', 0);
INSERT INTO lines VALUES (1, 'p1', 2, 1.50, 'x', 1), (1, 'p1', 2, 1.50, 'x', 1), (3, '', 0, 0, '', 0);
INSERT INTO odd VALUES (1, '\N', 'one', NULL, NULL, 0);
""",
}
