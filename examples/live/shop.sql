-- The tables of a shop as its application has them, and a view that takes longer each month.
CREATE TABLE orders (id INTEGER PRIMARY KEY, day date NOT NULL, region varchar(20), note text);
CREATE TABLE lines (id int NOT NULL REFERENCES orders ON DELETE CASCADE, product text NOT NULL, pieces smallint NOT NULL);
CREATE TABLE products (product text PRIMARY KEY NOT NULL, price numeric(10,2) NOT NULL);
CREATE VIEW sales AS
  SELECT o.id, o.day, o.region, l.product, l.pieces * p.price AS cost
  FROM orders AS o JOIN lines AS l ON l.id = o.id JOIN products AS p ON p.product = l.product
  WHERE o.region IS NOT NULL;
CREATE VIEW daily AS
  SELECT day, region, count(*) AS lines, sum(cost) AS cost FROM sales GROUP BY day, region;
CREATE VIEW dearest AS
  SELECT product, max(price) AS price FROM products GROUP BY product;
INSERT INTO products VALUES ('bread', 3.00), ('jam', 4.50), ('tea', 12.25);
INSERT INTO orders (id, day, region) VALUES (1, '2026-03-02', 'north'), (2, '2026-03-02', 'south'), (3, '2026-03-03', NULL), (4, '2026-03-03', 'north');
INSERT INTO lines VALUES (1, 'bread', 2), (1, 'tea', 1), (2, 'jam', 3), (3, 'tea', 2), (4, 'bread', 5);
