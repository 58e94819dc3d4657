-- What the application does in a day: an order comes, one is corrected, and a price rises.
INSERT INTO orders (id, day, region) SELECT max(id) + 1, '2026-03-04', 'south' FROM orders;
INSERT INTO lines (id, product, pieces) SELECT max(id), 'jam', 2 FROM orders;
UPDATE orders SET region = 'south' WHERE id = 3 AND region IS NULL;
UPDATE products SET price = price + 0.25 WHERE product = 'bread';
