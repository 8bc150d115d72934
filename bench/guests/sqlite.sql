CREATE TABLE orders (id INTEGER PRIMARY KEY, customer INTEGER, item TEXT, price INTEGER);
CREATE TABLE customers (id INTEGER PRIMARY KEY, name TEXT);
BEGIN;
WITH RECURSIVE n(i) AS (SELECT 1 UNION ALL SELECT i + 1 FROM n WHERE i < 40)
INSERT INTO customers SELECT i, 'customer ' || i FROM n;
WITH RECURSIVE n(i) AS (SELECT 1 UNION ALL SELECT i + 1 FROM n WHERE i < 600)
INSERT INTO orders SELECT i, i * 7919 % 40 + 1, 'item ' || (i % 13), i * 31 % 997 FROM n;
COMMIT;
CREATE INDEX by_customer ON orders (customer, price);
SELECT count(*), sum(price), min(price), max(price) FROM orders;
SELECT name, count(*), sum(price) FROM orders JOIN customers ON customers.id = customer
    GROUP BY customer ORDER BY 3 DESC LIMIT 5;
SELECT item, count(*) FROM orders WHERE item LIKE '%1%' GROUP BY item ORDER BY item;
UPDATE orders SET price = price + 5 WHERE customer BETWEEN 10 AND 20;
DELETE FROM orders WHERE price < 100;
SELECT count(*), sum(price) FROM orders;
SELECT upper(substr(name, 1, 4)), length(group_concat(item)) FROM customers JOIN orders ON customer = customers.id
    WHERE customer < 4 GROUP BY customer;
