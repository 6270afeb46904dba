INSERT INTO items (name, id, price) VALUES ('miller''s bread', 2, 310), ('rye', 3, 290);
UPDATE items SET price = price + 20 WHERE id >= 2;
