CREATE TABLE a (x INT, y NVARCHAR(3))
GO
INSERT INTO a VALUES (1, 'u'), (1, 'v'), (2, 'u'), (NULL, 'u'), (2, NULL)
GO
CREATE TABLE b (y NVARCHAR(3), x INT, n INT)
GO
INSERT INTO b VALUES ('u', 2, 10), ('u', 1, 20), ('v', 1, 30), ('u', 1, 40), ('u', NULL, 50), (NULL, 2, 60)
GO
SELECT a.x, a.y, n FROM a JOIN b ON a.x = b.x AND b.y = a.y AND n < 40
GO
SELECT a.x, b.n, c.n FROM a JOIN b ON a.x = b.x JOIN b AS c ON b.n = c.n WHERE a.y = 'u' AND c.x IS NOT NULL
GO
