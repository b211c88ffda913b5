CREATE TABLE x (id INT NOT NULL UNIQUE, k INT)
GO
CREATE TABLE y (k INT, n NVARCHAR(3), UNIQUE (k, n))
GO
INSERT INTO x VALUES (1, 10), (2, 20), (3, NULL)
GO
INSERT INTO y VALUES (20, 'a'), (10, 'b'), (20, 'c'), (NULL, 'd')
GO
SELECT x.id, n FROM x JOIN y ON x.k = y.k
GO
SELECT a.id, b.id FROM x AS a INNER JOIN x b ON a.id < b.id WHERE NOT (a.id = 1 AND b.id = 2)
GO
-- a row that repeats a key leaves none of its statement's rows
INSERT INTO x VALUES (4, 40), (4, 41)
GO
INSERT INTO y VALUES (20, 'a')
GO
INSERT INTO y VALUES (NULL, 'd')
GO
SELECT id FROM x WHERE id = 4 OR k IS NULL
GO
SELECT k FROM x JOIN y ON x.k = y.k
GO
SELECT id FROM x JOIN x ON id = id
GO
SELECT x.id FROM y JOIN x ON z.k = y.k
GO
