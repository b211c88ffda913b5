CREATE TABLE t (id INT NOT NULL UNIQUE, n NVARCHAR(3), m INT)
GO
INSERT INTO t VALUES (1, N'a', 10), (2, N'b', NULL), (3, N'a', 30), (4, NULL, 40)
GO
UPDATE t SET id = id + 1
GO
UPDATE t SET m = m + 1, n = N'c' WHERE n = N'a'
GO
SELECT * FROM t
GO
-- The old row's values are used, and rows that stay as they are count too.
UPDATE t SET id = m, m = id WHERE id = 2
GO
UPDATE t SET n = n WHERE id = 3
GO
UPDATE t SET n = N'z' WHERE m = NULL
GO
SELECT id, m FROM t
GO
UPDATE t SET id = 3
GO
UPDATE t SET id = id + 1 WHERE id < 5 AND id <> 3
GO
UPDATE t SET n = N'z', id = m
GO
UPDATE t SET n = N'wxyz'
GO
UPDATE t SET m = 3000000000, n = N'wxyz'
GO
SELECT id, n FROM t
GO
DELETE t WHERE n = N'b'
GO
DELETE FROM t WHERE n = N'b' OR n = NULL
GO
INSERT INTO t VALUES (3, N'd', 1)
GO
SELECT id FROM t
GO
DELETE t
GO
SELECT id FROM t
GO
UPDATE t SET z = 1
GO
DELETE z
GO
UPDATE t SET n = NULL, n = N'a'
GO
UPDATE t SET n = 1
GO
