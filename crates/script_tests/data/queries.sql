CREATE TABLE t (a INT, b NVARCHAR(8), c INT)
GO
INSERT INTO t VALUES (2, N'x', 1), (1, N'y', 2), (NULL, N'x', 3), (2, N'z', NULL), (1, NULL, 5), (NULL, N'x', 6)
GO
-- NULLs are alike; the first of alike rows stays
SELECT DISTINCT a, b FROM t
GO
SELECT a, COUNT(*) AS n FROM t GROUP BY a
GO
SELECT COUNT(*), b, a FROM t WHERE c < 6 GROUP BY a, b ORDER BY b DESC, a
GO
-- no rows are one group without GROUP BY, and none with it
SELECT COUNT(*), COUNT(*) FROM t WHERE a = 9
GO
SELECT a FROM t WHERE a = 9 GROUP BY a
GO
-- NULL comes first, or last where the key descends; rows whose keys are equal stay as they stood
SELECT a, b, c FROM t ORDER BY a
GO
SELECT a, b, c FROM t ORDER BY a DESC, b DESC
GO
SELECT TOP (2) c FROM t ORDER BY c DESC
GO
SELECT DISTINCT TOP 2 a FROM t ORDER BY a DESC
GO
SELECT TOP 0 a FROM t
GO
-- TOP doesn't stop the walk
SELECT TOP 1 9223372036854775807 + c FROM t
GO
SELECT x.a, y.c FROM t x JOIN t y ON x.a = y.a ORDER BY y.c DESC, x.c
GO
