CREATE TABLE t (a INT)
GO
SELECT a FROM t
DECLARE @p INT = 1
GO
-- a batch without a statement is no step
GO
SELECT a
FROM t
WHERE a
= 1
