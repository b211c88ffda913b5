CREATE TABLE t (a INT)
GO
DECLARE @p INT = 1
INSERT INTO t (a) VALUES (@p)
:describe
DECLARE @p INT = 2
INSERT INTO t (a) VALUES (@p)
GO
:session 2
SELECT a FROM t
GO
:session 1
:execute
:execute
SELECT a FROM t
