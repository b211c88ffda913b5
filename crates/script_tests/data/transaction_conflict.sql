-- Two sessions put a row into one table, one of them in a transaction. The transaction sees its own row alone, and can't be committed.
CREATE TABLE t (a INT)
GO
BEGIN TRANSACTION
GO
INSERT INTO t (a) VALUES (1)
GO
:session 2
INSERT INTO t (a) VALUES (2)
GO
:session 1
SELECT a FROM t
GO
COMMIT
GO
SELECT a FROM t
GO
