CREATE TABLE t (a BIGINT UNIQUE)
GO
CREATE TABLE u (b INT)
GO
INSERT INTO t (a) VALUES (1), (9223372036854775807)
GO
-- A statement that is refused when it is executed has used its table.
BEGIN TRANSACTION
GO
UPDATE t SET a = a + 1
GO
INSERT INTO u (b) VALUES (1)
GO
:session 2
INSERT INTO t (a) VALUES (2)
GO
:session 1
COMMIT
GO
-- One that isn't executed, since its names are unknown, has used none.
BEGIN TRANSACTION
GO
SELECT z FROM t
GO
INSERT INTO u (b) VALUES (2)
GO
:session 2
INSERT INTO t (a) VALUES (3)
GO
:session 1
COMMIT
GO
-- An accepted change of no row is a change.
BEGIN TRANSACTION
GO
SELECT b FROM u
GO
:session 2
UPDATE u SET b = 9 WHERE b = 7
GO
:session 1
COMMIT
GO
