-- What begins a transaction or ends one is no definition, so it is described alone.
CREATE TABLE t (a INT)
GO
COMMIT
GO
BEGIN TRANSACTION
GO
CREATE TABLE u (b INT)
GO
INSERT INTO u (b) VALUES (1)
GO
:session 2
ROLLBACK TRANSACTION
GO
