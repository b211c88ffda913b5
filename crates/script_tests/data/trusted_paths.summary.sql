CREATE TABLE t (a INT)
GO
:trust main
:trust other
INSERT INTO t (a) VALUES (1)
GO
