CREATE TABLE t (a INT)
GO
:describe
