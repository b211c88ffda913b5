:session 64
CREATE TABLE t (a INT)
GO
:session 65
