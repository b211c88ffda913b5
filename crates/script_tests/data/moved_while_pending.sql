CREATE TABLE u (id INT)
GO
DECLARE @p INT = 1
INSERT INTO u (id) VALUES (@p)
:describe
:session 64
DROP TABLE u
GO
CREATE TABLE u (id INT)
GO
:session 1
:execute
:execute
