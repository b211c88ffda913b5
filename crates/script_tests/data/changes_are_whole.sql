CREATE TABLE o (a BIGINT, b BIGINT)
GO
INSERT INTO o (a, b) VALUES (1, 1), (2, 2), (3, 9223372036854775807)
GO
UPDATE o SET a = b + 1
GO
DELETE FROM o WHERE b + 1 = 2
GO
UPDATE o SET a = 0 WHERE a < 3 OR b + 1 = 0
GO
SELECT a FROM o
GO
UPDATE o SET a = b + 1 WHERE a < 3
GO
SELECT * FROM o
GO
-- What one session changes, another sees; what was described before is executed still.
UPDATE o SET a = a - 1 WHERE a = 3
:describe
:session 2
DELETE o WHERE b = 2
GO
:session 1
:execute
SELECT a FROM o
GO
