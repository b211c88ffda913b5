CREATE TABLE o (a BIGINT, b BIGINT)
GO
INSERT INTO o (a, b) VALUES (1, 1), (2, 2), (3, 9223372036854775807)
GO
CREATE TABLE p (a BIGINT)
GO
INSERT INTO p (a) VALUES (2), (1)
GO
SELECT o.a FROM o JOIN p ON o.a = p.a WHERE o.b + 1 > 0
GO
SELECT o.a FROM o JOIN p ON o.a = p.a WHERE o.a < 3
GO
-- Where ON can answer Overflow, no row is left out before it is asked.
SELECT o.a FROM o JOIN p ON o.b + 1 > p.a WHERE o.a < 3
GO
SELECT o.a FROM o JOIN p ON o.a = p.a AND o.b + 1 > 0
GO
INSERT INTO p (a) VALUES (3)
GO
SELECT o.a FROM o JOIN p ON o.a = p.a WHERE o.b + 1 > 0
GO
SELECT o.a FROM o JOIN p ON o.a = p.a WHERE o.a < 3 AND o.b + 1 > 0
GO
SELECT o.a FROM o JOIN p ON o.a = p.a WHERE o.a < 3
GO
