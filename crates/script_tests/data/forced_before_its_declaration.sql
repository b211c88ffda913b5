:force @p
DECLARE @p INT = 1
SELECT 1 FROM t
GO
