DECLARE @p INT = 1
:force @p -- c
SELECT 1 FROM t
GO
