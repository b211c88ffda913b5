DECLARE @p INT = 1
:force @p
:force @p
SELECT 1 FROM t
GO
