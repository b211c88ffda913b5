DECLARE @p INT = 1
:trust main
