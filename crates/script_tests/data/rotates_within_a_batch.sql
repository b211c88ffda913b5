DECLARE @p INT = 1
:rotate t t2
