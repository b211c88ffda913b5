-- The second day, over the journal of the first: queries and a change.
:trust main

-- The transaction ended with the server of the first day, and the half batch with its client.
:session 2
COMMIT
GO
:session 3
:execute
:session 1

DECLARE @number NVARCHAR(11) = N'078-05-1120'
:force @number
SELECT p.id, p.note, v.day, v.room FROM patients AS p JOIN visits AS v ON p.number = v.number WHERE p.number = @number
GO

-- A room has one visit a day, so this one must move to another day.
DECLARE @number NVARCHAR(11) = N'219-09-9999'
:force @number
UPDATE visits SET room = 10 WHERE number = @number
GO
DECLARE @number NVARCHAR(11) = N'219-09-9999'
:force @number
UPDATE visits SET day = 2, room = 10 WHERE number = @number
GO
SELECT day, room FROM visits ORDER BY day
GO
