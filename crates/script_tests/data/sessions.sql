-- Two sessions. Session 1 describes an INSERT and lets it wait, while session 2 looks at the table.
CREATE TABLE beds (ward INT, bed INT, patient INT)
GO

DECLARE @patient INT = 1001
INSERT INTO beds (ward, bed, patient) VALUES (3, 1, @patient)
:describe

:session 2
SELECT ward, bed FROM beds
GO

-- What waits in session 1 is executed now.
:session 1
:execute

SELECT ward, bed, patient FROM beds
