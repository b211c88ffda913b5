-- Two sessions give beds to patients. Session 1 looks for a free bed and takes it, in a transaction.
CREATE TABLE beds (bed INT NOT NULL UNIQUE, patient INT)
GO
INSERT INTO beds (bed, patient) VALUES (1, NULL), (2, NULL)
GO
BEGIN TRANSACTION
GO
SELECT TOP 1 bed FROM beds WHERE patient IS NULL ORDER BY bed
GO
DECLARE @patient INT = 1001
UPDATE beds SET patient = @patient WHERE bed = 1
GO

-- Session 2 doesn't see that, and takes the same bed, without a transaction.
:session 2
DECLARE @patient INT = 2002
UPDATE beds SET patient = @patient WHERE bed = 1 AND patient IS NULL
GO

-- So the transaction can't be committed, and nothing of it is kept.
:session 1
COMMIT
GO

-- Session 1 begins anew, finds the other bed, and nobody comes between.
BEGIN TRANSACTION
GO
SELECT TOP 1 bed FROM beds WHERE patient IS NULL ORDER BY bed
GO
DECLARE @patient INT = 1001
UPDATE beds SET patient = @patient WHERE bed = 2
GO
COMMIT
GO

-- Session 2 empties all beds, looks, and takes it back.
:session 2
BEGIN TRANSACTION
GO
UPDATE beds SET patient = NULL
GO
SELECT COUNT(*) AS free FROM beds WHERE patient IS NULL
GO
ROLLBACK
GO
SELECT bed, patient FROM beds ORDER BY bed
