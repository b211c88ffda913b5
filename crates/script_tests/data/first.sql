-- The beds of a hospital. Each statement ends with a line GO.
CREATE TABLE beds (ward INT, bed INT, patient INT)
GO

-- Values are declared as parameters, or stand in the statement. A bed without a patient has NULL.
DECLARE @ward INT = 3
INSERT INTO beds (ward, bed, patient) VALUES (@ward, 1, 1001), (@ward, 2, NULL), (4, 1, 1002)
GO

-- The beds of one ward.
DECLARE @ward INT = 3
SELECT bed, patient FROM beds WHERE ward = @ward
GO

-- Beds of other patients than 1001. A comparison with NULL is unknown, so the free bed isn't among them.
SELECT ward, bed, patient FROM beds WHERE patient <> 1001
GO
