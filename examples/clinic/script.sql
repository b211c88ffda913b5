-- A clinic keeps its patients' numbers, years of birth and findings as cells, so that whoever runs its database isn't sent them in
-- the open. The master key is in keys/main.key; ENCRYPTED_VALUE is a column key wrapped under it.
CREATE COLUMN MASTER KEY clinic WITH (KEY_STORE_PROVIDER_NAME = N'KEYFILE', KEY_PATH = N'main')
GO
CREATE COLUMN ENCRYPTION KEY patients_key WITH VALUES (
    COLUMN_MASTER_KEY = clinic,
    ALGORITHM = 'AES_256_KW',
    ENCRYPTED_VALUE = 0x693add69cc58456380c656773889542f4a668afa72adc727acc9c4eff4dac04cc98be258b15b4a7d)
GO
CREATE TABLE patients (
    id INT NOT NULL UNIQUE,
    number NVARCHAR(11) COLLATE Latin1_General_BIN2
        ENCRYPTED WITH (COLUMN_ENCRYPTION_KEY = patients_key, ENCRYPTION_TYPE = DETERMINISTIC, ALGORITHM = 'AEAD_AES_256_CBC_HMAC_SHA256')
        NOT NULL UNIQUE,
    born INT
        ENCRYPTED WITH (COLUMN_ENCRYPTION_KEY = patients_key, ENCRYPTION_TYPE = RANDOMIZED, ALGORITHM = 'AEAD_AES_256_CBC_HMAC_SHA256'),
    ward INT)
GO
CREATE TABLE visits (
    number NVARCHAR(11) COLLATE Latin1_General_BIN2
        ENCRYPTED WITH (COLUMN_ENCRYPTION_KEY = patients_key, ENCRYPTION_TYPE = DETERMINISTIC, ALGORITHM = 'AEAD_AES_256_CBC_HMAC_SHA256'),
    day INT,
    finding NVARCHAR(20) COLLATE Latin1_General_BIN2
        ENCRYPTED WITH (COLUMN_ENCRYPTION_KEY = patients_key, ENCRYPTION_TYPE = DETERMINISTIC, ALGORITHM = 'AEAD_AES_256_CBC_HMAC_SHA256'))
GO

-- Values of protected columns are parameters: they are sealed before they leave the driver.
DECLARE @a NVARCHAR(11) = N'078-05-1120'
DECLARE @b NVARCHAR(11) = N'219-09-9999'
DECLARE @born_a INT = 1961
DECLARE @born_b INT = 1984
INSERT INTO patients (id, number, born, ward) VALUES (1, @a, @born_a, 3), (2, @b, @born_b, 4)
GO

-- A number is there once: cells of a deterministic column are the same where their values are.
DECLARE @again NVARCHAR(11) = N'219-09-9999'
INSERT INTO patients (id, number) VALUES (3, @again)
GO

DECLARE @a NVARCHAR(11) = N'078-05-1120'
DECLARE @b NVARCHAR(11) = N'219-09-9999'
DECLARE @asthma NVARCHAR(20) = N'asthma'
DECLARE @gout NVARCHAR(20) = N'gout'
INSERT INTO visits VALUES (@a, 10, @asthma), (@b, 11, @gout), (@a, 12, @asthma), (@a, 15, NULL)
GO

-- The server finds a patient by a number that it cannot read.
DECLARE @number NVARCHAR(11) = N'078-05-1120'
SELECT id, number, born, ward FROM patients WHERE number = @number
GO

-- It joins on numbers, and counts findings, without reading one.
SELECT p.id, v.day, v.finding FROM patients AS p JOIN visits AS v ON p.number = v.number WHERE p.ward = 3
GO
SELECT finding, COUNT(*) AS visits FROM visits GROUP BY finding
GO

-- A randomized column can be kept and read, and not compared: two cells of one value differ.
DECLARE @year INT = 1961
SELECT id FROM patients WHERE born = @year
GO

-- Session 2 describes a query and waits. When it goes on, a table was made meanwhile, so it is asked to begin anew.
:session 2
DECLARE @number NVARCHAR(11) = N'219-09-9999'
SELECT ward FROM patients WHERE number = @number
:describe
:session 1
CREATE TABLE wards (ward INT, name NVARCHAR(20))
GO
:session 2
:execute
DECLARE @number NVARCHAR(11) = N'219-09-9999'
SELECT ward FROM patients WHERE number = @number
GO
