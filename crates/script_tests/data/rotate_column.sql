-- Somebody who left a clinic knew its column key. The patients' numbers move to another one, all of them or none.
CREATE COLUMN MASTER KEY m WITH (KEY_STORE_PROVIDER_NAME = N'KEYFILE', KEY_PATH = N'main')
GO
CREATE COLUMN ENCRYPTION KEY k WITH VALUES (COLUMN_MASTER_KEY = m, ALGORITHM = 'AES_256_KW',
    ENCRYPTED_VALUE = 0x1f08d03cdd6860f41f572caa897f8462cf6513be997e83f86d34bc0aa2eb2141f54bb2c3eb3de93c)
GO
CREATE TABLE patients (id INT NOT NULL UNIQUE, number NVARCHAR(11) COLLATE Latin1_General_BIN2 ENCRYPTED WITH (
    COLUMN_ENCRYPTION_KEY = k, ENCRYPTION_TYPE = DETERMINISTIC, ALGORITHM = 'AEAD_AES_256_CBC_HMAC_SHA256'))
GO
DECLARE @number NVARCHAR(11) = N'078-05-1120'
INSERT INTO patients (id, number) VALUES (1, @number)
GO
DECLARE @number NVARCHAR(11) = NULL
INSERT INTO patients (id, number) VALUES (2, @number)
GO
DECLARE @number NVARCHAR(11) = N'219-09-9999'
INSERT INTO patients (id, number) VALUES (3, @number)
GO

-- A new column key under a new master key, and a table with the same columns under it.
CREATE COLUMN MASTER KEY n WITH (KEY_STORE_PROVIDER_NAME = N'KEYFILE', KEY_PATH = N'next')
GO
CREATE COLUMN ENCRYPTION KEY k2 WITH VALUES (COLUMN_MASTER_KEY = n, ALGORITHM = 'AES_256_KW',
    ENCRYPTED_VALUE = 0x42d391719c7141ea74ebac0594a4baa605c7e40bfdbc0d7e2e14ddb27cdcd9ec18ed053a205fd859)
GO
CREATE TABLE patients_next (id INT NOT NULL UNIQUE, number NVARCHAR(11) COLLATE Latin1_General_BIN2 ENCRYPTED WITH (
    COLUMN_ENCRYPTION_KEY = k2, ENCRYPTION_TYPE = DETERMINISTIC, ALGORITHM = 'AEAD_AES_256_CBC_HMAC_SHA256'))
GO

-- The client reads every row, seals it anew and writes it into the new table, which takes the old one's place and name.
:rotate patients patients_next

DECLARE @number NVARCHAR(11) = N'219-09-9999'
SELECT id, number FROM patients WHERE number = @number
GO

-- No column is under the old keys now, so they can go.
DROP COLUMN ENCRYPTION KEY k
GO
DROP COLUMN MASTER KEY m
GO
SELECT id, number FROM patients ORDER BY id
GO

-- There is no table of that name any more.
:rotate patients patients_next
