-- A badly chosen column. A diagnosis has one of three values, and the column is DETERMINISTIC so that visits can be found and counted
-- by it. Equal values have equal cells: whoever runs the database sees how often each of the three comes, and which visits have it.
-- The file `listing` is what `ae view < tap.bin` prints after a run.
CREATE COLUMN MASTER KEY practice WITH (KEY_STORE_PROVIDER_NAME = N'KEYFILE', KEY_PATH = N'main')
GO
CREATE COLUMN ENCRYPTION KEY k WITH VALUES (COLUMN_MASTER_KEY = practice, ALGORITHM = 'AES_256_KW',
    ENCRYPTED_VALUE = 0x693add69cc58456380c656773889542f4a668afa72adc727acc9c4eff4dac04cc98be258b15b4a7d)
GO
CREATE TABLE visits (id INT NOT NULL UNIQUE, diagnosis NVARCHAR(20) COLLATE Latin1_General_BIN2 ENCRYPTED WITH (
    COLUMN_ENCRYPTION_KEY = k, ENCRYPTION_TYPE = DETERMINISTIC, ALGORITHM = 'AEAD_AES_256_CBC_HMAC_SHA256'))
GO

-- Eight visits, and the three values as three cells. The names of parameters go in the open: @flu in place of @a would tell what the
-- first cell is.
DECLARE @a NVARCHAR(20) = N'flu'
DECLARE @b NVARCHAR(20) = N'asthma'
DECLARE @c NVARCHAR(20) = N'gout'
INSERT INTO visits VALUES (1, @a), (2, @b), (3, @a), (4, @a), (5, @c), (6, @a), (7, @b), (8, @a)
GO

-- The operator sees which visits have the same diagnosis.
SELECT id, diagnosis FROM visits
GO

-- The server counts what it can't read, and its operator reads the counts.
SELECT diagnosis, COUNT(*) AS visits FROM visits GROUP BY diagnosis
GO
