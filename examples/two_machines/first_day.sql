-- The first day of a practice that rents its database: keys, tables and rows. The server keeps a journal, so what was answered here
-- is there on the second day, also if it was killed meanwhile.
CREATE COLUMN MASTER KEY practice WITH (KEY_STORE_PROVIDER_NAME = N'KEYFILE', KEY_PATH = N'main')
GO
CREATE COLUMN ENCRYPTION KEY patients_key WITH VALUES (
    COLUMN_MASTER_KEY = practice,
    ALGORITHM = 'AES_256_KW',
    ENCRYPTED_VALUE = 0x693add69cc58456380c656773889542f4a668afa72adc727acc9c4eff4dac04cc98be258b15b4a7d)
GO
CREATE TABLE patients (
    id INT NOT NULL UNIQUE,
    number NVARCHAR(11) COLLATE Latin1_General_BIN2
        ENCRYPTED WITH (COLUMN_ENCRYPTION_KEY = patients_key, ENCRYPTION_TYPE = DETERMINISTIC, ALGORITHM = 'AEAD_AES_256_CBC_HMAC_SHA256')
        NOT NULL UNIQUE,
    note NVARCHAR(40) COLLATE Latin1_General_BIN2
        ENCRYPTED WITH (COLUMN_ENCRYPTION_KEY = patients_key, ENCRYPTION_TYPE = RANDOMIZED, ALGORITHM = 'AEAD_AES_256_CBC_HMAC_SHA256'))
GO
CREATE TABLE visits (
    number NVARCHAR(11) COLLATE Latin1_General_BIN2
        ENCRYPTED WITH (COLUMN_ENCRYPTION_KEY = patients_key, ENCRYPTION_TYPE = DETERMINISTIC, ALGORITHM = 'AEAD_AES_256_CBC_HMAC_SHA256'),
    day INT NOT NULL,
    room INT NOT NULL,
    UNIQUE (day, room))
GO

-- The server is somebody else's: no column key is used but under this master key, and what must not be seen is forced.
:trust main

DECLARE @a NVARCHAR(11) = N'078-05-1120'
DECLARE @b NVARCHAR(11) = N'219-09-9999'
DECLARE @note NVARCHAR(40) = N'allergic to penicillin'
:force @a
:force @b
:force @note
INSERT INTO patients (id, number, note) VALUES (1, @a, @note), (2, @b, NULL)
GO
DECLARE @a NVARCHAR(11) = N'078-05-1120'
DECLARE @b NVARCHAR(11) = N'219-09-9999'
:force @a
:force @b
INSERT INTO visits (number, day, room) VALUES (@a, 1, 10), (@b, 1, 11), (@a, 8, 10)
GO

-- A number is there once. It is the second unique key of its table.
DECLARE @b NVARCHAR(11) = N'219-09-9999'
:force @b
INSERT INTO patients (id, number) VALUES (3, @b)
GO

-- A transaction that is still open when the server ends: nothing of it is kept.
:session 2
BEGIN TRANSACTION
GO
UPDATE visits SET room = 12 WHERE day = 8
GO

-- Half a batch: it ends with this client.
:session 3
SELECT day FROM visits
:describe
