-- The master key of a clinic is rotated: its column key is wrapped anew, under the next master key, and no cell changes.
CREATE COLUMN MASTER KEY m WITH (KEY_STORE_PROVIDER_NAME = N'KEYFILE', KEY_PATH = N'main')
GO
CREATE COLUMN ENCRYPTION KEY k WITH VALUES (COLUMN_MASTER_KEY = m, ALGORITHM = 'AES_256_KW',
    ENCRYPTED_VALUE = 0xd29fa348b506fb7c8df0ad97bd22b94a3ec5a9cc74787fb26eb58ffc9d91387901c82b4370386891)
GO
CREATE TABLE patients (id INT, number NVARCHAR(11) COLLATE Latin1_General_BIN2 ENCRYPTED WITH (
    COLUMN_ENCRYPTION_KEY = k, ENCRYPTION_TYPE = DETERMINISTIC, ALGORITHM = 'AEAD_AES_256_CBC_HMAC_SHA256'))
GO
DECLARE @number NVARCHAR(11) = N'078-05-1120'
INSERT INTO patients (id, number) VALUES (1, @number)
GO

-- The next master key, and the same column key wrapped under it: a second value.
CREATE COLUMN MASTER KEY n WITH (KEY_STORE_PROVIDER_NAME = N'KEYFILE', KEY_PATH = N'next')
GO
ALTER COLUMN ENCRYPTION KEY k ADD VALUE (COLUMN_MASTER_KEY = n, ALGORITHM = 'AES_256_KW',
    ENCRYPTED_VALUE = 0xd4c25613fe7bde013192a08e1d21b81ace7e81e760d5c05abd7e4c90381c1f4f79bf48da5355dffb)
GO

-- While both values are there, a client needs one of the two master keys.
DECLARE @number NVARCHAR(11) = N'078-05-1120'
SELECT id, number FROM patients WHERE number = @number
GO

-- Now the value under the old master key goes, and then that key; the last value of a column key stays.
ALTER COLUMN ENCRYPTION KEY k DROP VALUE (COLUMN_MASTER_KEY = m)
GO
DROP COLUMN MASTER KEY m
GO
ALTER COLUMN ENCRYPTION KEY k DROP VALUE (COLUMN_MASTER_KEY = n)
GO

-- The cells are those of before, and a client that has the next master key alone finds and reads them.
DECLARE @number NVARCHAR(11) = N'078-05-1120'
SELECT id, number FROM patients WHERE number = @number
GO
