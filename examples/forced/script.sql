-- A client that doesn't believe its server, and a server that lies: its replies are in replies.bin. Run it with `ae drive`.
-- Only keys under the master key `main` are used from here on.
:trust main
CREATE COLUMN MASTER KEY m WITH (KEY_STORE_PROVIDER_NAME = N'KEYFILE', KEY_PATH = N'main')
GO
CREATE COLUMN ENCRYPTION KEY k WITH VALUES (COLUMN_MASTER_KEY = m, ALGORITHM = 'AES_256_KW',
    ENCRYPTED_VALUE = 0x693add69cc58456380c656773889542f4a668afa72adc727acc9c4eff4dac04cc98be258b15b4a7d)
GO
CREATE TABLE patients (id INT, number NVARCHAR(11) COLLATE Latin1_General_BIN2 ENCRYPTED WITH (
    COLUMN_ENCRYPTION_KEY = k, ENCRYPTION_TYPE = DETERMINISTIC, ALGORITHM = 'AEAD_AES_256_CBC_HMAC_SHA256'))
GO
-- The server describes @number as plain. It may go as a cell only, so nothing is executed.
DECLARE @number NVARCHAR(11) = N'078-05-1120'
:force @number
SELECT id FROM patients WHERE number = @number
GO
-- Now it describes @number as protected, by a key under a master key of its own. That path isn't trusted.
DECLARE @number NVARCHAR(11) = N'078-05-1120'
:force @number
SELECT id FROM patients WHERE number = @number
GO
