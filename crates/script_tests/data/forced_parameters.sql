CREATE COLUMN MASTER KEY M WITH (KEY_STORE_PROVIDER_NAME = N'KEYFILE', KEY_PATH = N'main')
GO
CREATE COLUMN ENCRYPTION KEY K WITH VALUES (COLUMN_MASTER_KEY = M, ALGORITHM = 'AES_256_KW', ENCRYPTED_VALUE = 0x28C9F404C4B810F4CBCCB35CFB87F8263F5786E2D80ED326CBC7F0E71A99F43BFB988B9B7A02DD21)
GO
CREATE TABLE u (id INT, c NVARCHAR(8) ENCRYPTED WITH (COLUMN_ENCRYPTION_KEY = K, ENCRYPTION_TYPE = DETERMINISTIC, ALGORITHM = 'AEAD_AES_256_CBC_HMAC_SHA256'))
GO
-- A forced parameter is sent as a cell, or its batch is refused and gone.
DECLARE @id INT = 1
DECLARE @p NVARCHAR(8) = N'x'
:force @p
INSERT INTO u (id, c) VALUES (@id, @p)
GO
DECLARE @p INT = 1
:force @p
SELECT id FROM u WHERE id = @p
GO
-- NULL goes as NULL, and isn't in the open.
DECLARE @p NVARCHAR(8) = NULL
 :force @p	
INSERT INTO u (id, c) VALUES (2, @p)
GO
-- The first in the order of the declarations: @a isn't in the statement, @b is plain.
DECLARE @a INT = 1
DECLARE @p NVARCHAR(8) = N'x'
DECLARE @b INT = 2
:force @b
:force @p
:force @a
SELECT id FROM u WHERE c = @p AND id = @b
GO
DECLARE @p INT = 1
:force @p
SELECT id FROM u WHERE id = @p
:describe
:execute
DECLARE @p INT = 3000000000
:force @p
SELECT id FROM u WHERE id = @p
GO
DECLARE @p INT = 1
:force @p
SELEC
GO
SELECT id, c FROM u
GO
