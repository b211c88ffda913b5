-- A payroll service: what is paid, and to which account, is read by the driver alone.
-- The master key is in keys/main.key; two column keys are wrapped under it.
CREATE COLUMN MASTER KEY payroll WITH (KEY_STORE_PROVIDER_NAME = N'KEYFILE', KEY_PATH = N'main')
GO
CREATE COLUMN ENCRYPTION KEY accounts_key WITH VALUES (
    COLUMN_MASTER_KEY = payroll,
    ALGORITHM = 'AES_256_KW',
    ENCRYPTED_VALUE = 0x220c697988644e355dd40228bdd25f9b9d4c66402a54b592cd1a9f896ebe365b7de76170401d9ef2)
GO
CREATE COLUMN ENCRYPTION KEY pay_key WITH VALUES (
    COLUMN_MASTER_KEY = payroll,
    ALGORITHM = 'AES_256_KW',
    ENCRYPTED_VALUE = 0x774833ae4facafdf41217617485f1bf1266271dda85e4a65913950221fe577f961d46ab623194744)
GO
CREATE TABLE staff (
    id INT NOT NULL UNIQUE,
    grade INT NOT NULL,
    account NVARCHAR(12)
        ENCRYPTED WITH (COLUMN_ENCRYPTION_KEY = accounts_key, ENCRYPTION_TYPE = DETERMINISTIC, ALGORITHM = 'AEAD_AES_256_CBC_HMAC_SHA256')
        UNIQUE,
    pay BIGINT
        ENCRYPTED WITH (COLUMN_ENCRYPTION_KEY = pay_key, ENCRYPTION_TYPE = RANDOMIZED, ALGORITHM = 'AEAD_AES_256_CBC_HMAC_SHA256'))
GO
CREATE TABLE transfers (
    month INT,
    account NVARCHAR(12)
        ENCRYPTED WITH (COLUMN_ENCRYPTION_KEY = accounts_key, ENCRYPTION_TYPE = DETERMINISTIC, ALGORITHM = 'AEAD_AES_256_CBC_HMAC_SHA256'),
    amount BIGINT
        ENCRYPTED WITH (COLUMN_ENCRYPTION_KEY = pay_key, ENCRYPTION_TYPE = RANDOMIZED, ALGORITHM = 'AEAD_AES_256_CBC_HMAC_SHA256'))
GO

DECLARE @a1 NVARCHAR(12) = N'AT-1000'
DECLARE @a2 NVARCHAR(12) = N'AT-2000'
DECLARE @a3 NVARCHAR(12) = N'AT-3000'
DECLARE @p1 BIGINT = 410000
DECLARE @p2 BIGINT = 285050
DECLARE @p3 BIGINT = 285050
INSERT INTO staff VALUES (1, 7, @a1, @p1), (2, 4, @a2, @p2), (3, 4, @a3, @p3)
GO
DECLARE @a1 NVARCHAR(12) = N'AT-1000'
DECLARE @a2 NVARCHAR(12) = N'AT-2000'
DECLARE @m BIGINT = 410000
DECLARE @n BIGINT = 285050
INSERT INTO transfers VALUES (1, @a1, @m), (1, @a2, @n), (2, @a1, @m)
GO

-- Plain columns order and choose; protected ones come along as cells.
SELECT TOP (2) id, account, pay FROM staff ORDER BY grade, id DESC
GO
SELECT DISTINCT account FROM transfers
GO
SELECT s.id, t.month, t.amount FROM staff AS s JOIN transfers AS t ON s.account = t.account WHERE t.month = 1
GO

-- A raise: the new pay is sealed by the driver, and set where the grade says so.
DECLARE @raised BIGINT = 300000
UPDATE staff SET pay = @raised, grade = grade + 1 WHERE grade = 4
GO
SELECT id, grade, pay FROM staff WHERE grade > 4 ORDER BY id
GO

-- What a typing can't admit is refused: pay is randomized, and nothing adds to it on the server.
UPDATE staff SET pay = pay + 100
GO
-- And nothing compares an account with what stands in a text of the statement.
DELETE FROM transfers WHERE account = N'AT-1000'
GO
DECLARE @account NVARCHAR(12) = N'AT-1000'
DELETE FROM transfers WHERE account = @account
GO
SELECT month, account, amount FROM transfers
GO
