-- Every statement and every line of the script language, each at work.
CREATE COLUMN MASTER KEY main_key WITH (KEY_STORE_PROVIDER_NAME = N'KEYFILE', KEY_PATH = N'main')
GO
CREATE COLUMN ENCRYPTION KEY names_key WITH VALUES (
    COLUMN_MASTER_KEY = main_key,
    ALGORITHM = 'AES_256_KW',
    ENCRYPTED_VALUE = 0x693add69cc58456380c656773889542f4a668afa72adc727acc9c4eff4dac04cc98be258b15b4a7d)
GO
CREATE TABLE people (
    id INT NOT NULL UNIQUE,
    name NVARCHAR(20) COLLATE Latin1_General_BIN2
        ENCRYPTED WITH (COLUMN_ENCRYPTION_KEY = names_key, ENCRYPTION_TYPE = DETERMINISTIC, ALGORITHM = 'AEAD_AES_256_CBC_HMAC_SHA256'),
    team INT,
    score BIGINT NULL,
    UNIQUE (team, name))
GO
CREATE TABLE [the teams] (id INT, title NVARCHAR(20), badge VARBINARY(2));
GO

-- Rows, with the columns named and without; values are parameters, literals and what is computed of them.
DECLARE @ada NVARCHAR(20) = N'Ada'
DECLARE @bob AS NVARCHAR(20) = 'Bob';
INSERT INTO people (id, name, team, score) VALUES (1, @ada, 1, 7 - 2), (2, @bob, 1, -(3 + 4)), (3, NULL, 2, NULL)
GO
INSERT [the teams] VALUES (1, N'It''s us', 0x00ff), (2, 'Others', NULL)
go

-- All columns; some columns under names of their own.
SELECT * FROM people ORDER BY id
GO
SELECT TOP (2) id, score + 10 AS more, score - 1 less FROM people WHERE score IS NOT NULL OR team <> 1 ORDER BY score DESC, id ASC
GO
SELECT DISTINCT team FROM people
GO
SELECT team, COUNT(*) AS members FROM people GROUP BY team ORDER BY team
GO

-- A protected column is compared with parameters and with columns under the same key.
DECLARE @ada NVARCHAR(20) = N'Ada'
DECLARE @id BIGINT = 3
SELECT p.id, t.title, t.badge FROM people AS p INNER JOIN [the teams] t ON p.team = t.id
WHERE p.name = @ada OR p.id IN (@id, 4) AND NOT (p.score >= 0 OR p.name IS NULL AND t.id != 2)
GO

-- Changes.
DECLARE @eve NVARCHAR(20) = N'Eve'
UPDATE people SET name = @eve, score = score + 1 WHERE id = 2
GO
DELETE FROM people WHERE score IS NULL
GO

-- Half a batch: it is described in session 1 and executed there, after a batch of session 2.
DECLARE @name NVARCHAR(20) = N'Eve'
SELECT id, name FROM people WHERE name NOT IN (@name)
:describe

:session 2
SELECT COUNT(*) FROM people
GO
:session 1
:execute

DROP TABLE people
GO
DROP TABLE [the teams]
GO
DROP COLUMN ENCRYPTION KEY names_key
GO
DROP COLUMN MASTER KEY main_key
