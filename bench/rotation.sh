#!/bin/sh
# A rotation of a table with one protected column to another column key, over N rows and over four times as many,
# beside the single INSERTs that made the rows. A rotation reads each row, opens its cell, seals it anew and inserts
# it in a transaction. Fails if it takes more than three times what the INSERTs took, or grows faster than the rows.
# Usage: bench/rotation.sh [N], at most 25000
. "$(dirname "$0")/lib.sh"
n=${1:-25000}
mkdir keys
printf '%s\n' 000102030405060708090a0b0c0d0e0f101112131415161718191a1b1c1d1e1f >keys/main.key

# rows COUNT: the keys, the two tables and COUNT rows
rows() {
    for key in k j; do
        echo "$key" | od -An -tx1 | tr -d ' \n' | awk '{ while (length($0) < 64) $0 = $0 $0; print substr($0, 1, 64) }' >"$key"
    done
    echo "CREATE COLUMN MASTER KEY m WITH (KEY_STORE_PROVIDER_NAME = N'KEYFILE', KEY_PATH = N'main')"
    echo GO
    for key in k j; do
        echo "CREATE COLUMN ENCRYPTION KEY $key WITH VALUES (COLUMN_MASTER_KEY = m, ALGORITHM = 'AES_256_KW', ENCRYPTED_VALUE = 0x$("$top/ae" wrap main <"$key"))"
        echo GO
    done
    for pair in 't k' 'u j'; do
        echo "CREATE TABLE ${pair% *} (id INT, c NVARCHAR(8) COLLATE Latin1_General_BIN2 ENCRYPTED WITH (COLUMN_ENCRYPTION_KEY = ${pair#* }, ENCRYPTION_TYPE = DETERMINISTIC, ALGORITHM = 'AEAD_AES_256_CBC_HMAC_SHA256'))"
        echo GO
    done
    awk -v n="$1" 'BEGIN { for (i = 0; i < n; i++) printf "DECLARE @c NVARCHAR(8) = N\047%d\047\nINSERT INTO t (id, c) VALUES (%d, @c)\nGO\n", i, i }'
}

# rotated COUNT: the seconds of the INSERTs, and those of the rotation after them
rotated() {
    rows "$1" >script
    inserts=$(seconds 0 run)
    echo ':rotate t u' >>script
    both=$(seconds 0 run)
    [ "$(tail -n 1 text)" = "rotated $1 rows" ]
    awk -v a="$inserts" -v b="$both" 'BEGIN { printf "%.3f %.3f\n", a, b - a }'
}

few=$(rotated "$n")
many=$(rotated $((4 * n)))
growth "$n single INSERTs of a protected value" "${few% *}" "${many% *}"
growth "their rotation to another column key" "${few#* }" "${many#* }"
awk -v a="${many% *}" -v b="${many#* }" 'BEGIN { printf "%-50s %8.2f\n", "the rotation, as INSERTs", b / a; exit b > 3 * a }'
