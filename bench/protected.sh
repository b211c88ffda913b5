#!/bin/sh
# N steps over protected columns, and four times as many: INSERTs of a deterministic and a randomized value, and a
# grouped read after each quarter of them. Then the same work in sqlite3, with cells sealed by Python's
# `cryptography`, if both are installed.
# Usage: bench/protected.sh [N]
. "$(dirname "$0")/lib.sh"
n=${1:-5000}
cp -r "$top/examples/payroll/keys" keys

# The master key and the first column key are those of the example payroll.
steps() {
    awk '/^CREATE COLUMN/ { on = 1 } on { print } /^GO/ { if (on) count++; on = 0 } count == 2 { exit }' "$top/examples/payroll/script.sql"
    awk -v n="$1" 'BEGIN {
        kind = "ENCRYPTED WITH (COLUMN_ENCRYPTION_KEY = accounts_key, ENCRYPTION_TYPE = %s, ALGORITHM = \047AEAD_AES_256_CBC_HMAC_SHA256\047)"
        printf "CREATE TABLE t (id INT, town NVARCHAR(12) " kind ", pay BIGINT " kind ")\nGO\n", "DETERMINISTIC", "RANDOMIZED"
        for (i = 1; i <= n; i++) {
            printf "DECLARE @town NVARCHAR(12) = N\047town %d\047\nDECLARE @pay BIGINT = %d\n", i % 97, 100000 + i
            printf "INSERT INTO t (id, town, pay) VALUES (%d, @town, @pay)\nGO\n", i
            if (i % (n / 4) == 0) print "SELECT town, COUNT(*) AS n FROM t GROUP BY town\nGO"
        }
    }'
}

steps "$n" >script
small=$(seconds 0 run)
tail -98 text >groups
steps $((4 * n)) >script
growth "$n protected steps" "$small" "$(seconds 0 run)"

if python3 -c 'import sqlite3, cryptography' 2>/dev/null; then
    took=$(python3 "$top/bench/protected.py" keys/main.key "$n" $((4 * n)) groups)
    growth "the same in sqlite3 and cryptography" "${took% *}" "${took#* }"
else
    echo 'sqlite3 and cryptography of Python are not installed'
fi
