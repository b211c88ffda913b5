#!/bin/sh
# Refused statements cost what they say and read, and leave nothing behind: N INSERTs of a row that is new by the
# first unique key and not by the second, and four times as many; then 200 DELETEs that hit none of N / 4 rows with a
# unique key, and none of N.
# Usage: bench/refused.sh [N]
. "$(dirname "$0")/lib.sh"
n=${1:-40000}

twins() {
    awk -v n="$1" 'BEGIN {
        print "CREATE TABLE t (a INT UNIQUE, b INT UNIQUE)\nGO\nINSERT INTO t (a, b) VALUES (0, 0)\nGO"
        for (i = 1; i <= n; i++) printf "INSERT INTO t (a, b) VALUES (%d, 0)\nGO\n", i
    }'
}

misses() {
    awk -v n="$1" 'BEGIN {
        print "CREATE TABLE t (a INT UNIQUE)\nGO"
        for (i = 0; i < n; i++) printf "%s(%d)%s", i % 500 ? ", " : "INSERT INTO t (a) VALUES ", i, i % 500 < 499 && i < n - 1 ? "" : "\nGO\n"
        for (i = 0; i < 200; i++) printf "DELETE FROM t WHERE a = %d\nGO\n", n
    }'
}

twins "$n" >script
small=$(seconds 1 run)
twins $((4 * n)) >script
growth "$n refused INSERTs" "$small" "$(seconds 1 run)"

misses $((n / 4)) >script
small=$(seconds 0 run)
misses "$n" >script
growth "200 DELETEs that hit none of $((n / 4)) rows" "$small" "$(seconds 0 run)"
