#!/bin/sh
# 64 sessions that each begin a transaction, insert a row and commit, one after another, over a table of N rows, and
# over one of four times as many. A BEGIN copies no row, and a statement in a transaction costs what it costs outside.
# Fails if a COMMIT is refused. Then the same statements in sqlite3, over 64 connections, if it is installed.
# Usage: bench/transactions.sh [N], N a multiple of 1000, at most 24000
. "$(dirname "$0")/lib.sh"
n=${1:-10000}

steps() {
    awk -v n="$1" 'BEGIN {
        print "CREATE TABLE t (a INT, b INT)\nGO"
        for (i = 0; i < n; i++) printf "%s(%d, %d)%s", i % 1000 ? ", " : "INSERT INTO t (a, b) VALUES ", i, i % 7, i % 1000 == 999 ? "\nGO\n" : ""
        for (i = 1; i <= 64; i++) {
            printf ":session %d\nBEGIN TRANSACTION\nGO\n", i
            printf "INSERT INTO t (a, b) VALUES (%d, 8)\nGO\nCOMMIT\nGO\n", i
        }
        print "SELECT COUNT(*) AS n FROM t WHERE b = 8"
    }'
}

# timed ROWS: the seconds, if each session's row is there at the end
timed() {
    steps "$1" >script
    seconds 0 run
    [ "$(tail -n 2 text | head -n 1)" = 64 ]
}

small=$(timed "$n")
large=$(timed $((4 * n)))
growth "64 transactions over $n rows" "$small" "$large"

if python3 -c 'import sqlite3' 2>/dev/null; then
    took=$(python3 "$top/bench/transactions.py" "$n" $((4 * n)))
    growth "the same in sqlite3" "${took% *}" "${took#* }" 1000
else
    echo 'sqlite3 of Python is not installed'
fi
