#!/bin/sh
# A join of two tables of N rows each by one key, plain and protected, and of N / 4 rows, beside the same join in
# sqlite3 in memory, in processor time, the least of three measures. Each row matches one row of the other table.
# Fails if from N / 4 to N its time grows more than twice as much as sqlite3's, which misses the processor's caches as
# well, or if a number of rows isn't sqlite3's.
# Usage: bench/joins.sh [N], N from 4 to 100000, with python3 and its sqlite3
. "$(dirname "$0")/lib.sh"
n=${1:-100000}
cp -r "$top/examples/payroll/keys" keys
# The master key and the first column key are those of the example payroll.
awk '/^CREATE COLUMN/ { on = 1 } on { print } /^GO/ { if (on) count++; on = 0 } count == 2 { exit }' "$top/examples/payroll/script.sql" >setup
if python3 -c 'import sqlite3' 2>/dev/null; then
    python3 "$top/bench/joins.py" "$top/ae" "$n"
else
    echo 'sqlite3 of Python is not installed'
fi
