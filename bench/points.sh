#!/bin/sh
# Statements that name rows by a unique key, in a table of N / 4 and of N rows with a plain and a protected one: SELECT,
# also with IN, a join, UPDATE of another column and of the key, DELETE, and a transaction of an INSERT, this also in a
# table with a plain key alone. Beside them sqlite3 in memory with the same keys, whose cells Python's `cryptography`
# seals meanwhile. In processor milliseconds of one statement, the least of five runs; `times` is the larger quotient of
# ours and sqlite3's. Fails if one takes more than 1.5 times as long among N rows, if one takes longer than sqlite3 where
# a cell is sealed, or more than three times as long where none is, and if the numbers of rows aren't sqlite3's. Joins
# by a plain key, and a transaction without a cell, have no bound beside sqlite3, the join by a protected key three times.
# Usage: bench/points.sh [N], N from 4000 to 150000
. "$(dirname "$0")/lib.sh"
program=${AE:-$top/built/ae}
[ -n "${AE:-}" ] || "$top/ae" build
n=${1:-100000}
cp -r "$top/examples/payroll/keys" keys
# The master key and the first column key are those of the example payroll.
awk '/^CREATE COLUMN/ { on = 1 } on { print } /^GO/ { if (on) count++; on = 0 } count == 2 { exit }' "$top/examples/payroll/script.sql" >setup
if python3 -c 'import sqlite3, cryptography' 2>/dev/null; then
    python3 "$top/bench/points.py" "$program" keys/main.key "$n"
else
    echo 'sqlite3 and cryptography of Python are not installed'
fi
