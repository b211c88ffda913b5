#!/bin/sh
# N rows that are inserted one by one into a table with a unique key, and four times as many; then UPDATEs of one row
# among these, beside queries that walk through the same rows. Both beside sqlite3 in memory on the same rows, in
# processor seconds with those of child processes. Usage: bench/rows.sh [N], N at most 25000, with python3 and its
# sqlite3
. "$(dirname "$0")/lib.sh"
n=${1:-25000}
if python3 -c 'import sqlite3' 2>/dev/null; then
    python3 "$top/bench/rows.py" "$top/ae" "$n"
else
    echo 'sqlite3 of Python is not installed'
fi
