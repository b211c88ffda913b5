#!/bin/sh
# The memory of a server whose table has N rows of one protected number, without and with a unique key, and of 64
# transactions over the latter that are open at once, each of which has inserted a row: what it has, the most that it
# had, and both by row. Fails if a row with its key takes more than 300 bytes at most, or the transactions as much as the
# table.
# Usage: bench/memory.sh [N], N from 10000 to 999999, with python3
. "$(dirname "$0")/lib.sh"
# The master key and the first column key are those of the example payroll.
awk '/^CREATE COLUMN/ { on = 1 } on { print } /^GO/ { if (on) count++; on = 0 } count == 2 { exit }' "$top/examples/payroll/script.sql" >setup
program=${AE:-$top/built/ae}
[ -n "${AE:-}" ] || "$top/ae" build
python3 "$top/bench/memory.py" "$program" "${1:-999999}"
