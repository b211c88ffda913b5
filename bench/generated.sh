#!/bin/sh
# The script of N rows that `ae gen` writes, and that of four times as many: rows that are inserted one by one into a
# table with a unique key. A row costs the same however many rows are there. Usage: bench/generated.sh [N], N at most
# 5000.
. "$(dirname "$0")/lib.sh"
n=${1:-5000}
mkdir keys
# shellcheck disable=SC2046
printf '%02x' $(seq 0 31) >keys/main.key

# What 1,000 rows come to: 10 groups and one count are shown, and each of 1,005 steps asks twice.
"$top/ae" gen 1000 >script
printf 'steps 1005\nerrors 0\nrows 11\nrequests 2010\n' >summary
for _ in 1 2; do
    "$top/ae" run --summary <script | cmp - summary
done

"$top/ae" gen "$n" >script
small=$(seconds 0 run --summary)
"$top/ae" gen $((4 * n)) >script
growth "$n rows under a unique key" "$small" "$(seconds 0 run --summary)"
