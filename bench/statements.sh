#!/bin/sh
# 4,000 statements of N conditions each, and of four times as many; then 100 statements of 15 kB, and of 60 kB, near
# the limit of a statement. A statement is read in time linear in its text. Usage: bench/statements.sh [N]
. "$(dirname "$0")/lib.sh"
n=${1:-20}

# So many SELECTs over an empty table, each with so many conditions.
statements() {
    echo 'CREATE TABLE t (a INT, b INT)'
    echo GO
    awk -v count="$1" -v n="$2" 'BEGIN {
        for (i = 0; i < count; i++) {
            printf "SELECT a FROM t WHERE a = %d", i
            for (j = 1; j < n; j++) printf " %s b IS NULL", j % 2 ? "OR" : "AND"
            print "\nGO"
        }
    }'
}

# timed COUNT CONDITIONS
timed() {
    statements "$1" "$2" >script
    seconds 1 run
}

small=$(timed 4000 "$n")
growth "4,000 statements of $n conditions" "$small" "$(timed 4000 $((4 * n)))"
small=$(timed 100 1000)
growth "100 statements of 15 kB" "$small" "$(timed 100 4000)"
