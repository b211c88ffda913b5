#!/bin/sh
# A script of N batches and one of four times as many: INSERTs of two parameters, then 20 queries that visit every
# row. A step costs what its text and the rows that it visits cost, whatever came before it.
# Usage: bench/batches.sh [N]
. "$(dirname "$0")/lib.sh"
n=${1:-5000}

batches() {
    echo 'CREATE TABLE t (a INT, b INT)'
    echo GO
    awk -v n="$1" 'BEGIN {
        for (i = 0; i < n; i++) printf "DECLARE @a INT = %d\nDECLARE @b INT = %d\nINSERT INTO t (a, b) VALUES (@a, @b)\nGO\n", i, i % 97
        for (i = 0; i < 20; i++) printf "DECLARE @b INT = %d\nSELECT a FROM t WHERE b < @b\nGO\n", i
    }'
}

batches "$n" >script
small=$(seconds 0 run)
batches $((4 * n)) >script
growth "$n batches" "$small" "$(seconds 0 run)"
