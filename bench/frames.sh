#!/bin/sh
# N rows with a protected value inserted and read back through both ends over frames of version 2, and four times as
# many: processor seconds, and the most memory. Then N / 2.5 rows in both versions: the bytes of the frames and
# processor seconds, beside sqlite3 in memory with the same cells. Fails if the text of the two versions differs, or
# more than 1 GiB of memory is taken.
# Usage: bench/frames.sh [N [PROGRAM]], N at most 250000, with python3 and its sqlite3
. "$(dirname "$0")/lib.sh"
n=${1:-250000}
program=${2:-$top/built/ae}
[ $# -ge 2 ] || "$top/ae" build
mkdir keys
echo 000102030405060708090a0b0c0d0e0f101112131415161718191a1b1c1d1e1f >keys/main.key
python3 "$top/bench/frames.py" "$program" "$n" >figures
awk '$1 != "growth"' figures
read -r small small_kb large large_kb <<END
$(awk '$1 == "growth" { print $2, $3, $4, $5 }' figures)
END
growth "$n rows inserted and read back, --frames 2" "$small" "$large" 6
awk -v a="$small_kb" -v b="$large_kb" 'BEGIN {
    printf "memory: %.1f MB, and %.1f MB for four times as much\n", a / 1000, b / 1000
    exit b > 1048576
}'
