#!/bin/sh
# A recording of N MB listed, and one of four times as many, with the same thousand different cells: processor
# seconds, and the most memory. Fails if that is above 64 MB, or if the text doesn't end with the counts of the
# recording.
# Usage: bench/view.sh [N [PROGRAM]], N at most 268, with python3
. "$(dirname "$0")/lib.sh"
n=${1:-25}
program=${2:-$top/built/ae-view}
[ $# -ge 2 ] || "$top/ae" view </dev/null >/dev/null # builds it
python3 "$top/bench/view.py" "$program" "${n}000000" "$((4 * n))000000" >figures
read -r small small_kb <figures
read -r large large_kb <<END
$(sed -n 2p figures)
END
growth "$n MB of recorded frames listed" "$small" "$large"
awk -v a="$small_kb" -v b="$large_kb" 'BEGIN {
    printf "memory: %.1f MB, and %.1f MB for four times as much\n", a / 1000, b / 1000
    exit b > 65536
}'
