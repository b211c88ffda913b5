#!/bin/sh
# Recorded requests served again, over and over: 50 MB and four times as many, in processor seconds and with the most
# memory. Then 200 kB that arrive byte by byte. Fails if memory grows by more than a tenth.
# Usage: bench/serve.sh [MEGABYTES], with python3 installed
. "$(dirname "$0")/lib.sh"
megabytes=${1:-50}

# A row of 8,000 bytes that is changed and read, again and again: what the server keeps doesn't grow.
awk 'BEGIN {
    print "CREATE TABLE t (a INT, b VARBINARY(8000))\nGO\nINSERT INTO t (a, b) VALUES (1, NULL)\nGO"
    for (i = 0; i < 200; i++) {
        printf "DECLARE @b VARBINARY(8000) = 0x"
        for (k = 0; k < 8000; k++) printf "%02x", (i + k) % 256
        print "\nUPDATE t SET b = @b WHERE a = 1\nGO\nSELECT a FROM t WHERE b IS NOT NULL\nGO"
    }
}' >script
"$top/ae" run <script >text
# the figures: seconds and KB of each size; bytes and seconds of the pipe
python3 "$top/bench/serve.py" "$top/ae" "$megabytes" >figures
read -r small small_kb large large_kb bytes piped <figures
growth "$megabytes MB of requests (processor seconds)" "$small" "$large"
single "$bytes bytes of requests, one by one" "$piped"
awk -v a="$small_kb" -v b="$large_kb" 'BEGIN { printf "memory: %.1f MB, and %.1f MB for four times as much\n", a / 1000, b / 1000; exit 10 * b > 11 * a }'
