#!/bin/sh
# A start over a journal of N single INSERTs, of N UPDATEs by a unique key over N / 10 rows, of N / 5 transactions of
# an INSERT, and of all these kinds over N rows: the processor seconds and the memory up to the first answer, as the
# journal was left, and after `ae compact`, with those of that; the least of three runs. Fails if the rows aren't the
# same in the same order, or if a start over the new journal takes more than 2 seconds for each 100,000 rows.
# Usage: bench/starts.sh [N], with python3 installed
. "$(dirname "$0")/lib.sh"
python3 "$top/bench/starts.py" "$top/ae" "${1:-100000}"
