#!/bin/sh
# N single INSERTs: served without a journal, with one, and in sqlite3 with synchronous=FULL, whose every change is a
# transaction of its own, on the same disk. Prints the milliseconds of a request and the syncs of each. Fails if the
# durable server doesn't sync a record, open its gate, and sync again, before it replies.
# Usage: bench/journal.sh [N], with python3 installed; strace shows the calls if it is installed
. "$(dirname "$0")/lib.sh"
python3 "$top/bench/journal.py" "$top/ae" "${1:-2000}"
