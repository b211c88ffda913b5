#!/bin/sh
# A durable server, killed by signal 9 at random moments of a load of N requests, R times, each time over the file
# that the last run left. After each start all that was answered is there, nothing that wasn't asked, and each
# transaction whole or not at all. Fails if anything was lost or added. A signal ends the process and not the machine:
# what a loss of power leaves is not tried.
# Usage: tools/attacks/crash.sh [N] [R] [SEED], with python3 installed
. "$(dirname "$0")/../../bench/lib.sh"
PYTHONPATH=$top/bench python3 "$top/tools/attacks/crash.py" "$top/ae" "${1:-10000}" "${2:-1000}" "${3:-1}"
