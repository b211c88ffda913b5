#!/bin/sh
# `ae compact`, killed by signal 9 R times at random moments while it writes the new file, or puts it in the journal's
# place, over a journal of N changes with transactions and definitions. Each time the journal is the old file or the
# new one, byte by byte, and a server over it finds the same rows in the same order. Fails otherwise. A signal ends
# the process and not the machine: what a loss of power leaves is not tried.
# Usage: tools/attacks/compact.sh [N] [R] [SEED], with python3 installed
. "$(dirname "$0")/../../bench/lib.sh"
PYTHONPATH=$top/bench python3 "$top/tools/attacks/compact.py" "$top/ae" "${1:-20000}" "${2:-200}" "${3:-1}"
