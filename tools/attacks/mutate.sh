#!/bin/sh
# Requests and replies of both versions that were changed at random, each stream read by a program of its own: counts
# the statuses with which `ae serve` and `ae drive` end, and stops at the first that is none of theirs, at a signal,
# or where there is no end within a minute. That stream is then kept in the folder where this was started. It runs on
# all processors.
# Usage: tools/attacks/mutate.sh [STREAMS [SEED [PROGRAM]]], with python3 installed; STREAMS of each kind, 1,000,000
# if left out
started=$(pwd)
. "$(dirname "$0")/../../bench/lib.sh"
program=${3:-$top/built/ae}
[ $# -ge 3 ] || "$top/ae" build
python3 "$top/tools/attacks/mutate.py" "$program" "${1:-1000000}" "${2:-1}" "$top" "$started"
