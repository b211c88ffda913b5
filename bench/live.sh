#!/bin/sh
# Live pairs of processes, joined by the relay. The two days of examples/two_machines over one journal, with the
# server killed between; the first day in the shell; a server and a client that are killed in the middle of a load; a
# server that is killed inside an answer. What was answered has to be kept. Then N steps, each a change: `ae run`, the
# pair, the pair with a journal, and sqlite3 with synchronous=FULL on the same disk. Fails if a step over the pair
# costs 0.25 ms more of a processor than in a run.
# Usage: bench/live.sh [N], with python3 installed
. "$(dirname "$0")/lib.sh"
python3 "$top/bench/live.py" "$top" "${1:-1000}"
