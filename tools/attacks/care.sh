#!/bin/sh
# What the guide says of the care of a journal, tried with the program: a second server over one file, N copies of the
# file by cp while a server runs, N servers that are killed and whose successors a supervisor starts before that, a link
# to a file that isn't there, a folder of that name, and what the launcher says of each fault.
# Usage: tools/attacks/care.sh [N], with python3 installed
. "$(dirname "$0")/../../bench/lib.sh"
PYTHONPATH=$top/bench python3 "$top/tools/attacks/care.py" "$top/ae" "${1:-40}"
