#!/bin/sh
# Each limit reached, and passed by one: the seconds, and the most memory that the program had, which may not be more
# than a bound. The rows say what was passed; each ends with the status and the last line that the limit asks for,
# else the script fails.
# Usage: bench/limits.sh [PROGRAM], with python3 installed
. "$(dirname "$0")/lib.sh"
program=${1:-$top/built/ae}
[ $# -ge 1 ] || "$top/ae" build
mkdir keys
echo 000102030405060708090a0b0c0d0e0f101112131415161718191a1b1c1d1e1f >keys/main.key
python3 "$top/bench/limits.py" "$program"
