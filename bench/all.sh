#!/bin/sh
# Runs every script of this folder and prints one table: what was measured, the seconds at a size and at four times
# that size, their quotient, and the quotient drawn, where ten marks are linear growth. Ends with status 1 if one of
# them fails.
# Usage: bench/all.sh, on a machine with nothing else to do. The head of each script says what it measures.
set -u
bench=$(CDPATH="" cd -- "$(dirname -- "$0")" && pwd)
"$bench/../ae" build || exit

load() { cut -d ' ' -f 1 /proc/loadavg 2>/dev/null || echo unknown; }
model=$(sed -n 's/^model name[^:]*: //p' /proc/cpuinfo 2>/dev/null | head -n 1)
"$bench/../ae" --version
echo "machine: ${model:-$(uname -m)}, $(getconf _NPROCESSORS_ONLN) processors; load before: $(load)"
echo
printf '%-14s %-50s %8s %8s %6s\n' script what N 4N times
failed=
for script in "$bench"/*.sh; do
    name=$(basename "$script" .sh)
    case $name in all | lib) continue ;; esac
    said=$(sh "$script" 2>&1) || failed="$failed $name"
    echo "$said" | while IFS= read -r line; do printf '%-14s %s\n' "$name" "$line"; done
done
echo
echo "load after: $(load)${failed:+; FAILED:$failed}"
[ -z "$failed" ]
