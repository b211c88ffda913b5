# shellcheck shell=sh
# The head of each script of this folder: . "$(dirname "$0")/lib.sh", and of those in tools/attacks. It enters a new
# folder, which is removed at the end, and stops at the first command that fails. The program is $top/ae.
set -eu
top=$(CDPATH="" cd -- "$(dirname -- "$0")" && pwd)
while [ ! -f "$top/crates.txt" ] && [ "$top" != / ]; do top=$(dirname -- "$top"); done
folder=$(mktemp -d)
trap 'rm -rf "$folder"' EXIT
cd "$folder"

# seconds STATUS WORDS..: prints the seconds that `ae WORDS` takes on the file `script`, the least of three runs. Its
# output goes to the file `text`. It may end with that status instead of 0: 1 where statements are refused on purpose.
seconds() {
    status=$1 least=
    shift
    for _ in 1 2 3; do
        begin=$(date +%s.%N)
        "$top/ae" "$@" <script >text || [ $? = "$status" ]
        end=$(date +%s.%N)
        least=$(awk -v a="$begin" -v b="$end" -v least="$least" \
            'BEGIN { took = b - a; printf "%.3f", least == "" || took < least ? took : least }')
    done
    echo "$least"
}

# growth WHAT SMALL LARGE [MOST]: prints a row: the seconds of some work and of four times as much, and their
# quotient, also drawn: ten marks are four times as long. Fails if the quotient is above MOST, which is 5 if it is
# left out.
growth() {
    awk -v what="$1" -v a="$2" -v b="$3" -v most="${4:-5}" 'BEGIN {
        times = a > 0 ? b / a : 0
        bar = substr("####################", 1, int(times * 2.5 + 0.5))
        printf "%-50s %8.3f %8.3f %6.2f %s\n", what, a, b, times, bar
        exit times > most
    }'
}

# single WHAT SECONDS [MOST]: prints a row of one figure, and fails if it is above MOST.
single() {
    awk -v what="$1" -v a="$2" -v most="${3:-}" 'BEGIN { printf "%-50s %8.3f\n", what, a; exit most != "" && a > most }'
}
