#!/bin/sh
# Runs each example with the program, in a copy of its folder, and compares what it prints with the stored text. An
# example with a file replies.bin is driven over it; of one with a file listing the recording is listed, too. The days
# of two_machines are run over one journal. Also compares each script that is run with its copy among the scripts of
# the gate, and its text with what the gate wants of that copy. Prints a line for each example; ends with status 1 if
# one differs.
# Usage: tools/compare_examples.sh [PROGRAM], which is ./ae if it is left out; with - for PROGRAM nothing is run.
set -u
top=$(CDPATH="" cd -- "$(dirname -- "$0")/.." && pwd) || exit 1
program=${1:-$top/ae}
tests=$top/crates/script_tests
folder=$(mktemp -d) || exit 1
trap 'rm -rf "$folder"' EXIT
differ=0

# says WHAT: prints what differs in the example $name, and notes that something does.
says() {
    echo "$name: $1"
    alike='' differ=1
}

for script in "$top"/examples/*/script.sql "$top"/examples/*/*/script.sql; do
    example=$(dirname "$script")
    name=${example#"$top/examples/"}
    alike=1 command=run
    if [ -f "$example/replies.bin" ]; then
        command=drive
    else
        copy=$(echo "$name" | tr - _).sql
        cmp -s "$script" "$tests/data/$copy" || says "the script differs from its copy in script_tests"
        awk -v head="== $copy" '$0 == head { on = 1; next } on && /^status [0-9]+$/ { exit } on' "$tests/stdout" |
            cmp -s - "$example/text" || says "the text differs from that of its copy in script_tests"
    fi
    if [ "$program" != - ]; then
        rm -rf "$folder/at" && cp -r "$example" "$folder/at"
        status=0
        (cd "$folder/at" && "$program" "$command" <script.sql >said) || status=$?
        [ "$status" -le 1 ] || says "status $status"
        diff "$example/text" "$folder/at/said" || says "the text differs"
        if [ -f "$example/listing" ]; then
            "$top/ae" view <"$folder/at/tap.bin" | diff "$example/listing" - || says "the listing differs"
        fi
    fi
    [ -z "$alike" ] || echo "$name: alike"
done

if [ "$program" != - ]; then
    name=two_machines alike=1
    rm -rf "$folder/at" && cp -r "$top/examples/$name" "$folder/at"
    for day in first second; do
        status=0
        (cd "$folder/at" && python3 "$top/over.py" "$program" "$program" serve --journal <"${day}_day.sql" >said) || status=$?
        [ "$status" = 1 ] || says "$day day: status $status"
        diff "$folder/at/${day}_day.text" "$folder/at/said" || says "$day day: the text differs"
    done
    [ -z "$alike" ] || echo "$name: alike"
fi
exit "$differ"
