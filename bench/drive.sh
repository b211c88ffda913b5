#!/bin/sh
# Runs each example and compares the text with the one beside it. Then drives it again over the recorded replies, and
# serves the recorded requests: text, status and replies are the same, also where the server writes the replies into a
# pipe. With a byte too few or too many, driving ends with status 11. An example with replies of its own is left out:
# tools/compare_examples.sh drives it.
# Usage: bench/drive.sh, with python3 installed
. "$(dirname "$0")/lib.sh"

# drives STATUS: drives the script, which must end so; its text goes to `again`.
drives() {
    ended=0
    "$top/ae" drive <"$script" >again 2>said || ended=$?
    [ "$ended" = "$1" ] || { echo "$example: status $ended, not $1" && exit 1; }
}

for script in "$top"/examples/*/script.sql; do
    example=$(dirname "$script")
    [ ! -f "$example/replies.bin" ] || continue
    rm -rf "$folder/at" && mkdir "$folder/at" && cd "$folder/at"
    if [ -d "$example/keys" ]; then cp -r "$example/keys" .; fi
    ran=0
    "$top/ae" run <"$script" >text || ran=$?
    cmp text "$example/text"
    python3 "$top/tools/apart.py"
    drives "$ran"
    cmp text again
    "$top/ae" serve <requests.bin | cmp - replies.bin
    size=$(wc -c <replies.bin)

    mv replies.bin whole
    mkfifo replies.bin
    "$top/ae" serve <requests.bin >replies.bin &
    drives "$ran"
    wait
    cmp text again
    rm replies.bin

    { cat whole && printf x; } >replies.bin
    drives 11
    cmp text again
    [ "$(cat said)" = "ae: bad reply at $size" ]
    head -c $((size - 1)) whole >replies.bin
    drives 11
    echo "${example##*/}: $size bytes of replies, status $ran"
done
