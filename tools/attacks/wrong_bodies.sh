#!/bin/sh
# The wrong bodies of tools/attacks/wrong-bodies, which the gate doesn't try, in a copy of the committed files: the
# prover must reject each.
# Usage: tools/attacks/wrong_bodies.sh [CRATE..], all of them if none is named
. "$(dirname "$0")/../../bench/lib.sh"
git -C "$top" archive HEAD | tar x
# shellcheck disable=SC2046
[ $# -ge 1 ] || set -- $(ls "$top/tools/attacks/wrong-bodies")
find crates -name '*.edit' -delete
for crate; do
    mkdir -p "crates/$crate/must-fail"
    cp "$top/tools/attacks/wrong-bodies/$crate"/*.edit "crates/$crate/must-fail"
done
rt must-fail "$@"
