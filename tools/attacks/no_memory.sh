#!/bin/sh
# Each request for memory refused in turn, in a run of every_statement.sql, in its check, in driving it and in serving
# its requests: the output must be that of the whole, or its beginning with status 5. So too in a compaction of their
# journal, which must stay with status 5. Prints how many requests there were, and how each came out. A library that
# refuses them is put before the C library's. Usage:
# tools/attacks/no_memory.sh [PROGRAM], without the compaction then, with python3 and cc installed
. "$(dirname "$0")/../../bench/lib.sh"
program=${1:-$top/built/ae}
[ $# -ge 1 ] || "$top/ae" build
[ $# -ge 1 ] || { printf '\0' >journal.bin && "$top/ae" compact && rm journal.bin; } # which builds it
mkdir keys
echo 000102030405060708090a0b0c0d0e0f101112131415161718191a1b1c1d1e1f >keys/main.key

# The request of the number REFUSED, from 1, has no memory; a mark is then written to descriptor 3.
cc -x c -shared -fPIC -O1 -o refuse.so - -ldl <<'TEXT'
#define _GNU_SOURCE
#include <dlfcn.h>
#include <stdlib.h>
#include <unistd.h>

static long left = -1;

static int is_refused(void) {
    if (left < 0) {
        const char *number = getenv("REFUSED");
        left = number ? atol(number) : 0;
    }
    if (left == 0 || --left > 0) return 0;
    return write(3, "!", 1) == 1;
}

void *malloc(size_t size) {
    static void *(*next)(size_t);
    if (!next) next = dlsym(RTLD_NEXT, "malloc");
    return is_refused() ? NULL : next(size);
}

void *realloc(void *kept, size_t size) {
    static void *(*next)(void *, size_t);
    if (!next) next = dlsym(RTLD_NEXT, "realloc");
    return is_refused() ? NULL : next(kept, size);
}
TEXT
"$program" run <"$top/tools/attacks/every_statement.sql" >text
python3 "$top/tools/apart.py"
[ $# -ge 1 ] || set -- "$program" "$top/built/ae-compact"
python3 "$top/tools/attacks/no_memory.py" "$program" "$top/tools/attacks/every_statement.sql" ${2+"$2"}
