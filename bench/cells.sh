#!/bin/sh
# Times the opening of cells by `ae drive`, over replies that were recorded, and the sealing by `ae run`: cells of an
# INT, of 200 characters and of 8,000 bytes. Beside them the same work by Python's `cryptography`, and what OpenSSL
# takes for the cipher and the HMAC alone: with the processor's AES instructions, without them, by tables, and by
# tables with an HMAC that uses no vector instructions either. Where `perf` can count, a line says what the cipher and
# the HMAC alone take in `ae drive`. All in processor time, in one table. All is done five times in turn, and each
# figure is the least. Then the cipher and HMAC for 8,000 bytes are compared in forty short rounds.
# Usage: bench/cells.sh [N], where the program is built (./ae). N is a measure of how long it takes.
#        bench/cells.sh in-turn [ROUNDS], for that comparison alone.
. "$(dirname "$0")/lib.sh"
case ${1-} in in-turn) n=1 ;; *) n=${1:-1} ;; esac
cp -r "$top/examples/payroll/keys" keys

# The script of a table of $2 values of the kind $1 in a randomized column, of which $3 queries read all.
# (its master key and its first column key are those of the payroll)
cells() {
    awk '/^CREATE COLUMN/ { on = 1 } on { print } /^GO/ { if (on) count++; on = 0 } count == 2 { exit }' "$top/examples/payroll/script.sql"
    awk -v kind="$1" -v rows="$2" -v queries="$3" 'BEGIN {
        type["int"] = "INT"; type["text"] = "NVARCHAR(200)"; type["bytes"] = "VARBINARY(8000)"
        zeros = sprintf("%0200d", 0)
        for (i = 0; i < 80; i++) wide = wide zeros
        printf "CREATE TABLE t (id INT, v %s ENCRYPTED WITH (COLUMN_ENCRYPTION_KEY = accounts_key, ", type[kind]
        print "ENCRYPTION_TYPE = RANDOMIZED, ALGORITHM = \047AEAD_AES_256_CBC_HMAC_SHA256\047))\nGO"
        for (i = 1; i <= rows; i++) {
            if (kind == "int") value = i
            if (kind == "text") value = sprintf("N\047%0200d\047", i)
            if (kind == "bytes") value = "0x" substr(wide, 9) sprintf("%08x", i)
            printf "DECLARE @v %s = %s\nINSERT INTO t (id, v) VALUES (%d, @v)\nGO\n", type[kind], value, i
        }
        for (i = 0; i < queries; i++) print "SELECT v FROM t\nGO"
    }'
}

# The processor seconds of a command.
seconds() {
    ("$@" >text 2>said; times) | awk 'NR == 2 { gsub(/[ms]/, " "); print $1 * 60 + $2 + $3 * 60 + $4 }'
}

run() { "$top/ae" run <script; }
drive() { "$top/ae" drive <script; }

# note NAME SECONDS: keeps the least of the seconds under this name.
note() {
    awk -v now="$2" -v least="$(cat "least.$1" 2>/dev/null)" 'BEGIN { print least == "" || now < least ? now : least }' >noted
    mv noted "least.$1"
}

# line WHO NAME LESS CELLS BYTES: prints one line of the table: what took the seconds under a name, less those under
# another, if one is given; how many cells, and the bytes of one. It tells where nothing was noted.
line() {
    if [ ! -f "least.$2" ]; then
        printf '    %-44s %10s\n' "$1" "$skipped"
        return
    fi
    awk -v who="$1" -v took="$(cat "least.$2")" -v less="$(cat "least.$3" 2>/dev/null)" -v cells="$4" -v bytes="$5" 'BEGIN {
        took -= less
        if (took <= 0) took = 0.001
        printf "    %-44s %10.0f %10.1f\n", who, cells / took, cells * bytes / took / 1e6
    }'
}

# What OpenSSL takes for an operation, in kB a second; nothing where it can't tell.
speed() {
    openssl speed -seconds 1 "$@" 2>/dev/null | awk 'END { if (sub(/k$/, "", $NF)) print $NF }'
}

# openssl_round NAME AES HMAC BYTES: notes the seconds of a cell with so many bytes of ciphertext, without the
# processor's instructions that the mask AES takes from the cipher and the mask HMAC from the HMAC. Each subshell sets
# its own mask.
# shellcheck disable=SC2030,SC2031
openssl_round() {
    aes=$(
        if [ -n "$2" ]; then export OPENSSL_ia32cap="~$2"; fi
        speed -evp aes-256-cbc -decrypt -bytes "$4"
    )
    hmac=$(
        if [ -n "$3" ]; then export OPENSSL_ia32cap="~$3"; fi
        speed -hmac sha256 -bytes $(($4 + 18))
    )
    if [ -n "$aes" ] && [ -n "$hmac" ]; then
        note "$1" "$(awk -v aes="$aes" -v hmac="$hmac" -v bytes="$4" 'BEGIN { print (bytes / aes + (bytes + 18) / hmac) / 1000 }')"
    fi
}

# The processor seconds of `ae drive` in the crates of the cipher, the hash and the cells, by 4,000 samples a second;
# nothing where there are no samples. The compiler puts the decryption of eight blocks into an `answered` or `next_row`
# of the driver, which does little else: it counts whole.
cipher_seconds() {
    perf record -q -e cpu-clock -c 250000 -o counted "$top/ae" drive <script >/dev/null 2>&1 || return 0
    perf report -i counted --stdio -q --no-children -F sample,symbol 2>/dev/null |
        awk '/ (aes_block|cbc_mode|sha2|hmac_kdf|cell_codec)::| driver::.*(answered|next_row)/ { sum += $1 }
            END { if (sum > 0) print sum / 4000 }'
}

# drive_round FOLDER: notes what `ae drive` takes for the script and the replies of a folder.
drive_round() {
    cd "$1"
    took=$(seconds drive)
    cipher=$(cipher_seconds)
    cd ..
    note "$1" "$took"
    if [ -n "$cipher" ]; then note "$1-cipher" "$cipher"; fi
}

# recorded FOLDER KIND ROWS QUERIES: a folder with a script, the replies to it, and its keys.
recorded() {
    mkdir "$1"
    cp -r keys "$1"
    cells "$2" "$3" "$4" >"$1/script"
    (cd "$1" && run >text && python3 "$top/tools/apart.py")
}

# One kind: its name, how many rows, how many queries, the bytes of its ciphertext.
kind() {
    size=$(($4 + 49)) opened=$(($2 * ($3 - 1))) python=$(($2 * $3 / 5))
    recorded once "$1" "$2" 1
    recorded often "$1" "$2" "$3"
    for _ in 1 2 3 4 5; do
        cells "$1" "$2" 0 >script
        note begun "$(seconds run)"
        cells "$1" $((3 * $2)) 0 >script
        note sealed "$(seconds run)"
        drive_round once
        drive_round often
        if python3 -c 'import cryptography' 2>/dev/null; then
            took=$(python3 "$top/bench/cells.py" "$1" $python)
            note python-sealed "${took% *}"
            note python-opened "${took#* }"
        fi
        if command -v openssl >/dev/null; then
            openssl_round openssl '' '' "$4"
            openssl_round without 0x200000000000000 '' "$4"
            openssl_round tables 0x200020000000000 '' "$4"
            openssl_round scalar 0x200020000000000 0x200020000000000 "$4"
        fi
    done
    echo "$1, $size bytes a cell"
    skipped='nothing noted'
    line 'sealed by ae run' sealed begun $((2 * $2)) $size
    line 'opened by ae drive' often once $opened $size
    skipped='skipped: perf is not installed, or counts nothing here'
    line '  its cipher and HMAC alone' often-cipher once-cipher $opened $size
    skipped='skipped: cryptography of Python is not installed'
    line 'sealed by Python' python-sealed '' $python $size
    line 'opened by Python' python-opened '' $python $size
    skipped='skipped: openssl is not installed, or has no such speed'
    line 'OpenSSL, the cipher and HMAC alone' openssl '' 1 $size
    line 'OpenSSL, without AES instructions' without '' 1 $size
    line 'OpenSSL, by tables' tables '' 1 $size
    line 'OpenSSL, by tables, HMAC without vectors' scalar '' 1 $size
    rm -r once often least.*
}

# in_turn ROUNDS: the cipher and HMAC of `ae drive` and those of OpenSSL's library in turn, by tables and without
# vectors, over 4,000 cells of 8,000 bytes that are opened (and 20 that `ae` seals, which count too). The rounds are
# short, since a processor is slower while another one that shares its core is busy.
in_turn() {
    recorded short bytes 20 200
    for _ in $(seq "$1"); do
        ours=$(cd short && cipher_seconds)
        theirs=$(OPENSSL_ia32cap='~0x200020000000000' python3 "$top/bench/openssl.py" 4000 8016 2>/dev/null) || theirs=
        if [ -z "$ours" ] || [ -z "$theirs" ]; then
            echo 'in turn: skipped, since perf or the library of OpenSSL is not there'
            return
        fi
        echo "$ours $theirs"
    done | awk '{ print $2 / $1 }' | sort -g | awk '{ part[NR] = $1; if ($1 < 1) below++ }
        END { printf "in turn: %.2f to %.2f times as fast as OpenSSL by tables without vectors, %.2f in the middle\n",
            part[1], part[NR], part[int((NR + 1) / 2)]; printf "         slower in %d of %d rounds\n", below, NR }'
}

if [ "${1-}" = in-turn ]; then
    in_turn "${2:-40}"
    exit
fi
printf '%-48s %10s %10s\n' '' 'cells/s' 'MB/s'
kind int $((2000 * n)) 200 16
kind text $((1000 * n)) 200 416
kind bytes $((200 * n)) 80 8016
echo
in_turn 40
