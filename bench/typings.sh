#!/bin/sh
# The encryption typing of statements with as many rules as a statement may have, 8,192: parameters in one chain, the
# last of which is compared with a protected column; and the same with a clash after all others. Each takes less than
# a second.
# Usage: bench/typings.sh
. "$(dirname "$0")/lib.sh"

# 128 parameters @aa, @ab, .. in one chain, from the last to the first, again and again; then the condition $1.
typing() {
    cat <<'SETUP'
CREATE COLUMN MASTER KEY M WITH (KEY_STORE_PROVIDER_NAME = N'KEYFILE', KEY_PATH = N'main')
GO
CREATE COLUMN ENCRYPTION KEY K WITH VALUES (COLUMN_MASTER_KEY = M, ALGORITHM = 'AES_256_KW', ENCRYPTED_VALUE = 0x28C9F404C4B810F4CBCCB35CFB87F8263F5786E2D80ED326CBC7F0E71A99F43BFB988B9B7A02DD21)
GO
CREATE TABLE t (a INT, c INT ENCRYPTED WITH (COLUMN_ENCRYPTION_KEY = K, ENCRYPTION_TYPE = DETERMINISTIC, ALGORITHM = 'AEAD_AES_256_CBC_HMAC_SHA256'))
GO
SETUP
    awk -v last="$1" '
        function name(i) { return sprintf("@%c%c", 97 + int(i / 16), 97 + i % 16) }
        BEGIN {
            for (i = 0; i < 128; i++) printf "DECLARE %s INT = %d\n", name(i), i
            printf "SELECT a FROM t WHERE "
            for (i = 0; i < 4094; i++) printf "%s=%s AND ", name(i % 127), name(i % 127 + 1)
            printf "%s = c AND %s\n:describe\n", name(127), last
        }'
}

# timed WHAT LAST EXPECTED: the row of one typing, whose statement must print this first line.
timed() {
    typing "$2" >script
    took=$(seconds 1 run)
    case $(sed -n 4p text) in
        "$3"*) single "$1" "$took" 1 ;;
        *) echo "$1: not as expected: $(sed -n 4p text)" && exit 1 ;;
    esac
}

timed '8,192 rules that have a typing' '@aa = @ab' described
timed '8,192 rules, of which the last clashes' '@aa < 1' 'error 30 EncryptionClash'
