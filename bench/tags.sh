#!/bin/sh
# Prints how many instructions a tag takes, of messages of 100, 1,400 and 65,536 bytes, beside OpenSSL's with and without the processor's
# instructions for SHA-256: `bench/tags.sh [PROGRAM]`. The program is bench/tags.rs as bench/build.sh leaves it, and is built where it isn't
# given. It needs valgrind, and OpenSSL's headers.
. "$(dirname "$0")/start.sh"
take_program "$1" hmac tags 100 1
cc -O2 -Wno-deprecated-declarations -o "$scratch/plain" "$here/plain/tags.c" -lcrypto || exit 1

# program, length, tags: the instructions of so many tags
counted() {
    valgrind --tool=callgrind --callgrind-out-file="$scratch/callgrind" "$@" >"$scratch/out" 2>/dev/null || exit 1
    sed -n 's/^\(summary\|totals\): //p' "$scratch/callgrind" | tail -n 1
}

# program, length: the instructions of one tag
of_one() {
    few=$(counted "$1" "$2" 10)
    many=$(counted "$1" "$2" 110)
    echo $(((many - few) / 100))
}

for length in 100 1400 65536; do
    ours=$(of_one "$program" $length)
    theirs=$(of_one "$scratch/plain" $length)
    plain=$(OPENSSL_ia32cap=":~0x20" of_one "$scratch/plain" $length)
    [ "$("$program" $length 3)" = "$("$scratch/plain" $length 3)" ] || { echo "the tags differ" >&2; exit 1; }
    awk -v n=$length -v o="$ours" -v t="$theirs" -v p="$plain" 'BEGIN {
        printf "%d bytes: %d instructions a tag, %.1f a byte; OpenSSL %d, %.1f; without its own instructions %d, %.1f\n",
            n, o, o / n, t, t / n, p, p / n }'
done
