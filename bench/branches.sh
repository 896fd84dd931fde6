#!/bin/sh
# Prints how fast a resource manager is: client calls beside many open branches, commits into tables of many rows, and votes and outcomes
# replayed; beside it a plain Rust program that does the same, turn and turn about, where there is a rustc, and, where there is a valgrind,
# how many instructions each takes: `bench/branches.sh [PROGRAM]`. The program is bench/branches.rs as bench/build.sh leaves it, and is
# built where it isn't given.
. "$(dirname "$0")/start.sh"
take_program "$1" resource_manager branches calls 1 1
plain=
if command -v rustc >/dev/null && rustc -O --edition 2021 -o "$scratch/plain" "$here/plain/branches.rs" 2>/dev/null; then
    plain=$scratch/plain
fi

# what is measured, and the words of a run, which prints how many there were and their nanoseconds: the shortest of five turns
timed() {
    what=$1
    shift
    for _ in 1 2 3 4 5; do
        for one in "$program" $plain; do
            echo "${one##*/} $("$one" "$@")" || exit 1
        done
    done >"$scratch/turns"
    awk -v what="$what" '
        $2 > 0 && (!($1 in best) || $3 / $2 < best[$1]) { best[$1] = $3 / $2 }
        END {
            for (one in best) if (one != "plain") proved = best[one]
            printf "%s: %d per second, %d nanoseconds each", what, 1e9 / proved, proved
            if ("plain" in best) printf "; plain Rust %d, %.2f times its time", 1e9 / best["plain"], proved / best["plain"]
            print ""
        }' "$scratch/turns"
}

# the instructions of a run, and how many it says there were
counted() {
    valgrind --tool=callgrind --callgrind-out-file="$scratch/callgrind" "$program" "$@" >"$scratch/counts" 2>/dev/null || return 1
    read -r count _ <"$scratch/counts"
    taken=$(sed -n 's/^summary: //p' "$scratch/callgrind")
}

# what is measured, and the words of a run but the last, which says how often: its numbers at few and at more
instructions() {
    what=$1 few=$2 more=$3
    shift 3
    command -v valgrind >/dev/null || return 0
    counted "$@" "$few" || return 0
    least=$taken before=$count
    counted "$@" "$more" || return 0
    echo "$what: $(((taken - least) / (count - before))) instructions each"
}

for open in 10 1000 100000; do
    timed "calls, $open open branches of 4 keys" calls "$open" 100000
    instructions "calls, $open open branches of 4 keys" 1000 3000 calls "$open"
done
for rows in 100 10000 1000000; do
    timed "commits of 4 writes, $rows rows" commits "$rows" 500 20
    instructions "commits of 4 writes, $rows rows" 0 20 commits "$rows" 1
done
for transactions in 10 10000 100000; do
    rounds=$((200000 / transactions))
    timed "facts read, $transactions transactions" read "$transactions" "$rounds"
    timed "facts read and played, $transactions transactions" replay "$transactions" "$rounds"
done
for transactions in 10 10000; do
    instructions "facts read, $transactions transactions" 0 1 read "$transactions"
    instructions "facts read and played, $transactions transactions" 0 1 replay "$transactions"
done
