#!/bin/sh
# Prints how long the steps of a node over a record in memory take, in each role, with 10 and with 100,000 transactions, and, where there is
# a valgrind, how many instructions; and how many times as much a step takes of the many: `bench/nodes.sh [PROGRAM]`. The program is
# bench/nodes.rs as bench/build.sh leaves it, and is built where it isn't given.
. "$(dirname "$0")/start.sh"
take_program "$1" node_core nodes acceptor stepped 1 1

# role, transactions, repetitions: the nanoseconds of a step, in the shortest of five turns
timed() {
    for _ in 1 2 3 4 5; do
        "$program" "$1" stepped "$2" "$3" || exit 1
    done >"$scratch/turns"
    each=$(awk '$1 > 0 && (!n || $2 / $1 < n) { n = $2 / $1 } END { printf "%d", n }' "$scratch/turns")
    echo "$1, $2 transactions: $each nanoseconds a step"
}

# role, opened or stepped, transactions, repetitions: the instructions of a run
counted() {
    valgrind --tool=callgrind --callgrind-out-file="$scratch/callgrind" "$program" "$@" >"$scratch/counts" 2>/dev/null || return 1
    read -r steps _ <"$scratch/counts"
    taken=$(sed -n 's/^summary: //p' "$scratch/callgrind")
}

# role, transactions, repetitions: the instructions of a step
instructions() {
    counted "$1" opened "$2" "$3" || return 1
    least=$taken
    counted "$1" stepped "$2" "$3" || return 1
    each=$(((taken - least) / steps))
    echo "$1, $2 transactions: $each instructions a step"
}

# a role, and what was measured of it: how many times as much a step takes of the many, by the last two that were
compared() {
    awk -v role="$1" -v what="$2" -v few="$3" -v many="$4" 'BEGIN { printf "%s: %.2f times the %s\n", role, many / few, what }'
}

for role in acceptor leader manager; do
    timed "$role" 10 5000
    few=$each
    timed "$role" 100000 1
    compared "$role" nanoseconds "$few" "$each"
    command -v valgrind >/dev/null || continue
    instructions "$role" 10 100 || continue
    few=$each
    instructions "$role" 100000 1 || continue
    compared "$role" instructions "$few" "$each"
done
