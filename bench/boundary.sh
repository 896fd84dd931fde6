#!/bin/sh
# Prints how many instructions more an input takes at a node that may have a floor, and has none, than at one without, in each role:
# `bench/boundary.sh [PROGRAM]`. Of each it counts 3,000 and 1,000 transactions by callgrind, so that what opening takes isn't among them.
# The program is bench/boundary.rs as bench/build.sh leaves it, and is built where it isn't given.
. "$(dirname "$0")/start.sh"
command -v valgrind >/dev/null || { echo 'no valgrind here, by which instructions are counted' >&2; exit 1; }
take_program "$1" floored boundary acceptor node 1

# role, node or floored, transactions: the inputs of a run, and its instructions
counted() {
    valgrind --tool=callgrind --callgrind-out-file="$scratch/callgrind" "$program" "$@" >"$scratch/counts" 2>/dev/null || exit 1
    read -r inputs sent <"$scratch/counts"
    taken=$(sed -n 's/^summary: //p' "$scratch/callgrind")
}

# role, node or floored: the instructions of an input, in hundredths
each_input() {
    counted "$1" "$2" 1000
    few=$inputs least=$taken
    counted "$1" "$2" 3000
    each=$(((taken - least) * 100 / (inputs - few)))
}

for role in acceptor leader manager; do
    each_input "$role" node
    plain=$each messages=$sent
    each_input "$role" floored
    [ "$sent" = "$messages" ] || { echo "$role: $sent messages are sent, and $messages without floors" >&2; exit 1; }
    awk -v role="$role" -v plain="$plain" -v floored="$each" 'BEGIN {
        printf "%s: %.0f instructions an input, %.1f more than without floors\n", role, floored / 100, (floored - plain) / 100
    }'
done
