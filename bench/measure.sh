#!/bin/sh
# Prints how many messages or events a crate takes in a second: `bench/measure.sh messages|acceptor|leader [PROGRAM]`. The program is that
# of the same name in this folder, as bench/build.sh leaves it, and is built where it isn't given.
. "$(dirname "$0")/start.sh"
case $1 in
messages) crate=wire first="encode prepare 1" ;;
acceptor) crate=acceptor first="plain 1 1 1" ;;
leader) crate=leader first="plain commit 2 1 1" ;;
*) echo "usage: bench/measure.sh messages|acceptor|leader [PROGRAM]" >&2; exit 2 ;;
esac
# shellcheck disable=SC2086 # words
take_program "$2" "$crate" "$1" $first

# Runs the program three times, and takes the shortest. It prints how many it took and, of messages, how many bytes
# each has.
timed() {
    shortest=
    for _ in 1 2 3; do
        begin=$(date +%s%N)
        "$program" "$@" >"$scratch/counts" || exit 1
        nanoseconds=$(($(date +%s%N) - begin))
        if [ "$nanoseconds" -lt "${shortest:-$((nanoseconds + 1))}" ]; then shortest=$nanoseconds; fi
    done
    read -r count length _ <"$scratch/counts"
    rate=$((count * 1000000000 / shortest))
}

# direction, message, rounds of 8 messages
messages() {
    timed "$@"
    echo "$1, ${2%%-*} of $length bytes: $rate messages per second, $((rate * length / 1000000)) MB per second"
}

# how many events there are, what is measured, and the words of a run with its repetitions: how long an event takes, and beside it in a
# plain Rust program that does the same, built where there is a rustc
beside() {
    events=$1 label=$2
    shift 2
    turns=$("$here/turns.py" "$program" "$scratch/plain" "$events" "$@") || exit 1
    echo "$label: $turns"
}

# plain or bundled, transactions, repetitions: two messages for each transaction in ballot 0, and then another two in ballot 1
events() {
    beside $((4 * $2)) "$1 cluster, $2 transactions" "$1" "$2" 2 "$3"
}

# plain or bundled, transactions, repetitions: how many instructions an event takes, where there is a valgrind
event_instructions() {
    command -v valgrind >/dev/null || return 0
    for repetitions in 0 "$3"; do
        valgrind --tool=callgrind --callgrind-out-file="$scratch/callgrind.$repetitions" "$program" \
            "$1" "$2" 2 "$repetitions" >/dev/null 2>&1 || return 0
    done
    counted() { sed -n 's/^summary: //p' "$scratch/callgrind.$1"; }
    echo "$1 cluster, $2 transactions: $((($(counted "$3") - $(counted 0)) / (4 * $2 * $3))) instructions per event"
}

# plain or bundled, commit or takeover, branches, transactions, repetitions: the votes or reports of two acceptors, at a take-over after
# a timeout
courses() {
    each=2
    if [ "$1" = plain ]; then each=$((2 * $3)); fi
    if [ "$2" = takeover ]; then each=$((each + 1)); fi
    beside $((each * $4)) "$2 of $3 branches in a $1 cluster, $4 transactions" "$@"
}

# a program, and the words of a run but its repetitions: how many instructions an event takes
counted_in() {
    for repetitions in 1 "${more:-11}"; do
        valgrind --tool=callgrind --callgrind-out-file="$scratch/callgrind" "$@" "$repetitions" >"$scratch/counts" 2>/dev/null || return 1
        read -r count _ <"$scratch/counts"
        taken=$(sed -n 's/^summary: //p' "$scratch/callgrind")
        if [ "$repetitions" = 1 ]; then few=$count least=$taken; fi
    done
    each=$(((taken - least) / (count - few)))
}

# what is measured, and the words of a run but its repetitions: how many instructions an event takes, and how many in the plain Rust
# program, where there is a valgrind
instructions() {
    command -v valgrind >/dev/null || return 0
    label=$1
    shift
    counted_in "$program" "$@" || return 0
    line="$label: $each instructions per event"
    if [ -x "$scratch/plain" ] && counted_in "$scratch/plain" "$@"; then line="$line; plain Rust $each"; fi
    echo "$line"
}

# how many bytes a transaction takes: the peak of memory with an acceptor and without
memory() {
    [ -x /usr/bin/time ] || return 0
    peak() { /usr/bin/time -f %M "$program" plain 100000 1 "$1" 2>&1 >/dev/null; }
    echo "$((($(peak 1) - $(peak 0)) * 1024 / 100000)) bytes per transaction of two branches"
}

if [ "$1" = messages ]; then
    messages encode prepare 10000000
    messages encode p2a 10000000
    messages encode p2a-of-three 8000000
    messages encode p1b 3000000
    messages encode b1b 2000000
    messages decode prepare 500000
    messages decode p2a 500000
    messages decode p2a-of-three 500000
    messages decode p2b 500000
    messages decode p1b 500000
    messages decode b1b 500000
    exit
fi
if command -v rustc >/dev/null; then
    rustc -O --edition 2021 -o "$scratch/plain" "$here/plain/$1.rs" 2>/dev/null
fi
if [ "$1" = acceptor ]; then
    for kind in plain bundled; do
        events "$kind" 10 30000
        events "$kind" 1000 300
        events "$kind" 10000 20
        events "$kind" 100000 4
        event_instructions "$kind" 10 1000
        event_instructions "$kind" 100000 1
    done
    memory
else
    for kind in plain bundled; do
        for what in commit takeover; do
            courses "$kind" "$what" 2 10 30000
            courses "$kind" "$what" 2 1000 300
            courses "$kind" "$what" 2 10000 20
            courses "$kind" "$what" 2 100000 2
            courses "$kind" "$what" 16 10 10000
        done
        for what in commit takeover; do
            instructions "$what in a $kind cluster, 10 transactions" "$kind" "$what" 2 10
            instructions "$what of 16 branches in a $kind cluster, 10 transactions" "$kind" "$what" 16 10
            more=2 instructions "$what in a $kind cluster, 100000 transactions" "$kind" "$what" 2 100000
        done
    done
fi
