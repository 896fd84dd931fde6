#!/bin/sh
# Prints how many lines of a script `pcommit run` reads, runs and writes in a second: `bench/lines.sh [bin/pcommit [LINES]]`.
# Each branch is started and rolled back, so that the lists of branches stay empty between.
program=${1:-bin/pcommit}
lines=${2:-200000}
scratch=$(mktemp -d)
trap 'rm -rf "$scratch"' EXIT

rate() {
    begin=$(date +%s%N)
    "$program" run "$scratch/script" >"$scratch/trace" || exit 1
    end=$(date +%s%N)
    count=$(wc -l <"$scratch/script")
    awk -v name="$1" -v count="$count" -v nanoseconds="$((end - begin))" 'BEGIN {
        printf "%s: %d lines in %.2f s, %d lines per second\n", name, count, nanoseconds / 1e9, count * 1e9 / nanoseconds }'
}

awk -v lines="$lines" 'BEGIN {
    print "cluster acceptors 1 leaders 1 rms 1"
    for (i = 0; i < lines / 3; i++) {
        x = sprintf("r0 1:%08x:61", i); print "start " x; print "end " x; print "rollback " x } }' >"$scratch/script"
rate "branches one after another"

awk -v lines="$lines" 'BEGIN {
    print "cluster acceptors 1 leaders 1 rms 1"
    for (i = 0; i < lines / 66; i++) {
        x = sprintf("r0 1:%08x:61", i); print "start " x
        for (k = 0; k < 63; k++) printf "put %s %02x %s\n", x, k, "0123456789abcdef"
        print "end " x; print "rollback " x } }' >"$scratch/script"
rate "63 keys in each branch"

awk -v branches=1000 'BEGIN {
    print "cluster acceptors 1 leaders 1 rms 1"
    for (i = 0; i < branches; i++) {
        x = sprintf("r0 1:%08x:61", i); print "start " x; printf "put %s %08x 30\n", x, i } }' >"$scratch/script"
rate "1,000 branches at once"
