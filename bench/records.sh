#!/bin/sh
# Prints how fast frames are read one after the other, and how many frames a second are appended to a file and synced, beside a plain C
# loop of write and fdatasync, turn and turn about: `bench/records.sh [PROGRAM [FOLDER..]]`. The program is bench/records.rs as
# bench/build.sh leaves it, and is built where it isn't given. The folders are those to append in: one on a disk, and one in memory.
. "$(dirname "$0")/start.sh"
take_program "$1" stable_record records replay 1 1
if [ $# -gt 0 ]; then shift; fi
cc -O2 -o "$scratch/plain" "$here/plain/append.c" || exit 1
[ $# -gt 0 ] || set -- "$here" /dev/shm

# frames, rounds: the shortest of three
replay() {
    shortest=
    for _ in 1 2 3; do
        read -r frames bytes nanoseconds <<END
$("$program" replay "$1" "$2")
END
        if [ "$nanoseconds" -lt "${shortest:-$((nanoseconds + 1))}" ]; then shortest=$nanoseconds; fi
    done
    awk -v f="$frames" -v b="$bytes" -v n="$shortest" 'BEGIN {
        printf "replay of %d frames: %d frames and %.1f MB per second, %.0f ns a frame\n", f, f * 1e9 / n, b * 1e3 / n, n / f }'
}

# a folder, how many appends in a turn: 41 turns of each, in alternation, and the median of how many times as long a turn takes as the
# plain one after it
append() {
    : >"$scratch/turns"
    for _ in $(seq 41); do
        rm -f "$1/bench.rec" "$1/bench.plain"
        proved=$("$program" append "$1/bench.rec" "$2") || exit 1
        plain=$("$scratch/plain" "$1/bench.plain" "$2") || exit 1
        echo "$proved $plain" >>"$scratch/turns"
    done
    rm -f "$1/bench.rec" "$1/bench.plain"
    awk '{ print $1 / $2, $1, $2 }' "$scratch/turns" | sort -n | awk -v folder="$1" -v count="$2" '
        { line[NR] = $0 }
        END {
            split(line[(NR + 1) / 2], median, " ")
            split(line[1], least, " ")
            split(line[NR], most, " ")
            printf "appends in %s: %d per second, plain C %d, %.2f times its time (%.2f to %.2f)\n",
                folder, count * 1e9 / median[2], count * 1e9 / median[3], median[1], least[1], most[1]
        }'
}

replay 1000 2000
replay 1000000 2
for folder; do
    case $(stat -f -c %T "$folder") in
    tmpfs) append "$folder" 20000 ;;
    *) append "$folder" 200 ;;
    esac
done
