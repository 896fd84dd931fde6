#!/bin/sh
# Kills a program that appends frames to a record in a file, at random moments, and opens the record again each time: what stands there
# are whole frames, each in its place, and a tail, and every frame that was answered Ok is there. Now and then the program puts the whole
# record anew. Then the same where the system takes only some of the bytes of a frame, since the file is as long as it may be: there the
# program goes on with its record, and cuts the tail.
# `tests/kill.sh [PROGRAM [FOLDER]]`, where the program is bench/records.rs as bench/build.sh leaves it, and is built where it isn't
# given. The last line is 'N passed, M failed'.
tests=$(cd "$(dirname "$0")" && pwd)
program=$1
scratch=$(mktemp -d ${2:+-p "$2"})
trap 'rm -rf "$scratch"' EXIT
trap 'exit 1' INT TERM
if [ -z "$program" ]; then
    program=$scratch/records
    "$tests/../bench/build.sh" stable_record "$tests/../bench/records.rs" "$program" replay 1 1 || exit 1
fi
record=$scratch/a0.rec
passed=0
failed=0
appended=0
tails=0
stopped=0

# opens the record after what is named has stopped the program
reopen() {
    # a last line that was cut off in the middle is no answer
    answered=$(tr -d -c '\n' <"$scratch/answered" | wc -c)
    last=$(head -n "$answered" "$scratch/answered" | grep -v mended | tail -n 1)
    if [ -e "$record.new" ]; then stopped=$((stopped + 1)); fi
    read -r placed whole tail <<END
$("$program" check "$record" 2>"$scratch/errors")
END
    if [ -n "$placed" ] && [ "$placed" = "$whole" ] && [ "$placed" -gt "${last:--1}" ] && [ ! -s "$scratch/errors" ]; then
        passed=$((passed + 1))
    else
        failed=$((failed + 1))
        echo "FAILED after $1: answered up to ${last:-none}, in place ${placed:-none} of ${whole:-none}"
        head -3 "$scratch/errors"
    fi
    appended=$((appended + $(head -n "$answered" "$scratch/answered" | grep -c -v mended)))
    if [ "${tail:-0}" -gt 0 ]; then tails=$((tails + 1)); fi
}

for kill in $(seq 200); do
    # ten kills to a record
    if [ $((kill % 10)) = 1 ]; then rm -f "$record" "$record.new"; fi
    : >"$scratch/answered"
    "$program" keep "$record" >>"$scratch/answered" 2>/dev/null &
    child=$!
    sleep "0.0$(awk -v seed="$kill$$" 'BEGIN { srand(seed); printf "%03d", rand() * 1000 }')"
    kill -KILL $child
    wait $child 2>/dev/null
    reopen "kill $kill"
done
echo "200 kills: $appended frames were answered Ok, $tails kills left a tail, $stopped a replacement that had begun"

# the program reads its record again, cuts the tail itself, and says so
appended=0
tails=0
for limit in $(seq 1 50); do
    rm -f "$record" "$record.new"
    : >"$scratch/answered"
    (trap '' XFSZ; ulimit -f "$limit"; exec "$program" keep "$record") >>"$scratch/answered" 2>/dev/null
    reopen "a limit of $limit"
    read -r _ mended all cut <<END
$(grep mended "$scratch/answered")
END
    if [ "$mended" != "$placed" ] || [ "$all" != "$placed" ] || [ "$tail" != 0 ]; then
        failed=$((failed + 1))
        echo "FAILED after a limit of $limit: mended ${mended:-none} of ${all:-none}, then $placed and a tail of $tail bytes"
    fi
    if [ "${cut:-0}" -gt 0 ]; then tails=$((tails + 1)); fi
done
echo "50 limits on the file: $appended frames were answered Ok, $tails left a tail"
echo "$passed passed, $failed failed"
[ "$failed" = 0 ]
