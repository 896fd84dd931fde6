#!/bin/sh
# Runs the nodes over sockets and one folder, part by part of a long script, and kills the program (SIGKILL) at a random moment of each
# part. At the end every record opens, all transactions are settled by timeouts, and tests/soak_check.py reads the records' bytes: no
# transaction is committed at one resource manager and aborted at another, and each table is its first contents with the writes of its
# committed branches. Then the managers' records are made shorter, over and over, with a tenth of as many kills, and say what they said.
# `tests/soak.sh [PROGRAM [KILLS [FOLDER]]]`. The last line is 'N passed, M failed'.
tests=$(cd "$(dirname "$0")" && pwd)
program=$(realpath "${1:-bin/pcommit}")
kills=${2:-200}
scratch=$(mktemp -d ${3:+-p "$3"})
trap 'rm -rf "$scratch"' EXIT
trap 'exit 1' INT TERM
mkdir "$scratch/records" || exit 1
sizes='cluster acceptors 3 leaders 2 rms 3
table r0 00=30
table r1 00=31
table r2 00=32'
passed=0
failed=0

# the transaction of a number: at two of the three managers, and at all three now and then
branches() { # NUMBER
    case $(($1 % 4)) in
    0) echo '0 1' ;;
    1) echo '1 2' ;;
    2) echo '0 2' ;;
    3) echo '0 1 2' ;;
    esac
}

transaction() { # NUMBER
    list=
    for rm in $(branches "$1"); do list=$list,$rm=61; done
    printf '1:%08x/%s' "$1" "${list#,}"
}

# twenty transactions; one in five has a branch that isn't ended, and so is aborted
part() { # NUMBER
    echo "$sizes"
    for step in $(seq 0 19); do
        number=$(($1 * 20 + step))
        for rm in $(branches "$number"); do
            xid=$(printf '1:%08x:61' "$number")
            echo "start r$rm $xid"
            printf 'put r%d %s %02x %08x\n' "$rm" "$xid" $((number % 7)) "$number"
            [ $((number % 11)) = 3 ] && echo "del r$rm $xid 00"
            [ $((number % 5)) = 2 ] && [ "$rm" = 2 ] || echo "end r$rm $xid"
        done
        echo "commit l$((number % 2)) $(transaction "$number")"
        echo "flow 4"
        # what an earlier kill has left over is taken up again
        [ "$number" -gt 40 ] && echo "timeout l1 $(transaction $((number - 40)))"
        [ "$number" -gt 40 ] && echo "flow 6"
        # acceptors and leaders are compacted; what managers have done is read from their records, which stay as they were written
        [ $((number % 6)) = 5 ] && echo "compact a$((number % 3))" && echo "compact l$((number % 2))"
    done
}

# how long a part takes that isn't killed
mkdir "$scratch/free" || exit 1
part 0 >"$scratch/script"
begun=$(date +%s%N)
"$program" udp "$scratch/script" "$scratch/free" >/dev/null || echo 'a part that was not killed failed'
took=$((($(date +%s%N) - begun) / 1000))

cut=0
for kill in $(seq "$kills"); do
    part "$kill" >"$scratch/script"
    "$program" udp "$scratch/script" "$scratch/records" >"$scratch/out" 2>"$scratch/err" &
    child=$!
    sleep "$(awk -v seed="$kill$$" -v took="$took" 'BEGIN { srand(seed); printf "%.6f", rand() * took * 1.1 / 1000000 }')"
    kill -KILL $child 2>/dev/null
    wait $child 2>/dev/null
    if [ $? = 137 ]; then cut=$((cut + 1)); fi
    # every record opens
    echo "$sizes" >"$scratch/empty"
    if "$program" udp "$scratch/empty" "$scratch/records" >"$scratch/out" 2>"$scratch/err"; then
        passed=$((passed + 1))
    else
        failed=$((failed + 1))
        echo "FAILED after kill $kill: $(cat "$scratch/err")"
    fi
done
echo "$kills parts of up to $((took / 1000)) ms, of which $cut were cut off"

# all that is unsettled is settled: each participant is reminded, and a leader takes each transaction over
{
    echo "$sizes"
    for number in $(seq 20 $((kills * 20 + 19))); do
        echo "timeout l0 $(transaction "$number")"
        echo 'flow 8'
        for rm in $(branches "$number"); do echo "timeout r$rm $(transaction "$number")"; done
        echo 'flow 6'
    done
} >"$scratch/script"
"$program" udp "$scratch/script" "$scratch/records" >"$scratch/settled" 2>"$scratch/err" || cat "$scratch/err"
"$program" udp "$scratch/empty" "$scratch/records" >"$scratch/tables" 2>"$scratch/err" || cat "$scratch/err"
audit_records() { # FILE FOR WHAT IS SAID
    if python3 "$tests/soak_check.py" "$scratch/records" "$scratch/tables" >"$1"; then passed=$((passed + 1)); else failed=$((failed + 1)); fi
    cat "$1"
}
audit_records "$scratch/said"

# compactions
{
    echo "$sizes"
    for step in $(seq 100); do echo "compact r$((step % 3))"; done
} >"$scratch/script"
cut=0
for kill in $(seq $((kills / 10))); do
    "$program" udp "$scratch/script" "$scratch/records" >"$scratch/out" 2>"$scratch/err" &
    child=$!
    sleep "$(awk -v seed="$kill$$" 'BEGIN { srand(seed); printf "%.6f", rand() / 10 }')"
    kill -KILL $child 2>/dev/null
    wait $child 2>/dev/null
    if [ $? = 137 ]; then cut=$((cut + 1)); fi
    "$program" udp "$scratch/empty" "$scratch/records" >"$scratch/out" 2>"$scratch/err"
    if cmp -s "$scratch/tables" "$scratch/out"; then passed=$((passed + 1)); else failed=$((failed + 1)); fi
done
echo "$((kills / 10)) runs of compactions, of which $cut were cut off"
audit_records "$scratch/said_then"
cmp -s "$scratch/said" "$scratch/said_then" || failed=$((failed + 1))
echo "$passed passed, $failed failed"
[ "$failed" = 0 ]
