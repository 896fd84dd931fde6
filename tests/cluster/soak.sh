#!/bin/sh
# The long tests of clusters of real processes, about two hours one after another: tests/cluster/soak.sh [PROGRAM [PART]]. A thousand kills;
# the bank for ten minutes; a network that fails for fifteen; a million datagrams of strangers, and three million at full speed; fifty
# acceptors that are lost and replaced; ten million transactions of which the latest are kept; seven hosts, where namespaces may be made.
# With PART 10, a tenth of each but those at full speed. The seed is printed (SEED=N makes a run again). The last line is 'N passed, M
# failed'.
tests=$(cd "$(dirname "$0")" && pwd)
program=$(realpath "${1:-bin/pcommit_node}")
part=${2:-1}
seed=${SEED:-$(date +%s)}
scratch=$(mktemp -d)
export PYTHONDONTWRITEBYTECODE=1
trap 'rm -rf "$scratch"' EXIT
passed=0
failed=0

long() { # TEST AMOUNT [SEED]
    echo "$1: $2${3:+, seed $3}, begun at $(date +%H:%M:%S)"
    python3 "$tests/$1.py" "$program" "$2" $3 >"$scratch/said" 2>&1
    cat "$scratch/said"
    count=$(sed -n "s/^$1: \([0-9]*\) passed, \([0-9]*\) failed.*/\1 \2/p" "$scratch/said" | tail -n 1)
    [ -n "$count" ] || count='0 1'
    passed=$((passed + ${count% *}))
    failed=$((failed + ${count#* }))
}
long lines long
long killed $((1000 / part)) "$seed"
long bank $((600 / part)) "$seed"
long network $((90 / part)) "$seed"
long strangers $((1000000 / part)) "$seed"
long strangers full "$seed"
long replaced $((50 / part)) "$seed"
long years $((10000000 / part)) "$seed"
long hosts $((60 / part)) "$seed"
echo "$passed passed, $failed failed"
[ "$failed" = 0 ]
