#!/bin/sh
# Tests of clusters of real processes, a minute each, in two lanes side by side: tests/cluster/run.sh [PROGRAM], where the program is the
# built pcommit_node. What they did stands before the last line, which is 'N passed, M failed'. tests/cluster/soak.sh has the long ones.
tests=$(cd "$(dirname "$0")" && pwd)
program=$(realpath "${1:-bin/pcommit_node}")
scratch=$(mktemp -d)
export PYTHONDONTWRITEBYTECODE=1
trap 'rm -rf "$scratch"' EXIT
# a test that is told to end stops what it has started
trap 'kill $lanes $(cat "$scratch"/*.pid) 2>/dev/null; sleep 1; exit 1' INT TERM

# each test prints, and has to end with a count of its own
lane() { # TESTS..
    for test in "$@"; do
        python=python3
        # Debian's own has psycopg2
        [ "$test" = postgresql ] && [ -x /usr/bin/python3 ] && python=/usr/bin/python3
        "$python" "$tests/$test.py" "$program" >"$scratch/$test" 2>&1 &
        echo $! >"$scratch/$1.pid"
        wait $!
        cat "$scratch/$test"
    done
}
lane bank killed lost_writes postgresql replaced &
lanes=$!
lane client lines devices network strangers floors clocks &
lanes="$lanes $!"
wait

passed=0
failed=0
for test in bank killed lost_writes postgresql replaced client lines devices network strangers floors clocks; do
    count=$(sed -n "s/^$test: \([0-9]*\) passed, \([0-9]*\) failed.*/\1 \2/p" "$scratch/$test" | tail -n 1)
    # one that didn't come to its end has failed
    [ -n "$count" ] || { echo "FAILED $test: $(tail -n 3 "$scratch/$test")"; count='0 1'; }
    passed=$((passed + ${count% *}))
    failed=$((failed + ${count#* }))
done
echo "$passed passed, $failed failed"
[ "$failed" = 0 ]
