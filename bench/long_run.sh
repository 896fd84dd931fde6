#!/bin/sh
# Prints how much memory a cluster takes that runs for long, and how many bytes its records have, where floors rise and where they don't:
# for each run its words, the peak resident memory in kilobytes, and the line of `long_run`: `bench/long_run.sh [all]`. With `all` the
# longest runs are made too, of 10,000,000 transactions and of 1,000,000 whose floors never rise. The program is that of crates/long_run,
# which `rt run -- run 300 50` proves and builds there. It is run by hand.
. "$(dirname "$0")/start.sh"
program=$here/../crates/long_run/out/long_run
case $#,$1 in
0, | 1,all) ;;
*) echo "usage: bench/long_run.sh [all]" >&2; exit 2 ;;
esac
[ -x "$program" ] || { echo "$program isn't built: rt run -- run 300 50, in crates/long_run" >&2; exit 1; }
command -v /usr/bin/time >/dev/null || { echo "no /usr/bin/time here, by which memory is told" >&2; exit 1; }

# the words of a run
measured() {
    /usr/bin/time -f %M -o "$scratch/peak" "$program" "$@" >"$scratch/line" || exit 1
    printf '%-20s %12d  %s\n' "$*" "$(cat "$scratch/peak")" "$(cat "$scratch/line")"
}

printf '%-20s %12s  %s\n' run 'peak, kB' 'what it printed'
measured run 20000 10000
if [ "$1" = all ]; then
    measured run 10000000 10000
    measured run 1000000 0
fi
for forgotten in 1000 100000 1000000; do
    measured raise "$forgotten" 1000
done
