#!/bin/sh
# Compares the time of a swap with that of the same loop in plain Rust at -O3, at 1,000 and at 100,000 cities.
# Each line contains the cities, the nanoseconds per swap of the program and of plain Rust, and their ratio. Each time is the best of all
# rounds. The two programs run in turn, with priority over other work on the machine if that is allowed.
# usage: bench/tour/run.sh [ROUNDS]
set -e
here=$(cd "$(dirname "$0")" && pwd)
. "$here/../programs.sh"
find_programs
round=0
while [ "$round" -lt "${1:-15}" ]; do
    nice -n -19 "$program" tour 2> "$work/errors" | sed 's/^/rattle /'
    nice -n -19 "$baseline" 2> "$work/errors" | sed 's/^/rust /'
    round=$((round + 1))
done > "$work/times"
awk '
    { each = $4 / $3; key = $1 " " $2; if (!(key in best) || each < best[key]) best[key] = each; swaps[key] = $3 " " $5 }
    END {
        for (n = 1000; n <= 100000; n *= 100) {
            if (swaps["rattle " n] != swaps["rust " n]) { print "the two differ at " n; exit 1 }
            printf "%d cities: %.3f ns a swap, plain Rust %.3f, ratio %.3f\n", n, best["rattle " n], best["rust " n], best["rattle " n] / best["rust " n]
        }
    }' "$work/times"
