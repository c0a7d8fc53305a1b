#!/bin/sh
# Times a descent from a path along strips of uniform cities (phase 1, K = 5), and then one look at each city of the result (phase 2).
# Compares them with plain Rust at -O3 that computes the distances of each gain again (plain) or shares them inside a look (sharing).
# Each line contains the cities, the phase, million gain tests per second of each, and the ratios of the program to the two baselines.
# The rates are the best of all rounds.
# usage: bench/descent/run.sh [ROUNDS]
set -e
here=$(cd "$(dirname "$0")" && pwd)
. "$here/../programs.sh"
find_programs
round=0
while [ "$round" -lt "${1:-5}" ]; do
    "$program" descent | sed 's/^/rattle /'
    "$baseline"
    round=$((round + 1))
done | awk '
    { key = $2 " " $3; counts = $4 " " $6 " " $7 " " $8; rate = $4 / $5 * 1000 }
    key in all && all[key] != counts { print "the two differ at " key; exit 1 }
    { all[key] = counts; if (rate > best[$1 " " key]) best[$1 " " key] = rate }
    END {
        for (key in all) {
            r = best["rattle " key]; p = best["plain " key]; s = best["sharing " key]
            printf "%s: rattle %.1f, plain %.1f, sharing %.1f; ratios %.2f and %.2f\n", key, r, p, s, r / p, r / s
        }
    }' | sort
