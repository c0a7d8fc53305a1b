#!/bin/bash
# Times how fast `tourkit check` reads matrices and coordinates, against a baseline in plain Rust that makes the same checks, and
# compares their lines.
#
# usage: bench/reading/run.sh [-n ROUNDS] TOURKIT
#
# For each problem, the table contains the shortest processor time (user and system) of all rounds, 7 by default, in seconds. It also
# contains the megabytes of problem and tour that are read per second, and the ratio of tourkit's time to that of the baseline.
set -eu
here=$(cd "$(dirname "$0")" && pwd)
. "$here/../programs.sh"
rounds=7
while getopts n: option; do
    case $option in
    n) rounds=$OPTARG ;;
    *) exit 2 ;;
    esac
done
shift $((OPTIND - 1))
tourkit=$(readlink -f "${1:?usage: bench/reading/run.sh [-n ROUNDS] TOURKIT}")
compile_baseline
rm -rf "$work/in"
mkdir -p "$work/in"
"$baseline" instances "$work/in"
cd "$work/in"

printf '%-18s %9s %6s %9s %6s %7s %7s\n' input tourkit MB/s baseline MB/s ratio lines
for problem in *.tsp; do
    input=${problem%.tsp}
    rm -f "$work"/*.times
    lines=same
    round=0
    while [ "$round" -lt "$rounds" ]; do
        processor_time baseline "$baseline" check "$problem" "$input.tour" >>"$work/baseline.times"
        processor_time tourkit "$tourkit" check "$problem" "$input.tour" >>"$work/tourkit.times"
        cmp -s "$work/baseline.out" "$work/tourkit.out" || lines=differ
        round=$((round + 1))
    done
    own=$(least "$work/tourkit.times")
    other=$(least "$work/baseline.times")
    bytes=$(cat "$problem" "$input.tour" | wc -c)
    awk -v input="$input" -v a="$own" -v b="$other" -v bytes="$bytes" -v lines="$lines" \
        'BEGIN { printf "%-18s %9s %6.0f %9s %6.0f %7.2f %7s\n", input, a, bytes / a / 1e6, b, bytes / b / 1e6, a / b, lines }'
done
