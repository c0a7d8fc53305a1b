#!/bin/bash
# Times `tourkit solve` against its baselines in plain Rust, and compares what they write.
#
# usage: bench/solve/run.sh [-n ROUNDS] [-s] [TOURKIT]
#
# TOURKIT is a program with the command solve; without it, the baseline at its best is used instead. With -s, each input has a hundredth of the
# trials. The table contains the shortest processor time (user and system) of all rounds, 3 by default, in seconds, of tourkit and of three
# variants of the baseline, with the ratios of tourkit's time to theirs:
# - same-method: the tour is kept in an array, and the search uses the method of tourkit;
# - whole: the tour is divided into segments, all offers of a candidate are tested at once, and square roots are those of integers;
# - at-best: like whole, but with the square roots of the processor (see baseline.rs).
set -eu
here=$(cd "$(dirname "$0")" && pwd)
. "$here/../programs.sh"
rounds=3
divisor=1
while getopts n:s option; do
    case $option in
    n) rounds=$OPTARG ;;
    s) divisor=100 ;;
    *) exit 2 ;;
    esac
done
shift $((OPTIND - 1))
tourkit=${1:+$(readlink -f "$1")}
compile_baseline
best=$work/baseline-segments
rustc --edition 2024 -C opt-level=3 --check-cfg 'cfg(segments)' --cfg segments -o "$best" "$here/baseline.rs"
rm -rf "$work/in"
python3 "$here/instances.py" "$work/in" "$divisor"
cd "$work/in"

# Runs a program on a parameter file: its processor time, and its output and file beside each other under a name.
timed() {
    local name=$1 file
    shift
    file=$(sed -n 's/^\(TOUR\|SOLUTION\)_FILE = //p' "$2")
    rm -f "$file"
    processor_time "$name" "$1" solve "$2" "${@:3}"
    mv "$file" "$work/$name.file"
}

# A ratio of two times.
ratio() {
    awk -v a="$1" -v b="$2" 'BEGIN { if (b > 0) printf "%.2f", a / b; else print "-" }'
}

printf '%-18s %9s %12s %7s %9s %7s %9s %7s %7s\n' input tourkit same-method ratio whole ratio at-best ratio bytes
for parameters in *.par; do
    input=${parameters%.par}
    rm -f "$work"/*.times
    bytes=same
    round=0
    while [ "$round" -lt "$rounds" ]; do
        timed best "$best" "$parameters" >>"$work/best.times"
        timed whole "$best" "$parameters" --whole >>"$work/whole.times"
        timed method "$baseline" "$parameters" --same-method >>"$work/method.times"
        timed tourkit "${tourkit:-$best}" "$parameters" >>"$work/tourkit.times"
        for one in best whole method; do
            cmp -s "$work/$one.out" "$work/tourkit.out" && cmp -s "$work/$one.file" "$work/tourkit.file" || bytes=differ
        done
        round=$((round + 1))
    done
    own=$(least "$work/tourkit.times")
    method=$(least "$work/method.times")
    whole=$(least "$work/whole.times")
    best_time=$(least "$work/best.times")
    printf '%-18s %9s %12s %7s %9s %7s %9s %7s %7s\n' "$input" "$own" "$method" "$(ratio "$own" "$method")" "$whole" "$(ratio "$own" "$whole")" \
        "$best_time" "$(ratio "$own" "$best_time")" "$bytes"
done
