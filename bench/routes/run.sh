#!/bin/bash
# Times `tourkit solve` against its baseline in plain Rust on CVRPs of 600 to 5,000 nodes, and compares what they write.
#
# usage: bench/routes/run.sh [-n ROUNDS] [TOURKIT]
#
# TOURKIT is a program with the command solve; without it, only the baseline is timed. The baseline is that of bench/solve. It joins routes by the
# savings algorithm over near lists from a k-d tree, in constant time for each pair. By a parameter file, it then makes one descent for each
# route; otherwise it searches between the routes, with the same trials as tourkit.
#
# The table contains the shortest processor time (user and system) of all rounds, 20 by default, in milliseconds. The name of an input ends
# in its MAX_CANDIDATES, or in `between` for a search between routes. The baseline is timed twice: with the square roots of the processor, and
# (whole) with exact roots of integers, as in tourkit.
set -eu
here=$(cd "$(dirname "$0")" && pwd)
. "$here/../programs.sh"
rounds=20
while getopts n: option; do
    case $option in
    n) rounds=$OPTARG ;;
    *) exit 2 ;;
    esac
done
shift $((OPTIND - 1))
tourkit=${1:+$(readlink -f "$1")}
compile_baseline "$here/../solve"
rm -rf "$work/in"
python3 -B "$here/instances.py" "$work/in"
cd "$work/in"
python3 -B "$here/compare.py" "$rounds" "$baseline" ${tourkit:+"$tourkit"}
