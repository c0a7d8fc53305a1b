#!/bin/sh
# Times distances of EUC_2D, CEIL_2D and ATT against plain Rust at -O3: with integer coordinates, with tenths and thousandths, and with
# nine decimals, at spans from 10 to 10^9.
# usage: bench/distances/run.sh [ROUNDS]
set -e
here=$(cd "$(dirname "$0")" && pwd)
. "$here/../programs.sh"
find_programs
rm -f "$work/rattle.txt" "$work/rust.txt"
round=0
while [ "$round" -lt "${1:-3}" ]; do
    "$program" distances >> "$work/rattle.txt"
    "$baseline" >> "$work/rust.txt"
    round=$((round + 1))
done
python3 "$here/compare.py" "$work/rattle.txt" "$work/rust.txt"
