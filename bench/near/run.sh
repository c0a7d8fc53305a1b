#!/bin/sh
# Times near_lists (lists of 5 and of 100) and nearest_tour (100,000 cities) against plain Rust, in turn on one core, and prints the
# shortest time of each. The cities are uniform, or placed in ways that are hard for a sweep. The lists and the tours are compared.
# usage: bench/near/run.sh [ROUNDS [CORE]]
set -e
here=$(cd "$(dirname "$0")" && pwd)
. "$here/../programs.sh"
find_programs
round=0
while [ "$round" -lt "${1:-3}" ]; do
    taskset -c "${2:-0}" "$program" near | sed 's/^/rattle /'
    taskset -c "${2:-0}" "$baseline" | sed 's/^/rust /'
    round=$((round + 1))
done | awk '
    { task = $2 " " $3 }
    !(task in result) { tasks[++count] = task; result[task] = $5 }
    result[task] != $5 { print task ": other results"; failed = 1 }
    !(($1, task) in least) || $4 < least[$1, task] { least[$1, task] = $4 }
    END {
        for (i = 1; i <= count; i++) {
            rattle = least["rattle", tasks[i]]
            rust = least["rust", tasks[i]]
            printf "%-20s rattle %8d us, rust %8d us, ratio %.2f\n", tasks[i], rattle, rust, rattle / rust
        }
        exit failed
    }'
