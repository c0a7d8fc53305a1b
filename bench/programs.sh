# Functions that the run.sh scripts of the benchmarks share. Each script sets $here to its directory before it sources this file.

# Compiles the baseline, baseline.rs in $here or in another directory. Sets $work to a directory outside the repository, and $baseline.
compile_baseline() {
    work=${TMPDIR:-/tmp}/tourkit-bench-$(basename "$here")
    mkdir -p "$work"
    baseline=$work/baseline
    rustc --edition 2024 -C opt-level=3 --check-cfg 'cfg(segments)' -o "$baseline" "${1:-$here}/baseline.rs"
}

# Finds the program of the crate tk_calls, which `rt run` proves and builds, and compiles the baseline. Sets $program, $work and $baseline.
find_programs() {
    program=$here/../../crates/tk_calls/out/tk_calls
    if [ ! -x "$program" ]; then
        echo "$0: there is no crates/tk_calls/out/tk_calls; \`rt run\` in crates/tk_calls proves and builds it" >&2
        exit 2
    fi
    compile_baseline
}

# Runs a command and prints its processor time (user and system) in seconds. Its output goes to the files NAME.out and NAME.err of $work.
# usage: processor_time NAME COMMAND ..
processor_time() {
    local name=$1 TIMEFORMAT='%3U %3S'
    shift
    { time "$@" >"$work/$name.out" 2>"$work/$name.err"; } 2>"$work/time" || { cat "$work/$name.err" >&2; exit 1; }
    awk '{ printf "%.3f\n", $1 + $2 }' "$work/time"
}

# Prints the shortest of the times in a file.
least() {
    sort -g "$1" | head -1
}
