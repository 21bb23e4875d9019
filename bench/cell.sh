#!/usr/bin/env bash
# Prints what the steps of a counted cell cost beside those of Rust's Arc, in nanoseconds, all
# measured in this run on this machine. Wants rt and rustc. Not part of the gate.
#
#   bench/cell.sh            the least of 7 runs of each
set -euo pipefail
cd "$(dirname "$0")/.."

work=$(mktemp -d)
trap 'rm -rf "$work"' EXIT
(cd crates/bench_cell && rt run >"$work/build" 2>&1) || { cat "$work/build"; exit 1; }
cp crates/bench_cell/out/bench_cell "$work/cell"
rustc --edition 2024 -C opt-level=2 -C target-cpu=x86-64-v2 -o "$work/arc" bench/arc.rs

# least PROGRAM WORKLOAD ROUNDS: the least time of 7 runs, in nanoseconds
least() {
    local least= start end
    for _ in 1 2 3 4 5 6 7; do
        start=$(date +%s%N)
        "$@" >"$work/answer"
        end=$(date +%s%N)
        if [[ -z $least || $((end - start)) -lt $least ]]; then least=$((end - start)); fi
    done
    echo "$least"
}

# each PROGRAM WORKLOAD ROUNDS CALLS: the cost of one call, without that of starting the program
each() {
    local start all
    start=$(least "$1" "$2" 1)
    all=$(least "$1" "$2" "$3")
    awk -v t=$((all - start)) -v n="$(($3 - 1))" -v c="$4" 'BEGIN { printf "%.2f", t / (n * c) }'
}

# both WORKLOAD ROUNDS CALLS CELL'S-NAME ARC'S-NAME
both() {
    local cell arc
    cell=$("$work/cell" "$1" 1000)
    arc=$("$work/arc" "$1" 1000)
    [[ $cell == "$arc" ]] || { echo "they differ: $cell, $arc"; exit 1; }
    printf '%-14s %6s ns    %-14s %6s ns\n' \
        "$4" "$(each "$work/cell" "$1" "$2" "$3")" "$5" "$(each "$work/arc" "$1" "$2" "$3")"
}

echo "cow_cell               Arc"
both share 50000000 1 "share + end" "clone + drop"
both sole 50000000 1 "sole" "get_mut"
both get 200000 1000 "get" "deref"
