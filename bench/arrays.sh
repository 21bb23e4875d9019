#!/usr/bin/env bash
# Prints what the calls of an array cost beside those of Rust's Arc<Vec<_>> with make_mut, of integers and of
# atoms: instructions an element and seconds, both of this run on this machine, and ours over its.
# Wants rt and rustc, and counts instructions where valgrind is there. Not part of the gate.
#
#   bench/arrays.sh [SIZE]          arrays of SIZE elements, else of 65536; the least time of 5 runs
set -euo pipefail
cd "$(dirname "$0")/.."

size=${1:-65536}
work=$(mktemp -d)
trap 'rm -rf "$work"' EXIT
(cd crates/bench_array && rt run >"$work/build" 2>&1) || { cat "$work/build"; exit 1; }
cp crates/bench_array/out/bench_array "$work/array"
rustc --edition 2024 -O -C target-cpu=x86-64-v2 -o "$work/arc" bench/arc_vec.rs

# counted PROGRAM WORKLOAD ROUNDS: the instructions of one run
counted() {
    valgrind --tool=callgrind --callgrind-out-file=/dev/null "$1" "$2" "$size" "$3" 2>&1 >/dev/null |
        awk '/Collected/ { print $NF }'
}

# instructions PROGRAM WORKLOAD: those of an element in a round, without the start and the first rounds
instructions() {
    local few many
    few=$(counted "$1" "$2" 3)
    many=$(counted "$1" "$2" 13)
    awk -v n=$((many - few)) -v s="$size" 'BEGIN { printf "%.2f", n / (10 * s) }'
}

# seconds PROGRAM WORKLOAD ROUNDS: the processor time of the least of 5 runs
seconds() {
    local TIMEFORMAT=%U
    for _ in 1 2 3 4 5; do
        { time "$1" "$2" "$size" "$3" >/dev/null; } 2>&1
    done | sort -n | head -1
}

# over OURS ITS: the ratio
over() {
    awk -v a="$1" -v b="$2" 'BEGIN { if (b > 0) printf "%.2f", a / b; else printf "-" }'
}

rounds=$((200000000 / size + 4))
printf '%-13s %27s %27s\n' "" "instructions an element" "seconds of $rounds rounds"
printf '%-13s %8s %9s %8s %8s %9s %8s\n' "" ours Arc ratio ours Arc ratio
for workload in append get set copy append-atoms copy-atoms; do
    array=$("$work/array" "$workload" "$size" 3)
    arc=$("$work/arc" "$workload" "$size" 3)
    [[ $array == "$arc" ]] || { echo "they differ: $array, $arc"; exit 1; }
    a=- b=-
    if command -v valgrind >/dev/null; then
        a=$(instructions "$work/array" "$workload")
        b=$(instructions "$work/arc" "$workload")
    fi
    s=$(seconds "$work/array" "$workload" "$rounds")
    t=$(seconds "$work/arc" "$workload" "$rounds")
    printf '%-13s %8s %9s %8s %8s %9s %8s\n' "$workload" "$a" "$b" "$(over "$a" "$b")" "$s" "$t" "$(over "$s" "$t")"
done
