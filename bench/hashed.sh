#!/usr/bin/env bash
# Prints what the calls of a set and of a dictionary cost beside those of Rust's HashSet and HashMap with their default
# hasher (std), of the same with a hasher that only multiplies (fast), and of IndexSet and IndexMap (index): nanoseconds a key, ours over each of them, and
# instructions a key; then the memory that a key takes, and what a run of keys with homes side by side costs. All of
# this run on this machine. Wants rt and rustc; counts instructions and memory where valgrind is there, and has
# IndexSet where Debian's librust-indexmap-dev is. Not part of the gate.
#
#   bench/hashed.sh [SIZE..]        sets of SIZE keys, else of 1000, 10000, 100000 and 1000000; the least time of 5
#                                   runs, and instructions up to 10000 keys
set -euo pipefail
cd "$(dirname "$0")/.."

sizes=("${@:-}")
[[ -n ${sizes[0]} ]] || sizes=(1000 10000 100000 1000000)
work=$(mktemp -d)
trap 'rm -rf "$work"' EXIT
(cd crates/bench_hashed && rt run >"$work/build" 2>&1) || { cat "$work/build"; exit 1; }
cp crates/bench_hashed/out/bench_hashed "$work/hashed"

# A crate of Debian's, as a library in $work: NAME, its folder, and rustc's words.
library() {
    local name=$1 folder=$2
    shift 2
    rustc --crate-type rlib --crate-name "$name" --edition 2021 -O -C target-cpu=x86-64-v2 --cap-lints allow \
        -L "$work" -o "$work/lib$name.rlib" "$@" "$folder/src/lib.rs"
}

sets=(std fast)
words=()
registry=/usr/share/cargo/registry
if compgen -G "$registry/indexmap-1*" >/dev/null; then
    library hashbrown "$(compgen -G "$registry/hashbrown-0*" | head -1)" --cfg 'feature="raw"' --cfg 'feature="inline-more"'
    library indexmap "$(compgen -G "$registry/indexmap-1*" | head -1)" --cfg has_std --extern "hashbrown=$work/libhashbrown.rlib"
    sets+=(index)
    words=(--cfg has_indexmap --extern "indexmap=$work/libindexmap.rlib")
fi
rustc --edition 2024 -O -C target-cpu=x86-64-v2 --check-cfg 'cfg(has_indexmap)' -L "$work" "${words[@]}" \
    -o "$work/sets" bench/std_sets.rs

# run SET WORKLOAD KEYS SIZE ROUNDS: one of the programs, for at most 20 seconds
run() {
    if [[ $1 == ours ]]; then timeout 20 "$work/hashed" "${@:2}"; else timeout 20 "$work/sets" "$@"; fi
}

# least SET WORKLOAD KEYS SIZE ROUNDS: the processor time of the least of 5 runs, in seconds; fails where one is cut off
least() {
    local TIMEFORMAT=%U
    rm -f "$work/times"
    for _ in 1 2 3 4 5; do
        { time run "$@" >/dev/null || return 1; } 2>>"$work/times"
    done
    sort -n "$work/times" | head -1
}

# nanoseconds SET WORKLOAD KEYS SIZE: those of a key in a round, without the first round, over twenty million keys; where
# that takes too long in one more round, and `-` where that does too
nanoseconds() {
    local rounds=$((20000000 / $4)) one many
    one=$(least "$@" 1) || { echo -; return; }
    many=$(least "$@" $((rounds + 1))) || { rounds=1 && many=$(least "$@" 2); } || { echo -; return; }
    awk -v one="$one" -v many="$many" -v n=$((rounds * $4)) 'BEGIN { printf "%.1f", (many - one) * 1e9 / n }'
}

# counted PROGRAM..: the instructions of one run
counted() {
    valgrind --tool=callgrind --callgrind-out-file=/dev/null "$@" 2>&1 >/dev/null | awk '/Collected/ { print $NF }'
}

# instructions SET WORKLOAD KEYS SIZE: those of a key in a round, without the first round
instructions() {
    local program=("$work/sets" "$@") few many
    if [[ $1 == ours ]]; then program=("$work/hashed" "${@:2}"); fi
    few=$(counted "${program[@]}" 1)
    many=$(counted "${program[@]}" 3)
    awk -v few="$few" -v many="$many" -v s="$4" 'BEGIN { printf "%.0f", (many - few) / (2 * s) }'
}

# held SET SIZE: the bytes of a key that a set holds for the longest time, which is while it is read, and the most that it
# held while it was filled
held() {
    local program=("$work/sets" "$1") out="$work/massif"
    if [[ $1 == ours ]]; then program=("$work/hashed"); fi
    valgrind --tool=massif --massif-out-file="$out" "${program[@]}" find scattered "$2" 20 >/dev/null 2>&1
    awk -F= -v s="$2" '/^time/ { if ($2 - time > longest) { longest = $2 - time; held = heap } time = $2 }
        /^mem_heap_B/ { heap = $2; if (heap > most) most = heap }
        END { printf "%.1f %.1f", held / s, most / s }' "$out"
}

# less A B: the difference; over A B: the ratio
less() { awk -v a="$1" -v b="$2" 'BEGIN { if (a == "-" || b == "-") printf "-"; else printf "%.1f", a - b }'; }
over() { awk -v a="$1" -v b="$2" 'BEGIN { if (a != "-" && b > 0) printf "%.2f", a / b; else printf "-" }'; }

# row NAME UNIT OURS THEIRS..: a line of the table
row() {
    local ours=$3 theirs=("${@:4}") line
    line=$(printf '%-22s %7s' "$1" "$ours")
    for x in "${theirs[@]}"; do line+=$(printf ' %8s %6s' "$x" "$(over "$ours" "$x")"); done
    echo "$line   $2"
}

# measured HOW UNIT SIZE: each workload, over scattered keys and over a row of them; of `remove` what it takes more than
# `insert`
measured() {
    local how=$1 unit=$2 size=$3 keys workload set found
    declare -A inserted
    for keys in scattered row; do
        for workload in insert remove find miss copy union {insert,remove,find,miss}-{atoms,pairs}; do
            found=()
            for set in ours "${sets[@]}"; do
                x=$("$how" "$set" "$workload" "$keys" "$size")
                case $workload in
                    insert*) inserted[$set]=$x ;;
                    remove*) x=$(less "$x" "${inserted[$set]}") ;;
                esac
                found+=("$x")
            done
            row "$workload, $keys" "$unit" "${found[@]}"
        done
    done
}

for size in "${sizes[@]}"; do
    for set in "${sets[@]}"; do
        for workload in insert remove find miss copy union {insert,remove,find,miss}-pairs; do
            a=$(run ours "$workload" scattered 1000 3)
            b=$(run "$set" "$workload" scattered 1000 3)
            [[ $a == "$b" ]] || { echo "they differ: $a, $b"; exit 1; }
        done
    done
    printf '\n%s keys%*s ours %s\n' "$size" $((18 - ${#size})) "" "$(printf ' %8s  ratio' "${sets[@]}")"
    measured nanoseconds "ns a key" "$size"
    if command -v valgrind >/dev/null && ((size <= 10000)); then
        measured instructions "instructions a key" "$size"
    fi
    if command -v valgrind >/dev/null; then
        kept=() most=()
        for set in ours "${sets[@]}"; do
            read -r now top <<<"$(held "$set" "$size")"
            kept+=("$now") most+=("$top")
        done
        row "held" "bytes a key" "${kept[@]}"
        row "held at most" "bytes a key" "${most[@]}"
    fi
done

# A run of n keys with homes side by side: probing takes n / 2 buckets a key, so a bucket's cost stays the same.
printf '\nkeys of one run of buckets, each with a hash of its own\n'
for size in 12500 25000 50000 100000; do
    for workload in insert find; do
        { TIMEFORMAT=%U; time "$work/hashed" "$workload" crowd "$size" 1 >/dev/null; } 2>"$work/time"
        awk -v t="$(cat "$work/time")" -v n="$size" -v w="$workload" \
            'BEGIN { printf "%-8s %7d keys %8.2f s %8.2f ns a bucket of n / 2 a key\n", w, n, t, t * 1e9 / (n * n / 2) }'
    done
done
