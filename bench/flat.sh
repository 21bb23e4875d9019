#!/usr/bin/env bash
# Prints what the calls of a deque, a heap, an ordered set and an ordered dictionary cost beside those of Rust's VecDeque and
# BinaryHeap (std), of BTreeSet in place of a heap (tree), and of IndexSet and IndexMap with their default hasher (index) and with
# one that only multiplies (fast): nanoseconds an element, or a step where a step is linear, ours over each of them, and
# instructions. All of this run on this machine. Wants rt and rustc; counts instructions where valgrind is there, and has
# IndexSet and IndexMap where Debian's librust-indexmap-dev is. Not part of the gate.
#
#   bench/flat.sh [SIZE..]        collections of SIZE numbers, else of 1000, 10000 and 100000; the least time of 5 runs
#   PROGRAM=FILE bench/flat.sh ..   over a program of the crate bench_flat that was built before
set -euo pipefail
cd "$(dirname "$0")/.."

sizes=("${@:-}")
[[ -n ${sizes[0]} ]] || sizes=(1000 10000 100000)
work=$(mktemp -d)
trap 'rm -rf "$work"' EXIT
if [[ -z ${PROGRAM:-} ]]; then
    (cd crates/bench_flat && rt run >"$work/build" 2>&1) || { cat "$work/build"; exit 1; }
    PROGRAM=crates/bench_flat/out/bench_flat
fi
cp "$PROGRAM" "$work/ours"

# A crate of Debian's, as a library in $work: NAME, its folder, and rustc's words.
library() {
    local name=$1 folder=$2
    shift 2
    rustc --crate-type rlib --crate-name "$name" --edition 2021 -O -C target-cpu=x86-64-v2 --cap-lints allow \
        -L "$work" -o "$work/lib$name.rlib" "$@" "$folder/src/lib.rs"
}

hashed=()
words=()
registry=/usr/share/cargo/registry
if compgen -G "$registry/indexmap-1*" >/dev/null; then
    library hashbrown "$(compgen -G "$registry/hashbrown-0*" | head -1)" --cfg 'feature="raw"' --cfg 'feature="inline-more"'
    library indexmap "$(compgen -G "$registry/indexmap-1*" | head -1)" --cfg has_std --extern "hashbrown=$work/libhashbrown.rlib"
    hashed=(index fast)
    words=(--cfg has_indexmap --extern "indexmap=$work/libindexmap.rlib")
fi
rustc --edition 2024 -O -C target-cpu=x86-64-v2 --check-cfg 'cfg(has_indexmap)' -L "$work" "${words[@]}" \
    -o "$work/peers" bench/std_flat.rs

# command PEER: the words that begin a run, in `program`
command_of() {
    if [[ $1 == ours ]]; then program=("$work/ours"); else program=("$work/peers" "$1"); fi
}

# least PEER WORKLOAD KEYS SIZE ROUNDS: the processor time of the least of 5 runs, in seconds; fails where one is cut off
least() {
    local TIMEFORMAT=%U program
    command_of "$1"
    rm -f "$work/times"
    for _ in 1 2 3 4 5; do
        { time timeout 20 "${program[@]}" "${@:2}" >/dev/null || return 1; } 2>>"$work/times"
    done
    sort -n "$work/times" | head -1
}

# steps WORKLOAD SIZE: how many elements or steps a round has
steps() {
    case $1 in deque-insert | deque-remove | oset-remove | oset-insert | odict-remove) echo 100 ;; *) echo "$2" ;; esac
}

# nanoseconds PEER WORKLOAD KEYS SIZE: those of a step, without the first round, over ten million elements; of linear steps over
# fewer
nanoseconds() {
    local n rounds one many
    n=$(steps "$2" "$4")
    rounds=$((10000000 / $4 + 1))
    if ((n == 100)); then rounds=$((rounds / 4 + 2)); fi
    one=$(least "$@" 1) || { echo -; return; }
    many=$(least "$@" $((rounds + 1))) || { echo -; return; }
    awk -v one="$one" -v many="$many" -v n=$((rounds * n)) 'BEGIN { printf "%.2f", (many - one) * 1e9 / n }'
}

# counted PROGRAM..: the instructions of one run
counted() {
    valgrind --tool=callgrind --callgrind-out-file=/dev/null "$@" 2>&1 >/dev/null | awk '/Collected/ { print $NF }'
}

# instructions PEER WORKLOAD KEYS SIZE: those of a step, without the first round
instructions() {
    local program few many
    command_of "$1"
    few=$(counted "${program[@]}" "${@:2}" 1)
    many=$(counted "${program[@]}" "${@:2}" 3)
    awk -v few="$few" -v many="$many" -v n="$(steps "$2" "$4")" 'BEGIN { printf "%.2f", (many - few) / (2 * n) }'
}

# less A B: the difference; over A B: the ratio
less() { awk -v a="$1" -v b="$2" 'BEGIN { if (a == "-" || b == "-") printf "-"; else printf "%.2f", a - b }'; }
over() { awk -v a="$1" -v b="$2" 'BEGIN { if (a != "-" && b > 0) printf "%.2f", a / b; else printf "-" }'; }

# row NAME UNIT OURS THEIRS..: a line of the table
row() {
    local ours=$3 x line
    line=$(printf '%-28s %9s' "$1" "$ours")
    for x in "${@:4}"; do line+=$(printf ' %9s %6s' "$x" "$(over "$ours" "$x")"); done
    echo "$line   $2"
}

# measured HOW UNIT SIZE KIND KEYS WORKLOAD..: each workload; of one that begins with filling, what it takes beyond that
measured() {
    local how=$1 unit=$2 size=$3 kind=$4 keys=$5 workload peer x found
    local -A filled
    for workload in "${@:6}"; do
        found=()
        for peer in ours "${peers[@]}"; do
            x=$("$how" "$peer" "$kind-$workload" "$keys" "$size")
            case $workload in
                append | insert | put) if [[ -z ${filled[$peer]:-} ]]; then filled[$peer]=$x; fi ;;
                pop* | ends) x=$(less "$x" "${filled[$peer]}") ;;
            esac
            found+=("$x")
        done
        row "$kind-$workload, $keys" "$unit" "${found[@]}"
    done
}

# agree KIND KEYS PEER WORKLOAD..: fails where ours and a peer print something else
agree() {
    local workload ours theirs
    for workload in "${@:4}"; do
        ours=$("$work/ours" "$1-$workload" "$2" 1000 3)
        theirs=$("$work/peers" "$3" "$1-$workload" "$2" 1000 3)
        [[ $ours == "$theirs" ]] || { echo "they differ: $ours, $theirs"; exit 1; }
    done
}

# kind SIZE NAME KEYS WORKLOAD..: the rows of a kind over $peers
kind() {
    local size=$1
    printf '\n%s numbers%*s ours %s\n' "$size" $((20 - ${#size})) "" "$(printf ' %9s  ratio' "${peers[@]}")"
    measured nanoseconds ns "$@"
    if command -v valgrind >/dev/null; then measured instructions instructions "$@"; fi
}

deque=(append prepend pop-first pop-last queue rotate insert remove get walk copy)
heap=(insert ends pop-min pop-max build replace-min replace-max copy)
same=(insert pop-min pop-max replace-min replace-max copy)
oset=(append find miss index-of at pop remove insert union intersection copy)
odict=(put get miss update pop remove walk copy)

agree deque row std append pop-first pop-last queue rotate insert remove get walk
agree heap scattered std "${same[@]}"
for peer in "${hashed[@]}"; do
    agree oset scattered "$peer" "${oset[@]}"
    agree odict scattered "$peer" "${odict[@]}"
done
for size in "${sizes[@]}"; do
    peers=(std) && kind "$size" deque row "${deque[@]}"
    peers=(std tree) && kind "$size" heap scattered "${heap[@]}"
    if ((${#hashed[@]})); then
        for keys in scattered row; do
            peers=("${hashed[@]}")
            kind "$size" oset "$keys" "${oset[@]}"
            kind "$size" odict "$keys" "${odict[@]}"
        done
    fi
done
