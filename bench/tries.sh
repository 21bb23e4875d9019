#!/usr/bin/env bash
# Prints what the calls of a tree dictionary cost beside those of `im`'s persistent hash map with our hash of a key (im) and with
# its own (sip), and of std's HashMap with our hash (std), which is no persistent one and so has no copy: nanoseconds a pair, ours
# over each of them, and instructions; then the memory that a pair takes, and what a change of a copy takes of it. All of this
# run on this machine. Wants rt and rustc; counts instructions and memory where valgrind is there, and has `im` where Debian's
# librust-im-rc-dev and cargo are: that source, compiled with atomic counts, which is what the crate `im` is. Not part of the gate.
#
#   bench/tries.sh [SIZE..]       trees of SIZE pairs, else of 1000, 10000, 100000 and 1000000; the least time of 5 runs
#   PROGRAM=FILE bench/tries.sh ..   over a program of the crate bench_trie that was built before
set -euo pipefail
cd "$(dirname "$0")/.."

sizes=("${@:-}")
[[ -n ${sizes[0]} ]] || sizes=(1000 10000 100000 1000000)
work=$(mktemp -d)
trap 'rm -rf "$work"' EXIT
if [[ -z ${PROGRAM:-} ]]; then
    (cd crates/bench_trie && rt run >"$work/build" 2>&1) || { cat "$work/build"; exit 1; }
    PROGRAM=crates/bench_trie/out/bench_trie
fi
cp "$PROGRAM" "$work/ours"

peers=(std)
registry=/usr/share/cargo/registry
flags=(-C target-cpu=x86-64-v2 --check-cfg 'cfg(has_im)')
if compgen -G "$registry/im-rc-15*" >/dev/null && command -v cargo >/dev/null; then
    peers=(im sip std)
    mkdir -p "$work/peers/src" "$work/peers/.cargo"
    cp bench/std_tries.rs "$work/peers/src/main.rs"
    cat >"$work/peers/Cargo.toml" <<'END'
[package]
name = "std_tries"
version = "0.1.0"
edition = "2021"
[dependencies]
im-rc = "15"
END
    cat >"$work/peers/.cargo/config.toml" <<END
[source.crates-io]
replace-with = "debian"
[source.debian]
directory = "$registry"
END
    (cd "$work/peers" && RUSTFLAGS="${flags[*]} --cfg threadsafe --cfg has_im" cargo build --quiet --release --offline)
    cp "$work/peers/target/release/std_tries" "$work/theirs"
else
    rustc --edition 2021 -O "${flags[@]}" -o "$work/theirs" bench/std_tries.rs
fi

# command_of PEER: the words that begin a run, in `program`
command_of() {
    if [[ $1 == ours ]]; then program=("$work/ours"); else program=("$work/theirs" "$1"); fi
}

# least PEER WORKLOAD KEYS SIZE ROUNDS: the processor time of the least of 5 runs, in seconds; fails where one is cut off
least() {
    local TIMEFORMAT=%U program
    command_of "$1"
    rm -f "$work/times"
    for _ in 1 2 3 4 5; do
        { time timeout 20 "${program[@]}" "${@:2}" >/dev/null || return 1; } 2>>"$work/times"
    done
    sort -n "$work/times" | head -1
}

# rounds WORKLOAD SIZE: how many rounds come to millions of pairs; of changes of a copy to fewer
rounds() {
    local pairs=4000000
    if [[ $1 == copy ]]; then pairs=400000; fi
    echo $((pairs / $2 + 1))
}

# nanoseconds PEER WORKLOAD KEYS SIZE: those of a pair, without the first round
nanoseconds() {
    local more one many
    more=$(rounds "$2" "$4")
    one=$(least "$@" 1) || { echo -; return; }
    many=$(least "$@" $((more + 1))) || { echo -; return; }
    awk -v one="$one" -v many="$many" -v n=$((more * $4)) 'BEGIN { printf "%.1f", (many - one) * 1e9 / n }'
}

# counted PROGRAM..: the instructions of one run
counted() {
    valgrind --tool=callgrind --callgrind-out-file=/dev/null "$@" 2>&1 >/dev/null | awk '/Collected/ { print $NF }'
}

# instructions PEER WORKLOAD KEYS SIZE: those of a pair, without the first round
instructions() {
    local program few many
    command_of "$1"
    few=$(counted "${program[@]}" "${@:2}" 1)
    many=$(counted "${program[@]}" "${@:2}" 2)
    awk -v few="$few" -v many="$many" -v n="$4" 'BEGIN { printf "%.0f", (many - few) / n }'
}

# taken PEER WORKLOAD KEYS SIZE ROUNDS: how many blocks of memory a run takes, and how many bytes in all
taken() {
    local program
    command_of "$1"
    valgrind "${program[@]}" "${@:2}" 2>&1 >/dev/null | awk '/total heap usage/ { gsub(",", ""); print $5, $9 }'
}

# of_change PEER KEYS SIZE: how many blocks and bytes a change of a copy takes
of_change() {
    local few many
    few=$(taken "$1" copy "$2" "$3" 1)
    many=$(taken "$1" copy "$2" "$3" 2)
    awk -v few="$few" -v many="$many" -v n="$3" \
        'BEGIN { split(few, f); split(many, m); printf "%.1f %.0f", (m[1] - f[1]) / n, (m[2] - f[2]) / n }'
}

# held PEER KEYS SIZE: the bytes of a pair that a tree holds for the longest time, which is while it is read
held() {
    local program out="$work/massif"
    command_of "$1"
    valgrind --tool=massif --massif-out-file="$out" "${program[@]}" find "$2" "$3" 5 >/dev/null 2>&1
    awk -F= -v s="$3" '/^time/ { if ($2 - time > longest) { longest = $2 - time; held = heap } time = $2 }
        /^mem_heap_B/ { heap = $2 }
        END { printf "%.1f", held / s }' "$out"
}

# over A B: the ratio
over() { awk -v a="$1" -v b="$2" 'BEGIN { if (a != "-" && b > 0) printf "%.2f", a / b; else printf "-" }'; }

# row NAME UNIT OURS THEIRS..: a line of the table
row() {
    local ours=$3 x line
    line=$(printf '%-18s %9s' "$1" "$ours")
    for x in "${@:4}"; do line+=$(printf ' %9s %6s' "$x" "$(over "$ours" "$x")"); done
    echo "$line   $2"
}

# less A B: the difference
less() { awk -v a="$1" -v b="$2" 'BEGIN { if (a == "-" || b == "-") printf "-"; else printf "%.1f", a - b }'; }

# measured HOW UNIT SIZE KEYS WORKLOAD..: each workload; of std no copies, and of removal what it takes beyond the puts before it
measured() {
    local how=$1 unit=$2 size=$3 keys=$4 workload peer found x
    local -A filled
    for workload in "${@:5}"; do
        found=()
        for peer in ours "${peers[@]}"; do
            if [[ $peer/$workload == std/copy || $peer/$workload == std/lend ]]; then
                found+=(-)
            else
                x=$("$how" "$peer" "$workload" "$keys" "$size")
                case $workload in
                    put) filled[$peer]=$x ;;
                    remove) x=$(less "$x" "${filled[$peer]}") ;;
                esac
                found+=("$x")
            fi
        done
        row "$workload, $keys" "$unit" "${found[@]}"
    done
}

workloads=(build put remove update copy lend find miss walk)
for workload in "${workloads[@]}"; do
    for peer in "${peers[@]}"; do
        a=$("$work/ours" "$workload" scattered 1000 3)
        b=$("$work/theirs" "$peer" "$workload" scattered 1000 3)
        [[ $a == "$b" ]] || { echo "they differ: $a, $b"; exit 1; }
    done
done
for size in "${sizes[@]}"; do
    printf '\n%s pairs%*s ours %s\n' "$size" $((18 - ${#size})) "" "$(printf ' %9s  ratio' "${peers[@]}")"
    for keys in scattered row; do
        measured nanoseconds ns "$size" "$keys" "${workloads[@]}"
        if command -v valgrind >/dev/null; then
            if ((size <= 100000)); then
                measured instructions instructions "$size" "$keys" "${workloads[@]}"
            fi
            kept=()
            for peer in ours "${peers[@]}"; do kept+=("$(held "$peer" "$keys" "$size")"); done
            row "held, $keys" "bytes a pair" "${kept[@]}"
            if ((size <= 100000)); then
                blocks=() bytes=()
                for peer in ours "${peers[@]}"; do
                    if [[ $peer == std ]]; then
                        blocks+=(-) bytes+=(-)
                        continue
                    fi
                    read -r some all <<<"$(of_change "$peer" "$keys" "$size")"
                    blocks+=("$some") bytes+=("$all")
                done
                row "copy, $keys" "blocks taken" "${blocks[@]}"
                row "copy, $keys" "bytes taken" "${bytes[@]}"
            fi
        fi
    done
done
