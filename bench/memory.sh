#!/usr/bin/env bash
# Runs commands under valgrind's memcheck: fails where one reads or writes memory that isn't its own, uses what
# was never written, or leaves a block behind. Wants valgrind, and rt where no command is given. Not part of the
# gate.
#
#   bench/memory.sh                 every workload of bench_array over arrays of 1000 elements
#   bench/memory.sh FILE            the commands in a file, one a line: a program built before, its words, and
#                                   what bash reads in a line, such as `< examples/first.cow`
# A command's own exit status isn't looked at.
set -euo pipefail
cd "$(dirname "$0")/.."

work=$(mktemp -d)
trap 'rm -rf "$work"' EXIT

# ours: the commands where none are given
ours() {
    (cd crates/bench_array && rt run >"$work/build" 2>&1) || { cat "$work/build" >&2; exit 1; }
    for workload in append get set copy append-atoms copy-atoms; do
        echo "crates/bench_array/out/bench_array $workload 1000 3"
    done
}

if [[ $# -eq 0 ]]; then ours >"$work/commands"; else cp "$1" "$work/commands"; fi

failed=0
while IFS= read -r command; do
    [[ -n $command ]] || continue
    log="$work/log"
    bash -c "valgrind --error-exitcode=0 --leak-check=full --show-leak-kinds=all --log-file='$log' $command" \
        >/dev/null 2>&1 </dev/null || true
    if grep -q 'ERROR SUMMARY: 0 errors' "$log" && grep -q 'All heap blocks were freed' "$log"; then
        echo "clean   $command"
    else
        echo "FAULTS  $command"
        cat "$log"
        failed=1
    fi
done <"$work/commands"
exit $failed
