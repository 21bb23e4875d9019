#!/usr/bin/env bash
# Runs the tests of a crate with the first allocation refused, then with the second, and so on, until all tests pass
# since none of them allocates so often. A test that fails has to have been answered want of memory, which these tests
# show as `None`; one whose name says that memory is refused has to pass. Wants rt. Not part of the gate.
#
#   bench/refused.sh [CRATE]        else tests_hashed; the most allocations of a test of it take some 20 minutes
set -euo pipefail
cd "$(dirname "$0")/../crates/${1:-tests_hashed}"

work=$(mktemp -d)
trap 'rm -rf "$work"' EXIT
for ((n = 1; ; n++)); do
    rt try --test --fail-alloc "$n" >"$work/log" 2>&1 || true
    grep -q '^test result' "$work/log" || { cat "$work/log"; exit 1; }
    failed=$(grep -c 'FAILED$' "$work/log" || true)
    refused=$(grep -c '^ *left: None$' "$work/log" || true)
    if grep -q 'refused .*FAILED$' "$work/log" || ((failed != refused)); then cat "$work/log"; exit 1; fi
    echo "allocation $n refused: $failed tests answer want of memory"
    if ((failed == 0)); then break; fi
done
