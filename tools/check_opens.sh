#!/usr/bin/env bash
# Refuses each allocation of the tests of the kernel's parts in turn, from the first on: a test that comes to it must end with the want
# of memory as its error, until a number is reached that no test comes to; then all must pass. So `open` answers each want of memory,
# and no later call takes any. It stands outside the gate, since each number builds the tests anew. Usage: tools/check_opens.sh [CRATE..]
set -u
top=$(cd "$(dirname "$0")/.." && pwd) || exit 1
[ "$#" -gt 0 ] || set -- test_parts
most=40
failed=0
for crate in "$@"; do
    for ((number = 1; number <= most; number++)); do
        log=$(cd "$top/crates/$crate" && rt try --test --fail-alloc "$number" 2>&1)
        if grep -q '^test result: ok' <<<"$log"; then
            echo "$crate: each of $((number - 1)) allocations was refused in turn"
            break
        fi
        ended=$(grep -c '^test .* FAILED$' <<<"$log")
        if [ "$ended" -eq 0 ] || [ "$ended" -ne "$(grep -c 'AllocError\|AllocFailed' <<<"$log")" ]; then
            echo "$crate: allocation $number refused, and a test ends otherwise:"
            grep -A 1 ' FAILED$' <<<"$log"
            failed=$((failed + 1))
        fi
    done
    [ "$number" -le "$most" ] || { echo "$crate: no number up to $most is past its allocations"; failed=$((failed + 1)); }
done
[ "$failed" -eq 0 ]
