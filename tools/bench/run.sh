#!/usr/bin/env bash
# Times the ready lists before and after they stood on linked cells, and the timer wheel beside a plain search, in one run.
# Usage: tools/bench/run.sh [COMMIT], COMMIT being the one whose ready lists are the earlier ones; without it the last before they
# took up `raw_links`, as `parts_links` was called. README.md says what is compared.
set -u
here=$(cd "$(dirname "$0")" && pwd) || exit 1
top=$(cd "$here/../.." && pwd) || exit 1
work=$(mktemp -d) || exit 1
earlier=$work/earlier
cleanup() {
    git -C "$top" worktree remove --force "$earlier" >/dev/null 2>&1
    rm -rf "$work"
}
trap cleanup EXIT

# The crates had other names then.
turned=$(git -C "$top" log --format=%H -S'use raw_links::Links' -- crates/ready_lists/src/lib.rt | tail -n 1)
names_then='s/\bparts_ready\b/ready_lists/g; s/\bwords_numbers\b/tick_num/g'
commit=${1:-$turned~1}
git -C "$top" worktree add --detach "$earlier" "$commit" >/dev/null 2>&1 || {
    echo "bench: no commit $commit"
    exit 1
}

# A copy of the repository at $1 in $2, with one crate more, named $3, of the files of the folder $4, changed by $6, which stands on
# the crates $5.
# The program of that crate is proved and built, as any other.
build() {
    local from=$1 copy=$2 name=$3 files=$4 below=$5
    mkdir -p "$copy/crates/$name/src"
    cp "$from/HANDLES" "$copy/"
    tar -C "$from" --exclude=out -cf - crates | tar -C "$copy" -xf -
    { cat "$from/crates.txt" && echo "$name: $below"; } >"$copy/crates.txt"
    sed "${6:-}" "$here/$files/main.rt.txt" >"$copy/crates/$name/src/main.rt"
    for text in "$here/$files"/*.Invariants.antt.txt; do
        local of
        of=$(basename "$text" .Invariants.antt.txt)
        mkdir -p "$copy/crates/$name/proofs/$of"
        sed "${6:-}" "$text" >"$copy/crates/$name/proofs/$of/Invariants.antt"
    done
    (cd "$copy/crates/$name" && rt run >"$copy/log" 2>&1)
    if [ ! -x "$copy/crates/$name/out/$name" ]; then
        tail -n 5 "$copy/log"
        echo "bench: $name was not built"
        exit 1
    fi
}

build "$earlier" "$work/before" list_bench lists "tick_num ready_lists" "$names_then"
build "$top" "$work/after" list_bench lists "words_numbers parts_ready"
build "$top" "$work/wheel" wheel_bench wheel "words_numbers parts_wheel"
build "$top" "$work/expiries" expiry_bench expiries "words_numbers parts_wheel"

for side in before after; do
    "$work/$side/crates/list_bench/out/list_bench" >"$work/$side.times" || exit 1
done
"$work/wheel/crates/wheel_bench/out/wheel_bench" >"$work/wheel.times" || exit 1

# Each line of the programs: what was timed, its nanoseconds, and the answer, which must be the same on both sides.
echo "ready lists, a million moves among 64 threads, nanoseconds a move:"
join "$work/before.times" "$work/after.times" | awk '
    $3 != $5 { print "  " $1 ": the answers differ"; bad = 1; next }
    { printf "  %-14s before %7.1f  after %6.1f  ratio %6.1f\n", $1, $2 / 1e6, $4 / 1e6, $2 / $4 }
    END { exit bad }' || exit 1
echo "due ticks, a million pops and arms of 1,024 items, nanoseconds each:"
awk '
    { time[$1] = $2; answer[$1] = $3 }
    END {
        if (answer["wheel"] != answer["search"]) { print "  the answers differ"; exit 1 }
        printf "  search %7.1f  wheel %6.1f  ratio %6.1f\n", time["search"] / 1e6, time["wheel"] / 1e6, time["search"] / time["wheel"]
    }' "$work/wheel.times"
echo "expiries of items that are armed again, thirty-two and eight of them, nanoseconds each:"
"$work/expiries/crates/expiry_bench/out/expiry_bench" | awk '{ printf "  %-8s %6.1f\n", $1, $2 / $4 }'
