#!/usr/bin/env bash
# Refuses each allocation of the built program in turn, from the first on until a number is reached that the run does not come to: the Nth
# alone, and the Nth with all after it. Each time the program must end with status 6, write nothing and give each block back; with no
# refusal it must end and write as ever. And after the kernel is open nothing takes memory: a run a hundred times as long comes to the
# same number of allocations. tools/memory/refuse.c is loaded beside the program and counts and refuses; cc builds it here.
# Usage: tools/check_memory.sh [PROGRAM], which is the one that the gate or bin/pse52 --prove has built if none is named.
set -u
top=$(cd "$(dirname "$0")/.." && pwd) || exit 1
program=${1:-$top/crates/pse52/out/pse52}
for tool in cc nm; do
    command -v $tool >/dev/null 2>&1 || { echo "skipped: the refused allocations, since $tool is not here"; exit 0; }
done
[ -x "$program" ] || { echo "$program is not here: bash .ci/run and bin/pse52 --prove prove and build it"; exit 1; }
room=$(mktemp -d) || exit 1
trap 'rm -rf "$room"' EXIT
cc -O2 -shared -fPIC -o "$room/refuse.so" "$top/tools/memory/refuse.c" || exit 1

# The functions of the C library that take memory and that are not counted: none may be among those that the program calls.
uncounted='mmap|mmap64|mremap|brk|sbrk|aligned_alloc|posix_memalign|memalign|valloc|pvalloc|reallocarray|strdup|strndup|v?asprintf|getline|getdelim|open_memstream'
calls=$(nm -D --undefined-only "$program" | awk '{ sub(/@.*/, "", $NF); print $NF }' | sort -u) || exit 1
if grep -xE "$uncounted" <<<"$calls"; then
    echo "the program takes memory by the function above, which tools/memory/refuse.c does not count"
    exit 1
fi
echo "memory is taken by: $(grep -xE 'malloc|calloc|realloc' <<<"$calls" | paste -sd ' ')"

failed=0
refused=0

wrong() {
    echo "$name: $*: WRONG"
    failed=$((failed + 1))
}

# One run with the words, of the input, with a number refused: its status, what it wrote, and the numbers of allocations, refusals and
# blocks that were kept.
run() {
    rm -f "$room/counts"
    REFUSE=$1 COUNT_TO=$room/counts LD_PRELOAD=$room/refuse.so "$program" "${@:2}" <"$input" >"$room/out" 2>"$room/err"
    status=$?
    taken='unknown' refusals='unknown' kept='unknown'
    [ ! -e "$room/counts" ] || read -r taken refusals kept <"$room/counts"
}

# Whether the run ended and wrote as it does with no refusal.
is_whole() {
    [ "$status" = "$wanted" ] && cmp -s "$room/out" "$room/due" && [ ! -s "$room/err" ] && [ "$kept" = 0 ]
}

# Whether the run was refused memory and told so, wrote nothing and kept nothing.
is_refused() {
    [ "$status" = 6 ] && [ ! -s "$room/out" ] && [ ! -s "$room/err" ] && [ "$kept" = 0 ]
}

told() {
    echo "status $status, $(wc -c <"$room/out") bytes written, $kept blocks kept"
}

# Refuses each allocation of a command in turn: its name, its input, the status that is due without a refusal, and its words. What it
# writes then is what it writes with nothing loaded beside it, or what stands in `$room/due` already.
refuse_each() {
    name=$1 input=$2 wanted=$3
    shift 3
    [ -e "$room/due" ] || "$program" "$@" <"$input" >"$room/due" 2>/dev/null
    run 0 "$@"
    is_whole || wrong "with no refusal: $(told)"
    last=$taken
    [ "$last" != unknown ] && [ "$last" != 0 ] || { wrong "$last allocations were counted"; rm -f "$room/due"; return; }
    local number=1
    while [ "$number" -le $((last + 1)) ]; do
        run "$number.." "$@"
        [ "$refusals" = 0 ] || is_refused || wrong "allocation $number and all after it refused: $(told)"
        run "$number" "$@"
        [ "$refusals" != 0 ] || break
        is_refused || wrong "allocation $number refused: $(told)"
        number=$((number + 1))
    done
    [ "$refusals" = 0 ] && is_whole || wrong "past its last allocation: $(told)"
    [ "$number" = $((last + 1)) ] || wrong "it came to $((number - 1)) allocations when they were refused, and to $last before"
    refused=$((refused + number - 1))
    echo "$name: allocations 1 to $last refused in turn: status 6, nothing written"
    rm -f "$room/due"
}

# The same command to a horizon further off ends as well and comes to the same number of allocations: its words.
comes_to_no_more() {
    run 0 "$@"
    [ "$status" = "$wanted" ] && [ "$kept" = 0 ] || wrong "$*: $(told)"
    [ "$taken" = "$last" ] || wrong "$*: $taken allocations, in place of $last"
    echo "$name: $* comes to $taken allocations too"
}

input=$top/examples/one_thread.task
cp "$top/examples/one_thread.trace" "$room/due"
refuse_each 'one thread' "$input" 0 run 10
comes_to_no_more run 1000

worked=$top/tests/worked/controller_with_server_and_monitor
cp "$worked.trace" "$room/due"
refuse_each 'the controller' "$worked.task" 0 run 44
comes_to_no_more run 4400

facts=$top/tests/worked/facts_of_cleanups_and_frames
cp "$facts.detail" "$room/due"
refuse_each 'a detail' "$facts.task" 0 detail 19
comes_to_no_more detail 1900
refuse_each 'an instant' "$facts.task" 0 show 9
comes_to_no_more show 900

{ cat "$worked.task"; echo '%%'; cat "$worked.trace"; } >"$room/beside"
echo same >"$room/due"
refuse_each 'a trace that is the same' "$room/beside" 0 check 44
refuse_each 'a trace that differs' "$room/beside" 7 check 4400
refuse_each 'no trace' "$worked.task" 8 check 44
{ echo 'server server 20 5 4'; echo '%%'; cat "$top/examples/13_server_and_polling.trace"; } >"$room/audited"
echo 'budgets hold' >"$room/due"
refuse_each 'an audit' "$room/audited" 0 audit
refuse_each 'response times' "$top/examples/21_response_times.rta" 0 rta 25
comes_to_no_more rta 100000000
refuse_each 'a script of a number' /dev/null 0 gen 63
refuse_each 'the run of a script of a number' /dev/null 0 soak 63 1000
comes_to_no_more soak 63 100000
refuse_each 'a script that is refused' "$top/tests/worked/body_without_end.task" 2 run 10
refuse_each 'no command' /dev/null 1 run

[ "$failed" -eq 0 ] || { echo "memory: $failed wrong"; exit 1; }
echo "memory: $refused allocations refused, each alone and with all after it: status 6, nothing written, each block given back"
