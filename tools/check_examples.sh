#!/usr/bin/env bash
# Runs each example of examples/ and examples/real/, and each worked example of tests/worked/, to its horizon or by its command, and
# compares what is printed with the text beside it; and each text of tests/refused/, which is refused as the row says. Before that each trace and picture of examples/ is compared with what
# tools/reference makes of its script.
# Usage: tools/check_examples.sh [PROGRAM]. Where none is named, one is built for it without a proof, which takes minutes.
set -u
cd "$(dirname "$0")/.." || exit 1
program=${1:-}

if command -v python3 >/dev/null 2>&1; then
    python3 tools/make_examples.py --check || exit 1
else
    echo "skipped: the examples against the reference, since python3 is not here"
fi
if [ -z "$program" ] && ! command -v rt >/dev/null 2>&1; then
    echo "skipped: the examples in the program, since the toolchain's command rt is not here"
    exit 0
fi

cases=$(mktemp -d) || exit 1
out=$(mktemp -d) || exit 1
trap 'rm -rf "$cases" "$out"' EXIT
count=0

# A case: its name, its standard input, what must be printed where that is known before, or nothing, and the words of its command.
add_case() {
    local name=$1 input=$2 printed=$3
    shift 3
    cp "$input" "$cases/$name"
    printf '%s\n' "$@" >"$cases/$name.args"
    [ -z "$printed" ] || cp "$printed" "$cases/$name.stdout"
    count=$((count + 1))
}

# The horizon that the first line of an example says.
horizon_of() {
    sed -n '1s/^# horizon \([0-9]*\), stage [a-z]*\. .*/\1/p' "$1"
}

for task in examples/*.task; do
    name=$(basename "$task" .task)
    horizon=$(horizon_of "$task")
    if [ -z "$horizon" ] || [ ! -e "examples/$name.trace" ]; then
        echo "example $name: no horizon and stage in its first line, or no trace beside it"
        exit 1
    fi
    add_case "example_$name" "$task" '' run "$horizon"
done

for task in examples/real/*.task; do
    name=$(basename "$task" .task)
    add_case "real_$name" "$task" "examples/real/$name.trace" run "$(sed -n '1s/^# horizon \([0-9]*\).*/\1/p' "$task")"
done

while read -r name _; do
    worked=tests/worked/$name
    [ ! -e "$worked.upgrade" ] || add_case "worked_$name" "$worked.task" "$worked.upgrade" upgrade
    [ -e "$worked.horizon" ] || continue
    horizon=$(cat "$worked.horizon")
    for text in "$worked.trace" "$worked.refused"; do
        [ ! -e "$text" ] || add_case "worked_$name" "$worked.task" "$text" run "$horizon"
    done
    for command in show detail; do
        [ ! -e "$worked.$command" ] || add_case "worked_$name" "$worked.task" "$worked.$command" "$command" "$horizon"
    done
done < <(grep -v '^#' tests/worked/INDEX.txt)

while read -r name _; do
    add_case "worked_$name" "tests/worked/$name.audit" "tests/worked/$name.verdict" audit
done < <(grep -v '^#' tests/worked/AUDITS.txt)

while read -r line number kind text; do
    printf '%b' "$text" >"$out/text"
    echo "refused $line $number $kind" >"$out/refused"
    add_case "refused_$count" "$out/text" "$out/refused" run 0
done < <(grep -v '^#' tests/refused/FAULTS.txt)

# Runs all cases in a program that is built for it. What a case printed stands under a line '== NAME', up to the next such line; no
# line of a trace begins so.
run_unproved() {
    (cd crates/pse52 && rt try --cases "$cases") >"$out/printed" 2>"$out/log" || return
    awk -v out="$out" '/^== / { file = out "/" $2 ".text"; printf "" >file; next } file { print >file }' "$out/printed"
}

# Runs all cases in the program that is named.
run_named() {
    local given words name differ=0
    for given in "$cases"/*.args; do
        name=$(basename "$given" .args)
        mapfile -t words <"$given"
        "$program" "${words[@]}" <"$cases/$name" >"$out/$name.text" 2>>"$out/log"
        [ -e "$cases/$name.stdout" ] || continue
        if ! cmp -s "$out/$name.text" "$cases/$name.stdout"; then
            echo "$name: what is printed is not what stands beside it:" >>"$out/log"
            diff "$cases/$name.stdout" "$out/$name.text" | head -n 10 >>"$out/log"
            differ=1
        fi
    done
    return "$differ"
}

if [ -n "$program" ]; then
    run_named
else
    run_unproved
fi || {
    tail -n 40 "$out/log"
    echo "examples: $count run, something differs"
    exit 1
}

failed=0
for task in examples/*.task; do
    name=$(basename "$task" .task)
    printed=$out/example_$name.text
    if [ ! -e "$printed" ]; then
        echo "example $name: nothing was printed"
        failed=$((failed + 1))
    elif cmp -s "$printed" "examples/$name.trace"; then
        :
    else
        echo "example $name: printed is not examples/$name.trace:"
        diff "examples/$name.trace" "$printed" | head -n 10
        failed=$((failed + 1))
    fi
done
if [ "$failed" -ne 0 ]; then
    echo "examples: $count run, $failed differ"
    exit 1
fi
echo "examples: $count run, each prints what stands beside it"
