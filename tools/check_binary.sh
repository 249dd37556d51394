#!/usr/bin/env bash
# Tries the built program by hand's measure: the exit status and the first line of standard output for a script, an empty input, a
# text that is too long, words that are no command, traces beside a script, a closed standard output and a full device.
# Usage: tools/check_binary.sh [PROGRAM], which is the one that bin/pse52 would run if none is named.
set -u
cd "$(dirname "$0")/.." || exit 1
program=${1:-$(bin/pse52 --which)} || exit 1

failed=0
passed=0

# What was tried, the status that came and the one that is wanted, the line that came and the one that is wanted.
expect() {
    if [ "$2" = "$3" ] && [ "$4" = "$5" ]; then
        passed=$((passed + 1))
    else
        failed=$((failed + 1))
        printf '%s: status %s, wanted %s; line "%s", wanted "%s"\n' "$1" "$2" "$3" "$4" "$5"
    fi
}

try() {
    local what=$1 status=$2 line=$3
    shift 3
    local text
    text=$("$program" "$@")
    expect "$what" $? "$status" "$(printf '%s\n' "$text" | head -n 1)" "$line"
}

usage='usage: pse52 COMMAND NUMBERS'
try 'a script' 0 '0 start a' run 10 <examples/one_thread.task
try 'an instant of a script' 0 '2 state' show 2 <examples/one_thread.task
try 'an instant of an empty input' 2 'refused 1 14 NoThread' show 2 </dev/null
try 'an instant without a number' 1 "$usage" show <examples/one_thread.task
try 'a detail of a script' 0 '0 start a' detail 10 <examples/one_thread.task
try 'a detail of no tick' 0 '0 end' detail 0 <examples/one_thread.task
try 'a detail of an empty input' 2 'refused 1 14 NoThread' detail 10 </dev/null
try 'a detail without a number' 1 "$usage" detail <examples/one_thread.task
try 'an empty input' 2 'refused 1 14 NoThread' run 10 </dev/null
try 'a text that is too long' 3 'too long' run 1 < <(head -c 1048577 /dev/zero | tr '\0' '\n')
try 'a folder as standard input' 4 '' run 10 <examples
try 'no words' 1 "$usage"
try 'a number with a letter' 1 "$usage" run 1x
try 'a number past the limit' 1 "$usage" run 1000000000000000001
try 'a sign' 1 "$usage" run +1
try 'an empty word' 1 "$usage" run ''
try 'a word that is not UTF-8' 1 "$usage" run "$(printf '\377')"
try 'leading zeros' 0 '0 end' run 000 <examples/one_thread.task
try 'a script of a number, and standard input as it is' 0 'quantum 3' gen 0 <examples
try 'the run of the script of a number' 0 '1000000 end' soak 63 1000000 <examples
try 'a number too many' 1 "$usage" gen 1 2
try 'a number too few' 1 "$usage" soak 1

# A body of so many units.
units() {
    echo 'thread a fifo 5 at 0'
    yes yield | head -n "$1"
    echo end
}

try 'a body of the greatest length' 0 '0 start a' run 1 < <(units 65536)
try 'a body of one unit more' 2 'refused 65538 13 TooMany' run 1 < <(units 65537)

# A script, the line %%, and what stands behind it.
beside() {
    printf 'thread a fifo 5 at 0\nrun 3\nend\n%%%%\n'
    "$@"
}

# The right trace, and line ends behind it up to so many bytes of input.
line_ends() {
    cat examples/one_thread.trace
    head -c "$(($1 - 34 - $(wc -c <examples/one_thread.trace)))" /dev/zero | tr '\0' '\n'
}

try 'the trace of a script' 0 'same' check 10 < <(beside cat examples/one_thread.trace)
try 'another trace' 7 'differs 2' check 10 < <(beside cat examples/yield.trace)
try 'no trace' 8 'no trace' check 10 <examples/one_thread.task
# A script of so many bytes in front of its trace.
padded() {
    head -c "$(($1 - 32))" /dev/zero | tr '\0' '#'
    echo
    beside cat examples/one_thread.trace
}

try 'a script of the greatest length, and its trace' 0 'same' check 10 < <(padded 1048576)
try 'a script of one byte more, and its trace' 3 'too long' check 10 < <(padded 1048577)
try 'a script and a trace of the greatest length' 7 'differs 7' check 10 < <(beside line_ends 67108864)
try 'a script and a trace of one byte more' 3 'too long' check 10 < <(beside line_ends 67108865)

# A server, the line %%, and the trace of an example, with one line of it changed.
audited() {
    printf 'server server 20 5 4\n%%%%\n'
    sed "$1" examples/13_server_and_polling.trace
}

try 'a trace that keeps its budgets' 0 'budgets hold' audit < <(audited '')
try 'a trace without its last line' 9 "breach $(wc -l <examples/13_server_and_polling.trace) 6" audit < <(audited '/^thread server /d')
try 'a plan of one tick less' 9 "breach $(grep -n -m 1 'plan server 4' examples/13_server_and_polling.trace | cut -d : -f 1) 2" audit \
    < <(audited 's/plan server 4/plan server 3/')
try 'an audit without a trace' 8 'no trace' audit <examples/13_server_and_polling.trace
try 'an audit with a number' 1 "$usage" audit 10

"$program" run 10 <examples/one_thread.task >&-
expect 'a closed standard output' $? 5 '' ''
"$program" show 2 <examples/one_thread.task >&-
expect 'a closed standard output, for an instant' $? 5 '' ''
"$program" detail 10 <examples/one_thread.task >&-
expect 'a closed standard output, for a detail' $? 5 '' ''
if [ -e /dev/full ]; then
    "$program" run 10 <examples/one_thread.task >/dev/full
    expect 'a full device' $? 5 '' ''
fi

echo "binary: $passed passed, $failed failed"
[ "$failed" -eq 0 ]
