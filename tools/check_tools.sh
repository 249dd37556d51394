#!/usr/bin/env bash
# Tries what stands beside the program: the tests of the wrapper, the viewer, the measures, the sweep, the converter of ftrace, the
# explanation of faults and scripts on real threads, the manual pages, and the pages that a reader types along, with the program that
# was built here, or else the reference. Nothing is built but the runner of real threads, where those may run. What a missing tool would
# have read is skipped, with a line that says so, and so are real threads where they may not run.
#
#   tools/check_tools.sh                 all but the page to work in, which takes longest
#   tools/check_tools.sh FOLDER ..       only the tests of these folders of tools/, and no manual page; the page to work in is `lab`
set -u
cd "$(dirname "$0")/.." || exit 1

if ! command -v python3 >/dev/null 2>&1; then
    echo "skipped: the viewer, the measures and the sweep, since python3 is not here"
    exit 0
fi
if ! python3 -c 'import sys; sys.exit(sys.version_info < (3, 11))'; then
    echo "skipped: the viewer, the measures and the sweep, since this python3 is older than 3.11"
    exit 0
fi

if [ -x crates/pse52/out/pse52 ]; then
    PSE52_PROGRAM=$PWD/crates/pse52/out/pse52
    export PSE52_PROGRAM
fi
failed=0
logs=$(mktemp -d) || exit 1
trap 'rm -rf "$logs"' EXIT

# The tests of a folder, to a log of its own.
try() {
    python3 -m unittest discover -s "tools/$1/tests" -t tools >"$logs/$1" 2>&1
}

# What the tests of a folder said, where they ended well in short.
tell() {
    local folder=$1 status=$2
    if [ "$status" -eq 0 ]; then
        grep -o -e 'skipped: .*' -e '^from a key to the picture.*' -e '^a frame of .*' "$logs/$folder" | sort -u
        echo "$folder: $(sed -n 's/^Ran \([0-9]* tests\).*/\1/p' "$logs/$folder"), each passed or was skipped"
    else
        tail -n 60 "$logs/$folder"
        failed=1
    fi
}

# Side by side, but for real threads, which look at a clock: these come last.
together=("$@")
alone=()
[ $# -gt 0 ] || together=(view sweep pages measure wrapper explain ftrace) alone=(live)
declare -A tries
for folder in "${together[@]}"; do
    try "$folder" &
    tries[$folder]=$!
done
for folder in "${together[@]}"; do
    wait "${tries[$folder]}"
    tell "$folder" $?
done
for folder in "${alone[@]}"; do
    try "$folder"
    tell "$folder" $?
done

if [ $# -gt 0 ]; then
    exit $failed
elif command -v mandoc >/dev/null 2>&1; then
    mandoc -T lint -W warning docs/*.1 || failed=1
else
    echo "skipped: the manual pages, since mandoc is not here"
fi
exit $failed
