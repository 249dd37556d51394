#!/bin/sh
# Prints a sum (SHA-256) of what the program stands on, by names and contents:
#   sum.sh code      HANDLES, the lines of crates.txt for the program's crates, and their src/ and specs/: the program, its contracts and
#                    their definitions, so what is run and what is proved of it
#   sum.sh sources   the same and their proofs/
#   sum.sh folders   prints the folders of code, and none of them twice
# Other crates, comments and the order of crates.txt do not count.
set -u
cd "$(dirname "$0")/../.." || exit 1
LC_ALL=C
export LC_ALL

digest() {
    if command -v sha256sum >/dev/null 2>&1; then sha256sum "$@"; else shasum -a 256 "$@"; fi
}

parts='src specs'
[ "${1-}" != sources ] || parts='src specs proofs'
lines=$(sh tools/wrapper/crates.sh) || exit 1
set -- "${1-code}"
for name in $(printf '%s\n' "$lines" | cut -d ' ' -f 1); do
    for part in $parts; do
        [ ! -d "crates/$name/$part" ] || set -- "$@" "crates/$name/$part"
    done
done
what=$1
shift
if [ "$what" = folders ]; then
    printf '%s\n' "$*"
    exit 0
fi
files=$(find HANDLES "$@" -type f -print | sort) || exit 1
# No file of a crate has a blank in its name: the toolchain refuses it.
# shellcheck disable=SC2086
{
    printf '%s\n' "$lines"
    digest $files
} | digest | cut -d ' ' -f 1
