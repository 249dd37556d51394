#!/bin/sh
# Prints the crates that the program stands on, itself the last, by crates.txt: a line for each, its name and what it stands on, lowest
# first. Libraries that crates.txt does not list are the toolchain's.
set -u
cd "$(dirname "$0")/../.." || exit 1

awk '
    function visit(name,    words, count, i) {
        if (!(name in deps) || name in seen) return
        seen[name] = 1
        count = split(deps[name], words, " ")
        for (i = 1; i <= count; i++) visit(words[i])
        $0 = name " " deps[name]
        $1 = $1
        print
    }
    { sub(/#.*/, "") }
    /:/ { split($0, half, ":"); split(half[1], name, " "); deps[name[1]] = half[2] }
    END { visit("pse52") }' crates.txt
