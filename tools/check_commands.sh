#!/usr/bin/env bash
# Runs each command that a page names and that needs no build of an hour, and the examples of docs/CALLS.md: with the program that was
# built here, where there is one, and else with the reference.
set -u
cd "$(dirname "$0")/.." || exit 1
if [ -x crates/pse52/out/pse52 ]; then
    PSE52_PROGRAM=$PWD/crates/pse52/out/pse52
    export PSE52_PROGRAM
    python3 tools/pages/calls.py "$PSE52_PROGRAM" || exit 1
fi
python3 tools/pages/commands.py
