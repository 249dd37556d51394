#!/usr/bin/env bash
# Proves and builds the program: `rt ci` over a copy of the crates that it stands on, without their edits. rt shares the crates among the
# processors, reads each library that is proved without its proofs, and keeps what passed beside the toolchain: a run that was
# interrupted goes on where it stopped, and one behind a gate proves nothing again. At the end crates/pse52/out has the program and the
# record of the sources that it was proved of. Called by `bin/pse52 --prove`.
set -u
set -m  # the run of rt is a process group of its own, so that it ends whole

top=$(cd "$(dirname "$0")/../.." && pwd) || exit 1
wrapper=$top/tools/wrapper
out=$top/crates/pse52/out
program=$out/pse52
log=$out/build.log
lock=$out/proving
room=
proved_told=0
. "$wrapper/cost.sh"

say() {
    printf 'pse52: %s\n' "$*" >&2
}

# How long this run has taken.
elapsed() {
    printf '%d min' $(((SECONDS + 30) / 60))
}

# Waits while another run proves in this checkout. The lock of a run that is gone is taken over.
take_lock() {
    local told='' owner
    until mkdir "$lock" 2>/dev/null; do
        owner=$(cat "$lock/pid" 2>/dev/null)
        if [ -n "$owner" ] && ! kill -0 "$owner" 2>/dev/null; then
            rm -rf "$lock"
            continue
        fi
        [ -d "$lock" ] || { say "crates/pse52/out cannot be written, so nothing can be built here"; exit 70; }
        [ -n "$told" ] || say "another run (process $owner) is proving here; waiting for it"
        told=yes
        sleep 1
    done
    echo $$ >"$lock/pid"
}

clean_up() {
    [ -z "$room" ] || rm -rf "$room"
    rm -rf "$lock"
}

interrupted() {
    local group
    trap '' HUP INT PIPE TERM
    {
        for group in $(jobs -p); do
            kill -TERM -- "-$group"
        done
        wait
    } 2>/dev/null
    say "interrupted after $(elapsed); the next 'pse52 --prove' goes on where this one stopped"
    exit 70
}

# Fills the room with what the program is proved and built of: the crates that crates.sh tells, and what rt runs the program on.
fill_room() {
    local name deps part
    mkdir -p "$room/crates" "$room/.git" && cp "$top/HANDLES" "$room" || return
    while read -r name deps; do
        mkdir "$room/crates/$name" || return
        for part in src specs proofs; do
            [ ! -d "$top/crates/$name/$part" ] || cp -R "$top/crates/$name/$part" "$room/crates/$name" || return
        done
        echo "$name: $deps" >>"$room/crates.txt"
    done
    for part in args stdin stdout; do
        [ ! -e "$top/crates/pse52/$part" ] || cp "$top/crates/pse52/$part" "$room/crates/pse52" || return
    done
}

# Tells the crates that were proved since it told last.
tell_proved() {
    local name
    while read -r name; do
        proved_told=$((proved_told + 1))
        say "crate $proved_told of $total, after $(elapsed): $name"
    done < <(sed -n -e 's/^rt: \([a-z0-9_]*\) proved$/\1/p' -e 's/^rt: \([a-z0-9_]*\) is kept: .*/\1, as it was proved before/p' "$log" |
        tail -n +$((proved_told + 1)))
}

# Proves all in the room, and tells how far it is.
prove() {
    (cd "$room" && exec rt ci) </dev/null >"$log" 2>&1 &
    local run=$!
    while kill -0 "$run" 2>/dev/null; do
        sleep 1
        tell_proved
    done
    wait "$run"
}

# A run that failed: which crate it was, where what it said is kept, and the last lines of it.
not_proved() {
    local name
    name=$(sed -n 's/^rt: \([a-z0-9_]*\) NOT PROVED.*/\1/p' "$log" | head -n 1)
    say "${name:+the crate $name was not proved; }the program was not built; the last lines of $log:"
    tail -n 15 "$log" >&2
    exit 70
}

if ! command -v rt >/dev/null 2>&1; then
    say "a proof needs the toolchain, and its command rt is not on the path (README.md, What it needs)"
    exit 70
fi
mkdir -p "$out" || exit 70
take_lock
trap clean_up EXIT
trap interrupted HUP INT PIPE TERM
sources=$(sh "$wrapper/sum.sh" sources) || exit 70
crates=$(sh "$wrapper/crates.sh") || exit 70
total=$(wc -l <<<"$crates")
room=$(mktemp -d "${TMPDIR:-/tmp}/pse52-proving.XXXXXX") || exit 70
fill_room <<<"$crates" || { say "the sources could not be copied to $room"; exit 70; }
say "proving $total crates and building the program: $first_proof, and less where some are kept"
prove || not_proved
cp "$room/crates/pse52/out/pse52" "$program.new" && mv -f "$program.new" "$program" || exit 70
sh "$wrapper/record.sh" "$sources" || exit 70
say "the program is proved and built, after $(elapsed): $program"
