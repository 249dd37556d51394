# Sourced by bin/pse52: which program is run. Sets `program`, or fails where none is here that was proved of the code that stands here.
#
# The release says in release/MANIFEST of which code it was proved, and a program that was proved here in pse52.record beside it
# (tools/wrapper/record.sh): the sum of `sum.sh code`. Proofs are no part of it: what is run, its contracts and their definitions are the
# same whichever proof convinced the checker.
#
# That sum takes longer than a short run, so what came of it is kept, and counts until one of the files or folders changes: its change
# time is then later than that of the stamp, and nobody can set a change time back. A stamp that was copied or moved is not at its place
# on the disk any more, and counts for nothing.

release=$top/release/pse52
manifest=$top/release/MANIFEST
built=$top/crates/pse52/out/pse52
record=$built.record

# The value that a manifest or record has for a word.
value_of() {
    sed -n "s/^$1 //p" "$2" 2>/dev/null
}

digest_of() {
    { sha256sum "$1" 2>/dev/null || shasum -a 256 "$1" 2>/dev/null; } | cut -d ' ' -f 1
}

# The place of a stamp on the disk with its time, and then the first of the files that changed later, if one did.
changes_since() {
    # shellcheck disable=SC2086
    cd "$top" && exec find "$1" crates.txt HANDLES $watched -samefile "$1" -printf '%D %i %T@\n' -o -cnewer "$1" -print -quit 2>/dev/null
}

# A text as a word of the shell.
quoted() {
    printf "'%s'" "$(printf '%s' "$1" | sed "s/'/'\\\\''/g")"
}

# Whether a program is there and is the one that its manifest or record says, proved of this code.
is_of() {
    [ -x "$1" ] && [ "$(value_of code "$2")" = "$3" ] && [ "$(value_of program "$2")" = "$(digest_of "$1")" ]
}

# Whether the release can be run on this machine, by its kernel and processor and by its C library.
starts_here() {
    [ "$(value_of machine "$manifest")" = "$(uname -sm)" ] && "$release" gen 0 >/dev/null 2>&1
}

# Looks at all the code, and keeps what came of it where there is a folder to keep it in.
look() {
    stamp=
    if mkdir -p "$kept" 2>/dev/null && : 2>/dev/null >"$kept/stamp.$$"; then
        stamp=$kept/stamp.$$
        sleep 0.02 2>/dev/null || sleep 1
    fi
    code=$(sh "$wrapper/sum.sh" code) || return 1
    watched=$(sh "$wrapper/sum.sh" folders) || return 1
    program=
    if is_of "$release" "$manifest" "$code" && starts_here; then
        program=$release
        watched="$watched release"
    elif is_of "$built" "$record" "$code"; then
        program=$built
        watched="$watched crates/pse52/out/pse52 crates/pse52/out/pse52.record"
        [ ! -d "$top/release" ] || watched="$watched release"
    fi
    if [ -n "$stamp" ]; then
        if [ -n "$program" ]; then
            printf 'known=%s program=%s watched=%s\n' "$(quoted "$(changes_since "$stamp")")" "$(quoted "$program")" \
                "$(quoted "$watched")" >"$kept/known.$$"
            mv -f "$stamp" "$kept/stamp" && mv -f "$kept/known.$$" "$kept/known"
        fi
        rm -f "$stamp" "$kept/known.$$"
    fi
    [ -n "$program" ]
}

# Whether what was kept still counts. It is kept as words of the shell, which reads those faster than lines. A crate without definitions must not have got any, and a checkout no release.
still_counts() {
    [ -r "$kept/known" ] && . "$kept/known"
    [ -n "$known" ] && [ "$(changes_since "$kept/stamp")" = "$known" ] || return 1
    case " $watched " in
        *' release '*) ;;
        *) [ ! -d "$top/release" ] || return 1 ;;
    esac
    for folder in $watched; do
        case $folder in
            */src) case " $watched " in
                *" ${folder%src}specs "*) ;;
                *) [ ! -d "$top/${folder%src}specs" ] || return 1 ;;
            esac ;;
        esac
    done
}

choose_program() {
    # What is installed has no sources beside it, and was held to its manifest when it was installed.
    if [ ! -d "$top/crates" ]; then
        program=$release
        [ -x "$program" ]
        return
    fi
    kept=$top/crates/pse52/out/start
    known=
    [ -w "$top/crates/pse52" ] || kept=${XDG_CACHE_HOME:-${HOME:-/nonexistent}/.cache}/pse52$top
    still_counts || look
}

# The oldest glibc that the release runs with, where its manifest tells it.
from_version() {
    oldest=$(value_of glibc "$manifest")
    [ -z "$oldest" ] || echo " $oldest or later"
}

# Why the release cannot be run here.
does_not_start() {
    [ -x "$release" ] || {
        echo "it may not be executed ('chmod +x release/pse52', or put it where the file system lets programs run)"
        return
    }
    echo "it is for $(value_of machine "$manifest") with glibc$(from_version), and does not start on this machine, $(uname -sm)"
}

# The release whatever stands here, where its user asks for it by name.
released_program() {
    program=$release
    [ -d "$top/crates" ] || return 0
    if [ -e "$release" ] && [ ! -x "$release" ]; then
        say "the release: $(does_not_start)"
        exit 70
    fi
    if ! is_of "$release" "$manifest" "$(value_of code "$manifest")"; then
        say 'there is no release here, or it is not the program of release/MANIFEST'
        exit 70
    fi
    starts_here || {
        say "the release: $(does_not_start)"
        exit 70
    }
    if choose_program && [ "$program" = "$release" ]; then
        return
    fi
    program=$release
    say "the release $(value_of version "$manifest") of $(value_of date "$manifest"): proved, but of other code than stands here"
}

# One line on what there is to do where no proved program of this code is here.
no_program() {
    . "$wrapper/cost.sh"
    if [ ! -e "$manifest" ]; then
        old='; there is no release'
    elif [ "$(value_of code "$manifest")" = "$(sh "$wrapper/sum.sh" code)" ]; then
        old="; there is a release, but $(does_not_start)"
    else
        old="; the release $(value_of version "$manifest"), proved of other code, runs at once by 'pse52 --released'"
    fi
    say "no program that was proved of this code is here: 'pse52 --prove' makes one, $first_proof$old"
    exit 70
}
