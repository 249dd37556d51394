#!/usr/bin/env bash
# Makes the release: release/pse52, the program that was proved and built here, stripped, and release/MANIFEST, which says of what.
#
#   tools/make_release.sh            makes it, of the program in crates/pse52/out (from `bin/pse52 --prove` or `bash .ci/run`)
#   tools/make_release.sh --check    holds the release to the program that was built here: where the manifest's sum is that of the code
#                                    that stands here, the bytes must be the same. A release of other code is told, and no fault, since
#                                    a release is made of a program only after its gate; bin/pse52 does not run it unasked. One for
#                                    another machine, or built by another toolchain, is told as well, and not compared
#
# Status 1: the bytes differ, or there is nothing to make a release of. Status 3: the bytes were not compared, as the line says.
set -u
top=$(cd "$(dirname "$0")/.." && pwd) || exit 1
cd "$top" || exit 1
built=crates/pse52/out/pse52
release=release/pse52
manifest=release/MANIFEST

value_of() {
    sed -n "s/^$1 //p" "$2" 2>/dev/null
}

digest_of() {
    sha256sum "$1" | cut -d ' ' -f 1
}

warn() {
    echo "WARNING: release: $*"
    exit 3
}

fail() {
    echo "release: $*"
    exit 1
}

strip_line() {
    strip --version 2>/dev/null | head -n 1
}

# The newest version of glibc that a program asks for, which is the oldest that it runs with.
glibc_of() {
    objdump -T "$1" | sed -n 's/.*(\{0,1\}GLIBC_\([0-9.]*\).*/\1/p' | sort -V | tail -n 1
}

make() {
    local version
    version=$(cat VERSION)
    grep -q "^## $version" CHANGELOG.md || fail "CHANGELOG.md has no section for version $version"
    [ -x "$built" ] || fail "no program is built here: bin/pse52 --prove"
    [ "$(value_of sources "$built.record")" = "$(sh tools/wrapper/sum.sh sources)" ] ||
        fail "the program in crates/pse52/out was not proved of the sources that stand here: bin/pse52 --prove"
    [ "$(value_of program "$built.record")" = "$(digest_of "$built")" ] || fail "the program is not the one that was recorded"
    mkdir -p release
    strip -o "$release.new" "$built" || fail "strip failed"
    mv -f "$release.new" "$release"
    cat >"$manifest" <<END
version $version
date $(date -u +%Y-%m-%d)
machine $(uname -sm)
glibc $(glibc_of "$release")
toolchain $(value_of toolchain "$built.record")
code $(value_of code "$built.record")
sources $(value_of sources "$built.record")
built $(digest_of "$built")
strip $(strip_line)
program $(digest_of "$release")
END
    cat "$manifest"
}

check() {
    local toolchain
    [ -e "$manifest" ] || warn "there is none; tools/make_release.sh makes one"
    [ "$(value_of program "$manifest")" = "$(digest_of "$release")" ] || fail "release/pse52 is not the program of its manifest"
    [ "$(value_of code "$manifest")" = "$(sh tools/wrapper/sum.sh code)" ] ||
        warn "version $(value_of version "$manifest") is of other code than stands here, so bin/pse52 does not run it;" \
            "tools/make_release.sh makes one of this code"
    [ "$(value_of sources "$manifest")" = "$(sh tools/wrapper/sum.sh sources)" ] ||
        echo "release: proofs changed since it was made; its code and contracts are the same"
    [ "$(value_of machine "$manifest")" = "$(uname -sm)" ] || warn "it is for another machine, so it is not compared"
    [ -x "$built" ] || fail "no program was built here, so the release cannot be held to it"
    toolchain=$(value_of toolchain "$built.record")
    [ "$(value_of toolchain "$manifest")" = "$toolchain" ] ||
        warn "it was built by $(value_of toolchain "$manifest"), and the program here by ${toolchain:-no toolchain that is recorded}," \
            "so it is not compared"
    [ "$(value_of built "$manifest")" = "$(digest_of "$built")" ] ||
        fail "the program that was built here is not the one that the release was made of"
    [ "$(value_of strip "$manifest")" = "$(strip_line)" ] ||
        warn "it was made of this very program, but by another strip, so its bytes are not compared"
    strip -o "$built.stripped" "$built" || fail "strip failed"
    cmp "$release" "$built.stripped" || fail "release/pse52 is not the stripped program that was built here"
    rm -f "$built.stripped"
    echo "release: version $(value_of version "$manifest"), its bytes are those of the program that was built here"
}

case ${1-} in
    '') make ;;
    --check) check ;;
    *) sed -n '2,11s/^# \{0,1\}//p' "$0"; exit 1 ;;
esac
