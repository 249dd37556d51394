#!/bin/sh
# Records of which code the program of crates/pse52/out was proved, for bin/pse52: record.sh SUM, where SUM is what `sum.sh sources` said
# before the proof began. Where the sources changed since then, nothing is recorded.
set -u
top=$(cd "$(dirname "$0")/../.." && pwd) || exit 1
program=$top/crates/pse52/out/pse52
rm -f "$program.record"
[ -x "$program" ] || exit 1
if [ "$(sh "$top/tools/wrapper/sum.sh" sources)" != "$1" ]; then
    echo "pse52: the sources changed while they were proved, so the program counts for none" >&2
    exit 1
fi
digest=$(sha256sum "$program" 2>/dev/null || shasum -a 256 "$program") || exit 1
cat >"$program.record" <<END
code $(sh "$top/tools/wrapper/sum.sh" code)
sources $1
program ${digest%% *}
toolchain $(rt version 2>/dev/null)
END
