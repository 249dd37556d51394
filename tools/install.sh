#!/bin/sh
# Installs the program that bin/pse52 runs here, and what stands beside it, or removes that again.
#
#   tools/install.sh [--remove] DESTDIR PREFIX
#
# PREFIX/lib/pse52 gets the program, its manifest, the wrapper and the Python tools; PREFIX/bin links to them.
set -eu
umask 022
unset CDPATH
remove=
if [ "${1-}" = --remove ]; then
    remove=yes
    shift
fi

refuse() {
    echo "$*" >&2
    exit 1
}

{ [ "$#" -eq 2 ] && [ -n "$2" ]; } || refuse 'usage: tools/install.sh [--remove] DESTDIR PREFIX'
case $2 in
    /*) ;;
    *) refuse "PREFIX begins with /, as in PREFIX=\$HOME/.local, and '$2' does not" ;;
esac
top=$(cd "$(dirname "$0")/.." && pwd)
cd "$top"
root=$1$2
lib=$root/lib/pse52
doc=$root/share/doc/pse52
commands=$(cd bin && echo *)
[ ! -e "$lib/crates.txt" ] || refuse "$lib is a checkout, and not what was installed: name another PREFIX"

if [ -n "$remove" ]; then
    for command in $commands; do
        rm -f "$root/bin/$command" "$root/share/bash-completion/completions/$command"
    done
    for page in docs/*.1; do
        rm -f "$root/share/man/man1/${page#docs/}"
    done
    rm -f "$root/share/zsh/site-functions/_pse52" "$root/share/fish/vendor_completions.d/pse52.fish"
    rm -rf "$lib" "$doc"
    exit 0
fi

# The files of a folder, but for tests and what Python keeps, to a folder.
install_folder() {
    (cd "$1" && find . -name tests -prune -o -name __pycache__ -prune -o -type f -print) | while read -r file; do
        mkdir -p "$2/$(dirname "$file")"
        install -m 644 "$1/$file" "$2/$file"
    done
}

program=$(sh bin/pse52 --which)
rm -rf "$lib" "$doc"
mkdir -p "$lib/release" "$lib/tools" "$lib/bin" "$doc" "$root/bin" "$root/share/man/man1" \
    "$root/share/bash-completion/completions" "$root/share/zsh/site-functions" "$root/share/fish/vendor_completions.d"
install -m 755 "$program" "$lib/release/pse52"
case $program in
    */release/pse52) install -m 644 release/MANIFEST "$lib/release/MANIFEST" ;;
    *)
        {
            echo "version $(cat VERSION)"
            echo "date $(date -u +%Y-%m-%d)"
            echo "machine $(uname -sm)"
            cat "$program.record"
        } >"$lib/release/MANIFEST" ;;
esac
install -m 644 VERSION "$lib/VERSION"
for command in $commands; do
    install -m 755 "bin/$command" "$lib/bin/$command"
    ln -sf "../lib/pse52/bin/$command" "$root/bin/$command"
done
for folder in tools/*/; do
    folder=${folder#tools/}
    folder=${folder%/}
    case $folder in bench | machine_rows | memory | turned | pages) continue ;; esac
    install_folder "tools/$folder" "$lib/tools/$folder"
done
install -m 644 docs/*.1 "$root/share/man/man1/"
install -m 644 README.md LICENSE LICENSE-MIT LICENSE-APACHE NOTICE CHANGELOG.md "$doc/"
install -m 644 crates/parts_links/LICENSE-circular-buffer "$doc/"
# The pages and the course stand to one another as in the repository, so that what they name is there.
mkdir -p "$doc/docs/growth" "$doc/examples/real" "$doc/examples/sweeps" "$lib/examples"
install_folder editors "$doc/editors"
install -m 644 docs/*.md docs/*.svg "$doc/docs/"
install -m 644 docs/growth/* "$doc/docs/growth/"
install -m 644 examples/*.task "$lib/examples/"
install -m 644 examples/*.md examples/*.task examples/*.trace examples/*.svg examples/*.rta "$doc/examples/"
install -m 644 examples/real/*.task "$doc/examples/real/"
install -m 644 examples/sweeps/*.toml examples/sweeps/*.in examples/sweeps/*.svg "$doc/examples/sweeps/"
for command in $commands; do
    install -m 644 completions/pse52.bash "$root/share/bash-completion/completions/$command"
done
install -m 644 completions/_pse52 "$root/share/zsh/site-functions/_pse52"
install -m 644 completions/pse52.fish "$root/share/fish/vendor_completions.d/pse52.fish"
echo "installed pse52 $(cat VERSION) in $root; its pages are in $doc"
case :$PATH: in
    *":$root/bin:"*) ;;
    *) [ -n "$1" ] || echo "the path does not have $root/bin yet: export PATH=\"$root/bin:\$PATH\"" ;;
esac
