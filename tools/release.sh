#!/bin/sh
# tools/release.sh [--built] [--install]
#
# Makes target/release/kastepuhm-VERSION, and a .tar.xz of it: all that a user of the reader needs who has neither the kit nor this repository.
#   yard.html                   the planners' page (tools/page.sh)
#   include/kastepuhm.h         the header for C and C++
#   lib/x86-64, lib/aarch64     libyard.a
#   lib/wasm32                  yard.wasm, which the page has in it
#   rust                        the crate; its build script finds lib/
#   README.md, docs, VERSION
#   KIT                         the kit that proved and built the libraries, by `rt version`; SOURCE is the commit
#   SHA256SUMS                  of all of these
# Proves the library first, where anything changed since it was proved, unless --built is given. The same sources give the same bytes: times are the commit's (SOURCE_DATE_EPOCH, where that is set), owners
# and modes are fixed. Needs the kit, git, xz and what tools/page.sh needs; --install is handed on to that.
set -eu
root=$(cd "$(dirname "$0")/.." && pwd -P)
. "$root/tests/need.sh"
options "$@"
shift "$taken"
[ $# -eq 0 ] || missing "usage: tools/release.sh [--built] [--install]"
[ -x "$root/tools/page.sh" ] || missing "tools/page.sh, which makes the page, is not there: no release without it"
need git git xz xz-utils
command -v rt >/dev/null 2>&1 || missing "the kit's rt is not in PATH"
LC_ALL=C
export LC_ALL
umask 022
version=$(cat "$root/VERSION")
python3 "$root/tests/header.py" >&2 || missing "VERSION, the header and the crate do not agree (tests/header.py)"

if [ "$built" = yes ]; then "$root/tools/library.sh" --built >&2; else "$root/tools/library.sh" >&2; fi
if [ "$install" = yes ]; then "$root/tools/page.sh" --install >&2; else "$root/tools/page.sh" >&2; fi
page=$root/target/page/yard.html
[ -s "$page" ] || missing "tools/page.sh wrote no $page"

name=kastepuhm-$version
to=$root/target/release/$name
rm -rf "$to"
mkdir -p "$to/include" "$to/lib"
cp "$page" "$to/yard.html"
cp "$root/include/kastepuhm.h" "$to/include/"
for target in x86-64 aarch64 wasm32; do
    mkdir "$to/lib/$target"
    case $target in wasm32) cp "$root/target/lib/$target/yard.wasm" "$to/lib/$target/" ;; *) cp "$root/target/lib/$target/libyard.a" "$to/lib/$target/" ;; esac
done
cp "$root/VERSION" "$to/"
# of the crate and the docs what is committed, and not what lies beside it
(cd "$root" && git ls-files README.md docs bindings/rust) | while read -r file; do
    case $file in bindings/rust/.gitignore) continue ;; bindings/rust/*) place=rust/${file#bindings/rust/} ;; *) place=$file ;; esac
    mkdir -p "$to/$(dirname "$place")"
    cp "$root/$file" "$to/$place"
done
rt version >"$to/KIT"
source=$(cd "$root" && git rev-parse HEAD)
[ -z "$(cd "$root" && git status --porcelain --untracked-files=no)" ] || source="$source, changed since"
echo "$source" >"$to/SOURCE"
find "$to" -type d -exec chmod 755 {} + -o -type f -exec chmod 644 {} +
(cd "$to" && find . -type f ! -name SHA256SUMS | sed 's,^\./,,' | sort | xargs sha256sum >SHA256SUMS)

when=${SOURCE_DATE_EPOCH:-$(cd "$root" && git log -1 --format=%ct)}
rm -f "$to.tar.xz"
tar -C "$root/target/release" --format=ustar --sort=name --mtime="@$when" --owner=0 --group=0 --numeric-owner -cf - "$name" | xz -9e -T1 >"$to.tar.xz"
echo "target/release/$name: $(wc -l <"$to/SHA256SUMS") files and SHA256SUMS; $(cat "$to/KIT"); $source"
(cd "$root/target/release" && sha256sum "$name.tar.xz")
