#!/bin/sh
# tests/release.sh [--built] [--install]
#
# Makes the release (tools/release.sh) twice, which has to give the same bytes, and tries it as its users would, unpacked in a folder of its own: the sums, a C program, the Rust crate's own tests.
# The last line is 'N passed, M failed'; the status is 0 if none failed. Needs what tools/release.sh needs, and a C compiler; without cargo the crate is not tried, and that is said.
set -eu
root=$(cd "$(dirname "$0")/.." && pwd -P)
. "$root/tests/need.sh"
options "$@"
shift "$taken"
[ $# -eq 0 ] || missing "usage: tests/release.sh [--built] [--install]"
target=$this
find_compiler
work=$(mktemp -d)
trap 'rm -rf "$work"' EXIT
passed=0 failed=0
# holds LABEL COMMAND..
holds() {
    label=$1
    shift
    if "$@" >"$work/log" 2>&1; then passed=$((passed + 1)); else
        failed=$((failed + 1))
        echo "FAILED $label"
        tail -n 20 "$work/log"
    fi
}
words=
[ "$install" = no ] || words=--install
[ "$built" = no ] || words="$words --built"
name=kastepuhm-$(cat "$root/VERSION")
# shellcheck disable=SC2086
"$root/tools/release.sh" $words
cp "$root/target/release/$name.tar.xz" "$work/first.tar.xz"
"$root/tools/release.sh" --built >/dev/null 2>&1
holds 'the same bytes when made twice' cmp "$work/first.tar.xz" "$root/target/release/$name.tar.xz"
tar -C "$work" -xf "$work/first.tar.xz"
cd "$work/$name"
holds 'SHA256SUMS' sha256sum -c SHA256SUMS
holds 'a C program' "$compiler" -std=c11 -O2 -Wall -Wextra -Wpedantic -Werror -Iinclude "$root/tests/callers/caller.c" "lib/$target/libyard.a" -o "$work/caller"
a=$root/crates/summary/data
holds 'yard A' sh -c '"$1" "$2/network.rndf" "$2/mission.mdf" | cmp - "$3"' - "$work/caller" "$a" "$root/tests/callers/expected/yard_a"
if command -v cargo >/dev/null; then
    holds "the crate's own tests" sh -c 'cd rust && env -u KASTEPUHM_LIB_DIR CARGO_TARGET_DIR="$1" cargo test --offline' - "$work/cargo"
else
    echo "skipped: there is no cargo"
fi
echo "$passed passed, $failed failed"
[ "$failed" -eq 0 ]
