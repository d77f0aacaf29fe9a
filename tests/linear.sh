#!/bin/sh
# Is a text read in time linear in its length? Builds the reader as a static library from a copy of the repository, with one function for C to call
# (linear.rt.txt), and times it on texts up to nearly 16,777,215 bytes (linear.c). `rt` begins with what other copies of the repository on this machine kept. The kit compiles it for x86-64. Needs a C compiler for x86-64: what is missing is said, and
# --install installs it.
set -eu
root=$(cd "$(dirname "$0")/.." && pwd -P)
. "$root/tests/need.sh"
options "$@"
target=x86-64
find_compiler
work=$(mktemp -d)
trap 'rm -rf "$work"' EXIT
(cd "$root" && tar -c --exclude='crates/*/out' crates crates.txt) | tar -x -C "$work"
mkdir -p "$work/crates/timing/src"
cp "$root/tests/linear.rt.txt" "$work/crates/timing/src/lib.rt"
# what linear.rt.txt names, and the crates whose types it reaches
echo "timing staticlib: reader replies edition refusal counts rows" >> "$work/crates.txt"
(cd "$work/crates/timing" && rt lib --cpu=x86-64) > "$work/log" 2>&1 || { tail "$work/log"; exit 1; }
"$compiler" -std=c11 -O2 -static "$root/tests/linear.c" "$work/crates/timing/out/libtiming.a" -o "$work/linear"
${emulator:+"$emulator"} "$work/linear"
