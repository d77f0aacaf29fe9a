#!/bin/sh
# bench/run.sh [--target x86-64 | aarch64] [--built] [--install] [SIZE..]
#
# Times our reader (target/lib/TARGET/libyard.a; tools/library.sh makes it, unless --built is given) beside the C reader in bench/creader, with its shortcuts and without them
# ("C plain"), and beside what an ordinary program would be ("ordinary": C++ with getline, string streams, vectors and maps), in one run, on texts of five shapes (bench/texts.c) and each SIZE in bytes: 65536, 1048576 and 16777215 if none is given. Prints nanoseconds to a byte, the ratio of
# times (ours by theirs; best of several runs), the stack that each wrote, and whether a byte takes longer in a long text than in a short one. All replies and tables have to be the
# same; else it fails. BENCH_SECONDS (0.5) is the time for each text and reader; all sizes take a minute and a half, with as much memory as 600 MB.
#
# All readers are built for any x86-64 processor, or any 64-bit Arm; --target names the other machine, and an emulator runs it, whose times say nothing.
# Needs a C and a C++ compiler (Debian: gcc and g++; tests/need.sh has the packages for the other machine). What is missing is said; --install installs it.
set -eu
root=$(cd "$(dirname "$0")/.." && pwd -P)
here=$root/bench
work=$(mktemp -d)
trap 'rm -rf "$work"' EXIT
. "$root/tests/need.sh"
options "$@"
shift "$taken"
find_compiler
find_cxx
find_library
[ $# -gt 0 ] || set -- 65536 1048576 16777215

compile() { "$compiler" -std=c11 -O2 -Wall -Wextra -I"$root/include" "$@"; }
compile -c "$here/creader/creader.c" -o "$work/creader.o"
compile -DCR_NO_SHORTCUTS -Dread_rndf=plain_read_rndf -Dread_pair=plain_read_pair -c "$here/creader/creader.c" -o "$work/plain.o"
"$cxx" -std=c++17 -O2 -c "$here/creader/typical.cpp" -o "$work/typical.o"
compile -c "$here/bench.c" -o "$work/bench.o"
compile -c "$here/texts.c" -o "$work/texts.o"
"$cxx" -static "$work/bench.o" "$work/texts.o" "$work/creader.o" "$work/plain.o" "$work/typical.o" "$library" -o "$work/bench"
told_by_emulator
${emulator:+"$emulator"} "$work/bench" "${BENCH_SECONDS:-0.5}" "$@"
