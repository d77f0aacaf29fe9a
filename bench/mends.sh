#!/bin/sh
# bench/mends.sh [--target x86-64 | aarch64] [--built] [--install] [SIZE..]
#
# Times mending (kastepuhm_mend) beside the reading of the same text (kastepuhm_read_rndf), on RNDFs of five shapes (bench/texts.c) and each SIZE in bytes, 65536, 1048576 and 16777215 if none is given: as they are,
# and with every count wrong. Then on hostile texts: count lines alone, counts and lanes with no end, one option again and again, everything behind end_file. Prints nanoseconds to a byte, the ratios of times, the lines
# listed; at the end the largest ratio.
# BENCH_SECONDS (0.5) is the time for each text and way. Machine, library and what it needs: as bench/run.sh.
set -eu
root=$(cd "$(dirname "$0")/.." && pwd -P)
here=$root/bench
work=$(mktemp -d)
trap 'rm -rf "$work"' EXIT
. "$root/tests/need.sh"
options "$@"
shift "$taken"
find_compiler
find_library
[ $# -gt 0 ] || set -- 65536 1048576 16777215
"$compiler" -std=c11 -O2 -Wall -Wextra -static -I"$root/include" "$here/mends.c" "$here/texts.c" "$library" -o "$work/mends"
told_by_emulator
${emulator:+"$emulator"} "$work/mends" "${BENCH_SECONDS:-0.5}" "$@"
