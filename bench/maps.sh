#!/bin/sh
# bench/maps.sh [--target x86-64 | aarch64] [--built] [--install] [SIZE..]
#
# Times the writing of a map (kastepuhm_write_map, which reads the text first) beside the reading of the same text (kastepuhm_read_rndf), on RNDFs of five shapes (bench/texts.c) and each
# SIZE in bytes: 1048576 and 16777215 if none is given. Prints nanoseconds to a byte of the text, the ratio of times and the length of the map. The output has 16,777,215 bytes, the most
# that a map may have, and is zero behind what was written: for a short text that is the larger part of the work, so it is timed a second time with an output just long enough.
# BENCH_SECONDS (0.5) is the time for each text and way. Machine, library and what it needs: as bench/run.sh.
set -eu
root=$(cd "$(dirname "$0")/.." && pwd -P)
here=$root/bench
work=$(mktemp -d)
trap 'rm -rf "$work"' EXIT
. "$root/tests/need.sh"
options "$@"
shift "$taken"
find_compiler
find_library
[ $# -gt 0 ] || set -- 1048576 16777215
"$compiler" -std=c11 -O2 -Wall -Wextra -static -I"$root/include" "$here/maps.c" "$here/texts.c" "$library" -o "$work/maps"
told_by_emulator
${emulator:+"$emulator"} "$work/maps" "${BENCH_SECONDS:-0.5}" "$@"
