#!/bin/sh
# bench/packed.sh [--target x86-64 | aarch64] [--built] [--install] [SIZE..]
#
# Times packing (kastepuhm_write_packed, which reads the text first) and unpacking (kastepuhm_read_packed) beside the reading of the same text (kastepuhm_read_rndf), on RNDFs of five shapes
# (bench/texts.c) and each SIZE in bytes: 65536, 1048576 and 16777215 if none is given. Prints the form's length and its part of the text's, nanoseconds to a byte of the text and the ratios of times;
# at the end the largest ratios, and how much longer a byte takes in a longer text. What is unpacked has to be what was read, but for the names' places; else it fails.
# A packing is lent as many bytes as its text has, which are zero behind the form, and a second time ("enough") just as many as the form has.
# BENCH_SECONDS (0.5) is the time for each text and way. Machine, library and what it needs: as bench/run.sh.
set -eu
root=$(cd "$(dirname "$0")/.." && pwd -P)
here=$root/bench
work=$(mktemp -d)
trap 'rm -rf "$work"' EXIT
. "$root/tests/need.sh"
options "$@"
shift "$taken"
find_compiler
find_library
[ $# -gt 0 ] || set -- 65536 1048576 16777215
"$compiler" -std=c11 -O2 -Wall -Wextra -static -I"$root/include" "$here/packed.c" "$here/texts.c" "$library" -o "$work/packed"
told_by_emulator
${emulator:+"$emulator"} "$work/packed" "${BENCH_SECONDS:-0.5}" "$@"
