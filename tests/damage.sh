#!/bin/sh
# tests/damage.sh [--target x86-64 | aarch64] [--built] [--install] [COUNT | long] [SEED] [SORT]
#
# Compares the library for C with the independent reader in tests/oracle on pairs of texts, well-formed and damaged: 4,000 of them, or COUNT, or 200,000 (`long`). The pairs come from
# SEED (1 if not given) and are the same on every machine. Compared are the reply, the names, the row counts and every number of every lent table; the tables are lent full of other
# numbers, and every text and table ends where the memory ends. As many maps (request L2) are compared byte by byte, and as JSON with what the network says; the output ends where the
# memory ends too. Half as many routes (request L5) are judged, good ones and damaged ones, and as many missions (request L13). As many packed forms (request L11) as pairs are unpacked,
# good ones and damaged ones, and a quarter as many RNDFs packed; what was unpacked is packed again by the oracle. Half as many twins (request L14), RNDFs and missions in turn, are two spellings of one network or
# mission, or of near ones: both are written, and their writings are equal exactly where the oracle finds the same yard in the tables; each writing is written again. As many RNDFs as pairs
# are mended (request L9), most of them accepted ones into which one to five of the three troubles were put, so that what comes out is known; what came out is mended again. Every second pair is read in the edition of December 6, 2006 (request L10) as well,
# half of the maps, routes, missions, packings and mendings and many twins are in it. Printed: how often each refusal number came, how often each kind of damage
# (tests/damage/pairs.py), which columns (request L7) and in what lines (led by tabs or spaces, with a comment, with several fields at fault), what the maps showed, how many damaged forms were good by chance, how many twins were the same by how the second came about, and each case
# that differs, which is kept in target/damage. The last line is 'seed S: N pairs, M RNDFs alone, R routes, Q missions and L maps (W written), P packings (Q packed) and U unpackings (V unpacked), X writings (Y written), M mendings (N mended), O of them in the older edition, K differ';
# the status is 0 if none differs and every number from 1 to 19, from 21 to 25, 30 and 31 came, 11 with file 0 too, of unpackings 1, 11, 27, 28 and 29, of mendings 1, 11, 19 and 26, those of a line also in a line that is led by tabs or spaces, and those that the older
# edition alone gives.
# With a SORT, `pairs`, `maps`, `routes`, `missions`, `packed`, `same` or `mend`, only that one is compared: `tests/damage.sh 50000 1 same` has 25,000 twins (50,000 texts written, and again; some 5 minutes of the oracle's processor time), `tests/damage.sh 200000 1 routes` judges 100,000 routes (7 minutes of processor time), `tests/damage.sh 200000 1 packed`
# unpacks 200,000 forms and packs 50,000 RNDFs (some 25 minutes, and a gigabyte where one form has 16,777,215 bytes). Two more are run only where they are named: `tests/damage.sh 265716 1 ends` has every line end of up to
# five signs of comments, separators and line ends, each at four places of an RNDF; `tests/damage.sh 200196 1 packed-bytes` has every prefix and every change of one byte of yard A's form and of a yard's with zones, each with
# tables for it and with fewer. `tests/damage.sh 50000 1 expected` asks what may stand where a text was refused (kastepuhm_expected; tests/damage/expected.py), of that many pairs, of every line of the hand-written yards and missions
# changed in every way, and of texts at the ends of ranges, and has the words judged by the oracle's reader: what they list is taken there, what they don't list is refused (some 25 minutes of processor time).
#
# The library is that of the target (this machine, if none is named), made by tools/library.sh unless --built is given; on another machine an emulator runs it. Needs python3 and a C compiler for the
# target (tests/need.sh has the packages); what is missing is said, and --install installs it.
# It runs on all cores that it may use. Processor time on Arm, without the emulator: 4,000 pairs with their maps and routes a minute, 36,000, which write over 20,000 maps, 4, 200,000 some 20. `python3 tests/damage/compare.py --mutants COUNT SEED` tells whether these
# pairs notice each of the small mistakes of tests/oracle/mutate.py in a copy of the oracle (4,000 notice all but two or three, 20,000 all); `python3 tests/damage/compare.py --oracle COUNT SEED [SORT]` runs the same with the oracle in place of the library; `python3 tests/damage/compare.py --judgements COUNT SEED` holds the
# oracle's judgement of packed forms to a second one, without the library.
set -eu
root=$(cd "$(dirname "$0")/.." && pwd -P)
. "$root/tests/need.sh"
options "$@"
shift "$taken"
count=${1:-4000}
[ "$count" != long ] || count=200000
case $count${2:-} in *[!0-9]*) missing "usage: tests/damage.sh [--target x86-64 | aarch64] [--built] [--install] [COUNT | long] [SEED] [SORT]" ;; esac
work=$(mktemp -d)
trap 'rm -rf "$work"' EXIT

need python3 python3
find_compiler
find_library
# a library from before kastepuhm_expected is still compared in all else
expected=
if grep -q 'kastepuhm_expected(' "$root/include/kastepuhm.h"; then expected=-DHAS_EXPECTED; fi
[ "${3:-}" != expected ] || [ -n "$expected" ] || missing "the library has no kastepuhm_expected"
"$compiler" $expected -std=c11 -O2 -Wall -Wextra -Wpedantic -Wconversion -Werror -static -I"$root/include" "$root/tests/damage/reader.c" "$library" -o "$work/reader.$target"
printf '#!/bin/sh\nexec %s "%s"\n' "${emulator:+\"$emulator\"}" "$work/reader.$target" >"$work/reader"
chmod +x "$work/reader"
if [ "${3:-}" = expected ]; then
    python3 "$root/tests/damage/expected.py" "$work/reader" "$count" "${2:-1}"
else
    python3 "$root/tests/damage/compare.py" "$work/reader" "$count" "${2:-1}" ${3:+"$3"}
fi
