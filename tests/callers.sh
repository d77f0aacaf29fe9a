#!/bin/sh
# tests/callers.sh [--target x86-64 | aarch64] [--built] [--install]
#
# Compiles the three worked callers in tests/callers, in C, C++ and Rust (over the crate in bindings/rust), against the library for the target (this machine, if none is named), and compares what they
# print. The library is made by tools/library.sh, where anything changed, unless --built is given.
#
# Compared: yard A as a pair and alone, yard A written untidily and with spaces for tabs (its house writing is the same), yard B (every table; its answer was worked out by hand), two damaged texts and a
# missing file; these in the edition of December 6, 2006 too, with a boundary and a zone that it has not (request L10); routes over yard A (request L5), and whether its mission can be driven at all (request L13);
# yards A and B packed and unpacked, with too few rows and with damaged bytes (request L11); yard A with each kind of trouble, mended (request L9); refusals in words, also into too few bytes, those of
# tests/check_cases.py; what may stand where texts were refused, also into just enough bytes and into one too few; whether texts begin as an MDF does; then document 01's cases and the edges of the summary program's rules (tests/summary_cases.py), and every reply and every lent number of the
# oracle's corpus and of 2,000 random pairs (tests/callers/corpus.c). The caller in C++ prints no more than the first line of what the others print, but for refusals in words and what may stand there.
# On the machine itself the crate's own tests are run too (cargo test).
# The last line is 'N passed, M failed, K skipped'; the status is 0 if none failed.
#
# Needs a C compiler (Debian: gcc), for the others a C++ compiler (g++), rustc with its standard library for the target, cargo; for the cases and the corpus python3. What is not there is skipped, and that is
# said; but without a C compiler nothing can be compared, and the script fails. For the other machine it takes Debian's cross compilers and an emulator (tests/need.sh); --install installs what is missing.
set -eu
root=$(cd "$(dirname "$0")/.." && pwd -P)
here=$root/tests/callers
. "$root/tests/need.sh"
options "$@"
shift "$taken"
[ $# -eq 0 ] || missing "usage: tests/callers.sh [--target x86-64 | aarch64] [--built] [--install]"
find_compiler
find_library
work=$(mktemp -d)
trap 'rm -rf "$work"' EXIT

passed=0 failed=0 skipped=0
pass() { passed=$((passed + 1)); }
fail() { failed=$((failed + 1)); echo "FAILED $1"; }
skip() { skipped=$((skipped + 1)); echo "skipped: $1"; }

# The callers are linked statically, so that they run under an emulator without another system's libraries.
compile() { "$compiler" -std=c11 -O2 -Wall -Wextra -Wpedantic -Wconversion -Werror -static -I"$root/include" "$here/$1.c" "$library" -o "$work/$2"; }
compile caller caller_c
compile corpus corpus
compile lists lists
callers=caller_c
[ "$install" = no ] || find_cxx
if [ -n "$cxx" ]; then
    "$cxx" -std=c++17 -O2 -Wall -Wextra -Wpedantic -Werror -static -I"$root/include" "$here/caller.cpp" "$library" -o "$work/caller_cpp"
    callers="$callers caller_cpp"
else
    skip "caller.cpp: there is no C++ compiler for $target (Debian: $cxx_package; --install)"
fi
case $target in x86-64) triple=x86_64-unknown-linux-gnu ;; aarch64) triple=aarch64-unknown-linux-gnu ;; esac
if ! command -v rustc >/dev/null; then
    skip "caller.rs: there is no rustc"
elif ! ls "$(rustc --print sysroot)/lib/rustlib/$triple/lib/"libstd-* >/dev/null 2>&1; then
    skip "caller.rs: rustc has no standard library for $triple (rustup target add $triple)"
else
    rustc_for() { rustc --edition 2021 -O -D warnings --target "$triple" "$@"; }
    rustc_for --crate-type rlib --crate-name kastepuhm -L native="$(dirname "$library")" -l static=yard "$root/bindings/rust/src/lib.rs" -o "$work/libkastepuhm.rlib"
    rustc_for -C target-feature=+crt-static -C linker="$compiler" --extern kastepuhm="$work/libkastepuhm.rlib" "$here/caller.rs" -o "$work/caller_rs"
    callers="$callers caller_rs"
fi
if [ "$target" != "$this" ]; then
    skip "cargo test: its programs are for this machine, $this"
elif ! command -v cargo >/dev/null; then
    skip "cargo test: there is no cargo"
elif (cd "$root/bindings/rust" && CARGO_TARGET_DIR=$root/target/cargo KASTEPUHM_LIB_DIR=$(dirname "$library") cargo test --offline) >"$work/cargo" 2>&1; then
    pass
    echo "cargo test: $(sed -n 's/^test result: ok. \([1-9].* passed\);.*/\1/p' "$work/cargo" | tail -n 1)"
else
    fail "cargo test in bindings/rust"
    tail -n 30 "$work/cargo"
fi

# compare LABEL EXPECTED WORDS..: what each caller prints, given these words, with the file EXPECTED
compare() {
    label=$1 expected=$2
    shift 2
    for caller in $callers; do
        cp "$expected" "$work/wanted"
        case $caller,$* in caller_cpp,*\ tell* | caller_cpp,*\ expect*) ;; caller_cpp,*) head -n 1 "$expected" >"$work/wanted" ;; esac
        if ${emulator:+"$emulator"} "$work/$caller" "$@" >"$work/printed" && cmp -s "$work/wanted" "$work/printed"; then
            pass
        else
            fail "$caller on $label: expected '<', printed '>'"
            diff "$work/wanted" "$work/printed" || true
        fi
    done
}

tab=$(printf '\t')
a=$root/crates/summary/data
sed "s/^exit${tab}1\.1\.2${tab}1\.1\.1\$/exit${tab}1.1.2${tab}1.1.3/" "$a/network.rndf" >"$work/entry.rndf"
sed 's/^7$/8/' "$a/mission.mdf" >"$work/goal.mdf"
# what the house writing takes away: another order of options, comments, blank lines, leading and doubled tabs, CR, an unfinished last line
untidy() { printf '\n\t/* untidy */\n' && sed "s/${tab}/${tab}${tab}/g; s/^/${tab}/; s/\$/${tab}\/* untidy *\/$(printf '\r')/" "$1" | head -c -1; }
sed -n -e '/^checkpoint/{h;d}' -e 'p' -e '/^exit/{x;p}' "$a/network.rndf" >"$work/order.rndf"
untidy "$work/order.rndf" >"$work/untidy.rndf"
untidy "$a/mission.mdf" >"$work/untidy.mdf"
# L3: an editor that turns tabs into spaces
spaced() { awk '{ line = ""; while ((at = index($0, "\t")) > 0) { line = line substr($0, 1, at - 1) substr("        ", 1, 1 + n++ % 8); $0 = substr($0, at + 1) } print line $0 }' "$1"; }
spaced "$a/network.rndf" >"$work/spaced.rndf"
spaced "$a/mission.mdf" >"$work/spaced.mdf"
echo 'refused 1 9 12 12' >"$work/entry"
echo 'refused 2 5 15 1' >"$work/goal"
echo 'no file' >"$work/missing"

compare 'yard A' "$here/expected/yard_a" "$a/network.rndf" "$a/mission.mdf"
compare 'the RNDF of yard A alone' "$here/expected/yard_a_alone" "$a/network.rndf"
compare 'yard A, untidy' "$here/expected/yard_a" "$work/untidy.rndf" "$work/untidy.mdf"
compare 'yard A, with one to eight spaces for each tab' "$here/expected/yard_a" "$work/spaced.rndf" "$work/spaced.mdf"
compare 'yard B' "$here/expected/yard_b" "$here/yard_b/network.rndf" "$here/yard_b/mission.mdf"
compare 'yard A with an entry 1.1.3' "$work/entry" "$work/entry.rndf" "$a/mission.mdf"
compare 'the damaged RNDF alone' "$work/entry" "$work/entry.rndf"
compare 'yard A with goal 8' "$work/goal" "$a/network.rndf" "$work/goal.mdf"
compare 'no RNDF' "$work/missing" "$work/none.rndf" "$a/mission.mdf"

# L10: the older edition: yard A is the same, solid_yellow is no boundary there, and yard B's second zone has no spots
sed "s/^checkpoint${tab}1.*/&\nright_boundary${tab}solid_yellow/" "$a/network.rndf" >"$work/yellow.rndf"
echo 'refused 1 9 8 16' >"$work/yellow"
echo 'refused 1 62 9 11' >"$work/no_spots"
echo 'ok 1 0 1 2 0 1 0 1 1 1' >"$work/route"
compare 'yard A, 2006' "$here/expected/yard_a" --2006 "$a/network.rndf" "$a/mission.mdf"
compare 'the RNDF of yard A alone, 2006' "$here/expected/yard_a_alone" --2006 "$a/network.rndf"
compare 'solid_yellow, 2006' "$work/yellow" --2006 "$work/yellow.rndf" "$a/mission.mdf"
compare 'solid_yellow alone, 2006' "$work/yellow" --2006 "$work/yellow.rndf"
compare 'a route, and solid_yellow, 2006' "$work/yellow" --2006 "$work/yellow.rndf" "$a/mission.mdf" 0 0 1
compare 'a route, and solid_yellow' "$work/route" "$work/yellow.rndf" "$a/mission.mdf" 0 0 1
compare 'yard B, 2006' "$work/no_spots" --2006 "$here/yard_b/network.rndf" "$here/yard_b/mission.mdf"
compare 'yard A with goal 8, 2006' "$work/goal" --2006 "$a/network.rndf" "$work/goal.mdf"

# L5: routes over yard A: rows 0 and 1 in one lane, an exit from 1 back to 0, the goal at row 1
# route MISSION ANSWER START [POINT ..]
route() {
    echo "$2" >"$work/answer"
    mission=$1
    shift 2
    compare "yard A, start and route $*" "$work/answer" "$a/network.rndf" "$mission" "$@"
}
once='ok 1 0 1 2 0 1 0 1 1 1' twice='ok 1 0 1 2 0 1 0 1 2 1'
route "$a/mission.mdf" "$once" 0 0 1
route "$a/mission.mdf" "$once" 0 0 1 0 1
route "$a/mission.mdf" "$once" 1 1
route "$a/mission.mdf" 'refused 0 0 21 0' 0
route "$a/mission.mdf" 'refused 0 0 21 0' 0 1
route "$a/mission.mdf" 'refused 0 0 21 0' 2 2
route "$a/mission.mdf" 'refused 0 1 22 0' 0 0 0
route "$a/mission.mdf" 'refused 0 1 22 0' 0 0 2
route "$a/mission.mdf" 'refused 0 2 22 0' 0 0 1 4294967295 1
route "$a/mission.mdf" 'refused 0 0 23 0' 0 0
route "$a/mission.mdf" 'refused 0 0 24 0' 0 0 1 0
# with the goal twice: one place meets one goal
awk '/^7$/ { print } { sub(/^num_checkpoints\t1$/, "num_checkpoints\t2"); print }' "$a/mission.mdf" >"$work/twice.mdf"
route "$work/twice.mdf" 'refused 0 1 23 0' 1 1
route "$work/twice.mdf" 'refused 0 1 23 0' 1 1 0
route "$work/twice.mdf" "$twice" 1 1 0 1
# a pair that the reader refuses is refused as it does
route "$work/goal.mdf" 'refused 2 5 15 1' 0 0 1

# L13: whether the mission can be driven at all, over the same yard, and without its exit
# drive NETWORK MISSION ANSWER START ROWS
drive() {
    echo "$3" >"$work/answer"
    compare "$1 $2, driven from $4 with $5 rows" "$work/answer" "$1" "$2" drive "$4" "$5"
}
sed '/^exit/d' "$a/network.rndf" >"$work/one_way.rndf"
drive "$a/network.rndf" "$a/mission.mdf" "$once" 0 2
drive "$a/network.rndf" "$a/mission.mdf" "$once" 0 3
drive "$a/network.rndf" "$a/mission.mdf" "$once" 1 2
drive "$a/network.rndf" "$a/mission.mdf" 'refused 0 0 11 0' 0 1
drive "$a/network.rndf" "$a/mission.mdf" 'refused 0 0 11 0' 2 1
drive "$a/network.rndf" "$a/mission.mdf" 'refused 0 0 11 0' 0 0
drive "$a/network.rndf" "$a/mission.mdf" 'refused 0 0 30 0' 2 2
drive "$a/network.rndf" "$a/mission.mdf" 'refused 0 0 30 0' 4294967295 200
drive "$a/network.rndf" "$work/twice.mdf" "$twice" 1 2
drive "$work/one_way.rndf" "$a/mission.mdf" "ok 1 0 1 2 0 1 0 0 1 1" 0 2
drive "$work/one_way.rndf" "$work/twice.mdf" 'refused 0 1 31 0' 0 2
drive "$a/network.rndf" "$work/goal.mdf" 'refused 2 5 15 1' 0 1
drive "$work/entry.rndf" "$a/mission.mdf" 'refused 1 9 12 12' 2 1
compare 'driven, and solid_yellow, 2006' "$work/yellow" --2006 "$work/yellow.rndf" "$a/mission.mdf" drive 0 2
compare 'driven, and solid_yellow' "$work/route" "$work/yellow.rndf" "$a/mission.mdf" drive 0 2

# L11: yard A packed (docs/PACKED.md has these 109 bytes) and unpacked: what a caller prints of the text's tables, names from the packed bytes
# octets: the bytes of hexadecimal words
octets() { for octet in $(cat); do printf "\\$(printf %o "0x$octet")"; done; }
# unpacked LABEL ANSWER FORM [ROWS ..]
unpacked() {
    echo "$2" >"$work/answer"
    what=$1 form=$3
    shift 3
    compare "$what" "$work/answer" "$form" unpack "$@"
}
# tables: of what is printed of a reader's answer, what is left without the MDF, the writings and the map
tables() { sed -e '1s/[0-9]* [0-9]*$/0 0/' -e '/^mission/d' -e '/^goal/d' -e '/^limit/d' -e '/^house writing/d' -e '/^map of/d' "$1"; }
compare 'yard A, packed' "$here/expected/yard_a_packed" "$a/network.rndf" pack
compare 'yard A, untidy, packed' "$here/expected/yard_a_packed" "$work/untidy.rndf" pack
compare 'yard A, packed, 2006' "$here/expected/yard_a_packed" --2006 "$a/network.rndf" pack
compare 'yard A with an entry 1.1.3, packed' "$work/entry" "$work/entry.rndf" pack
compare 'solid_yellow, packed, 2006' "$work/yellow" --2006 "$work/yellow.rndf" pack
octets <"$here/expected/yard_a_packed" >"$work/a.packed"
tables "$here/expected/yard_a_alone" >"$work/a.tables"
compare 'yard A, unpacked' "$work/a.tables" "$work/a.packed" unpack
compare 'yard A, unpacked into just enough rows' "$work/a.tables" "$work/a.packed" unpack 1 1 0 0 2 1 0 1
for rows in '0 1 0 0 2 1 0 1' '1 0 0 0 2 1 0 1' '1 1 0 0 1 1 0 1' '1 1 0 0 2 0 0 1' '1 1 0 0 2 1 0 0'; do
    # shellcheck disable=SC2086
    unpacked "yard A, unpacked into $rows rows" 'refused 1 0 11 0' "$work/a.packed" $rows
done
# L12: but for the date
tables "$here/expected/yard_b" | sed 's/^\(network .*\) date .*/\1 date -/' >"$work/b.tables"
for packer in $callers; do
    ${emulator:+"$emulator"} "$work/$packer" "$here/yard_b/network.rndf" pack | octets >"$work/$packer.packed"
    compare "yard B, packed by $packer and unpacked" "$work/b.tables" "$work/$packer.packed" unpack
    compare "yard B, packed by $packer and unpacked into just enough rows" "$work/b.tables" "$work/$packer.packed" unpack 2 3 2 2 14 4 2 5
    for rows in '1 3 2 2 14 4 2 5' '2 2 2 2 14 4 2 5' '2 3 1 2 14 4 2 5' '2 3 2 1 14 4 2 5' '2 3 2 2 13 4 2 5' '2 3 2 2 14 3 2 5' '2 3 2 2 14 4 1 5' '2 3 2 2 14 4 2 4'; do
        # shellcheck disable=SC2086
        unpacked "yard B, packed by $packer, unpacked into $rows rows" 'refused 1 0 11 0' "$work/$packer.packed" $rows
    done
done
# damaged: no bytes, another version, one byte too few and too many, the entry 2 of 2 points; the last is found before that there is no row
: >"$work/empty.packed"
sed 's/^02/01/' "$here/expected/yard_a_packed" | octets >"$work/version.packed"
head -c 108 "$work/a.packed" >"$work/short.packed"
{ cat "$work/a.packed"; printf '\000'; } >"$work/long.packed"
sed 's/00$/02/' "$here/expected/yard_a_packed" | octets >"$work/entry.packed"
unpacked 'no bytes, unpacked' 'refused 0 0 27 0' "$work/empty.packed"
unpacked 'yard A, version 1, unpacked' 'refused 0 0 27 0' "$work/version.packed"
unpacked 'yard A, its text, unpacked' 'refused 0 0 27 0' "$a/network.rndf"
unpacked 'yard A, a byte too few, unpacked' 'refused 0 0 28 0' "$work/short.packed"
unpacked 'yard A, a byte too many, unpacked' 'refused 0 0 28 0' "$work/long.packed"
unpacked 'yard A, entry 2, unpacked' 'refused 0 0 29 0' "$work/entry.packed"
unpacked 'yard A, entry 2, unpacked into no rows' 'refused 0 0 29 0' "$work/entry.packed" 0 0 0 0 0 0 0 0

# L9: yard A mended: its counts, an option given again, a line behind end_file; nothing; a row and a byte too few; past mending, which comes before a byte too few
# mended LABEL ROWS TEXT NETWORK [WORDS ..]: ROWS are the lines of the list, TEXT what comes out
mended() {
    { printf 'mended %d %d\n' "$(printf %s "$2" | grep -c . || true)" "$(wc -c <"$3")"; [ -z "$2" ] || echo "$2"; cat "$3"; } >"$work/answer"
    what=$1 network=$4
    shift 4
    compare "$what" "$work/answer" "$network" mend "$@"
}
# unmended LABEL ANSWER NETWORK [WORDS ..]
unmended() {
    echo "$2" >"$work/answer"
    what=$1 network=$3
    shift 3
    compare "$what" "$work/answer" "$network" mend "$@"
}
sed "s/^num_waypoints${tab}2\$/num_waypoints${tab}3/" "$a/network.rndf" >"$work/count.rndf"
sed "s/^num_waypoints.*/&\nlane_width${tab}12/" "$a/network.rndf" >"$work/wide.rndf"
sed "s/^lane_width.*/&\nlane_width${tab}13/" "$work/wide.rndf" >"$work/again.rndf"
{ cat "$a/network.rndf"; echo 'left over'; } >"$work/behind.rndf"
{ sed "s/^num_waypoints${tab}2\$/num_waypoints${tab}9/" "$work/again.rndf"; echo 'left over'; } >"$work/three.rndf"
mended 'yard A, mended' '' "$a/network.rndf" "$a/network.rndf"
mended 'yard A with num_waypoints 3, mended' 'line 7 1' "$a/network.rndf" "$work/count.rndf"
mended 'yard A with an option given again, mended' 'line 9 2' "$work/wide.rndf" "$work/again.rndf"
mended 'yard A with a line behind end_file, mended' 'line 15 3' "$a/network.rndf" "$work/behind.rndf"
mended 'yard A with all three, mended' 'line 7 1
line 9 2
line 17 3' "$work/wide.rndf" "$work/three.rndf"
mended 'yard A, mended with just enough rows and bytes' '' "$a/network.rndf" "$a/network.rndf" 14 "$(wc -c <"$a/network.rndf")"
unmended 'yard A, mended with 13 rows' 'refused 1 0 11 0' "$a/network.rndf" 13
unmended 'yard A, mended with a byte too few' 'refused 1 0 19 0' "$a/network.rndf" 14 "$(($(wc -c <"$a/network.rndf") - 1))"
unmended 'yard A with num_waypoints 3, mended with a byte too few' 'refused 1 0 19 0' "$work/count.rndf" 14 "$(($(wc -c <"$a/network.rndf") - 1))"
unmended 'yard A with an entry 1.1.3, mended' 'refused 0 0 26 0' "$work/entry.rndf"
unmended 'yard A with an entry 1.1.3, mended with no bytes' 'refused 0 0 26 0' "$work/entry.rndf" 14 0
unmended 'yard A with an entry 1.1.3, mended with no rows' 'refused 1 0 11 0' "$work/entry.rndf" 0 0
mended 'solid_yellow, mended' '' "$work/yellow.rndf" "$work/yellow.rndf"
echo 'refused 0 0 26 0' >"$work/answer"
compare 'solid_yellow, mended, 2006' "$work/answer" --2006 "$work/yellow.rndf" mend

# what planners are told of a refusal: whole, into a byte too few and into none; the longest, of a line of bytes that take four signs each; in the MDF; nothing to tell. Names are as they are given.
cd "$work"
cp "$root/crates/yard_check/data/network.rndf" told.rndf
sed 's/^network\.rndf:/told.rndf:/' "$root/crates/yard_check/stdout" >told
# the sentence alone, without what may stand there
head -n 3 told >sentence
bytes=$(wc -c <sentence)
compare 'yard A with an entry 1.1.3, told' told told.rndf tell
compare 'the same with its mission' told told.rndf "$a/mission.mdf" tell
for cut in 0 1 "$((bytes - 1))" "$bytes" "$((bytes + 1))"; do
    if [ "$cut" -lt "$bytes" ]; then echo 0; else echo "$bytes" && cat sentence; fi >answer
    compare "told into $cut bytes" answer told.rndf tell "$cut"
done
{ head -c 600 /dev/zero | tr '\000' '\377' && echo; } >long.rndf
{
    echo 'long.rndf:1:513: the line is over 512 bytes (2)'
    awk 'BEGIN { for (i = 0; i < 513; i++) line = line "\\xff"; print line; printf "%2048s^\n", "" }'
} >answer
compare 'a long line, told' answer long.rndf tell
printf 'goal.mdf:5:1: the goal is no checkpoint of the RNDF (15)\n8\n^\nmay stand here: a checkpoint of the RNDF: 7\n' >answer
compare 'yard A with goal 8, told' answer "$a/network.rndf" goal.mdf tell
echo accepted >answer
compare 'yard A, told' answer "$a/network.rndf" "$a/mission.mdf" tell
compare 'yard B, told' answer "$here/yard_b/network.rndf" tell
compare 'no RNDF, told' missing none.rndf tell

# what may stand where yard A was refused, and yard B: into enough bytes, into just enough and into one too few; nothing is told of bytes, and of what is accepted
# expects WORDS [--2006] NETWORK [MISSION]
expects() {
    words=$1
    shift
    if [ -n "$words" ]; then printf '%d\n%s\n' "${#words}" "$words"; else echo 0; fi >answer
    compare "'$words' of $*" answer "$@" expect 512
    compare "'$words' into just enough bytes" answer "$@" expect "${#words}"
    [ -n "$words" ] || return 0
    echo 'refused 0 0 19 0' >answer
    compare "'$words' into a byte too few" answer "$@" expect "$((${#words} - 1))"
    compare "'$words' into no bytes" answer "$@" expect 0
}
# changed SCRIPT: yard A by this script of sed; ordered SCRIPT: its mission
changed() { sed "$1" "$a/network.rndf" >changed.rndf; }
ordered() { sed "$1" "$a/mission.mdf" >ordered.mdf; }
may='may stand here:'
changed '6s/.*/end_segment/' && expects "$may lane 1.1, segment_name NAME" changed.rndf
expects "$may 1.1.3 LATITUDE LONGITUDE (1 such line is still owed)" count.rndf "$a/mission.mdf"
changed '7s/2/1/' && expects "$may 1.1.1" changed.rndf
changed '5s/1/0/' && expects "$may a number from 1 to 32768" changed.rndf
changed '5s/1/one/' && expects "$may a number from 1 to 32768" changed.rndf
changed '8s/checkpoint/chekpoint/'
expects "$may 1.1.1 LATITUDE LONGITUDE, lane_width NUMBER, left_boundary BOUNDARY, right_boundary BOUNDARY, checkpoint POINT NUMBER, stop POINT, exit POINT ENTRY" changed.rndf
expects "$may 1.1.1 LATITUDE LONGITUDE, left_boundary BOUNDARY, right_boundary BOUNDARY, checkpoint POINT NUMBER, stop POINT, exit POINT ENTRY" again.rndf
changed "9s/${tab}1.1.1//" && expects "$may exit POINT ENTRY (3 fields)" changed.rndf
changed '12s/$/ x/' && expects "$may end_lane (1 field)" changed.rndf
changed "9s/.*/exit${tab}1.2.2${tab}1.1/" && expects "$may X.Y.Z with X from 1 to 32768, Y from 0 to 32768, Z from 1 to 32768" changed.rndf
changed '10s/45.000000/45.00000/' && expects "$may a latitude from -90.000000 to 90.000000, six digits behind the point" changed.rndf
changed '10{h;d};11G' && expects "$may 1.1.1" changed.rndf
changed '14d' && expects "$may end_file" changed.rndf
expects "$may nothing but blank lines and comments, for the file has ended" behind.rndf
expects "$may 1.1.1 to 1.1.2" entry.rndf "$a/mission.mdf"
changed '8{p}' && expects "$may a number from 1 to 32768 that no line before declares" changed.rndf
ordered "9s/.*/1${tab}10${tab}5/" && expects "$may 0, or a number from 10 to 32768" "$a/network.rndf" ordered.mdf
ordered '2s/yard_a/yard_b/' && expects "$may yard_a" "$a/network.rndf" ordered.mdf
expects "$may a checkpoint of the RNDF: 7" "$a/network.rndf" goal.mdf
ordered '9s/1/2/' && expects "$may an id that has no limit yet: 1" "$a/network.rndf" ordered.mdf
ordered '8s/1/2/;9{p}' && expects "$may nothing, for every segment and zone has its limit" "$a/network.rndf" ordered.mdf
expects "$may double_yellow, solid_white, broken_white" --2006 yellow.rndf
expects "$may a number from 1 to 32768" --2006 "$here/yard_b/network.rndf" "$here/yard_b/mission.mdf"
sed "s/^num_speed_limits${tab}4/num_speed_limits${tab}2/; /^3${tab}/d; /^4${tab}/d" "$here/yard_b/mission.mdf" >ordered.mdf
expects 'without a limit: 3, 4' "$here/yard_b/network.rndf" ordered.mdf
changed '3s/$/\\/' && expects '' changed.rndf
expects '' long.rndf
echo accepted >answer
compare 'yard A, and nothing else may stand there' answer "$a/network.rndf" "$a/mission.mdf" expect
echo "$may end_file" >answer
changed '14d'
compare 'yard A without end_file, what may stand there' answer changed.rndf expect
compare 'no RNDF, and what may stand there' missing none.rndf expect
# whether a text begins as an MDF does
printf '\n/* round 1 */\r\n \tMDF_name round' >first.mdf
printf 'MDF_names\tround\n' >almost.mdf
echo 'a mission' >answer
compare 'the kind of a mission' answer "$a/mission.mdf" kind
compare 'the kind of one behind blank lines and a comment' answer first.mdf kind
echo 'no mission' >answer
compare 'the kind of a network' answer "$a/network.rndf" kind
compare 'the kind of MDF_names' answer almost.mdf kind
compare 'the kind of nothing' answer empty.packed kind

# document 01's cases, by the first line that a caller prints
if command -v python3 >/dev/null; then
    for caller in $callers; do
        printf '#!/bin/sh\n%s "%s" network.rndf mission.mdf | sed -n 1p\n' "${emulator:+\"$emulator\"}" "$work/$caller" >"$work/first_line"
        chmod +x "$work/first_line"
        if python3 "$root/tests/summary_cases.py" --command "$work/first_line" >"$work/cases"; then pass; else fail "$caller on tests/summary_cases.py"; fi
        sed "s/^/$caller on tests\/summary_cases.py: /" "$work/cases"
        # refusals in words, as the planners' program has to print them
        printf '#!/bin/sh\nexec %s "%s" "$@" tell\n' "${emulator:+\"$emulator\"}" "$work/$caller" >"$work/tell"
        chmod +x "$work/tell"
        if python3 "$root/tests/check_cases.py" --sentences "$work/tell" >"$work/cases"; then pass; else fail "$caller on tests/check_cases.py"; fi
        sed "s/^/$caller on tests\/check_cases.py: /" "$work/cases"
    done
    # the oracle's answers, number by number
    python3 "$root/tests/oracle/cases.py" "$work" >/dev/null
    python3 "$root/tests/oracle/generate.py" --count 2000 --seed 7 --directory "$work" >/dev/null
    for corpus in cases:expected random:random; do
        if ${emulator:+"$emulator"} "$work/corpus" <"$work/${corpus%:*}.bin" >"$work/printed" && cmp -s "$work/${corpus#*:}.txt" "$work/printed"; then
            pass
            echo "corpus.c: $(grep -c '^case ' "$work/printed") cases as the oracle has them"
        else
            fail "corpus.c on the oracle's ${corpus%:*}.bin"
        fi
    done
    # the look-up of lists, and how long it takes
    printf '#!/bin/sh\nexec %s "%s" "$@"\n' "${emulator:+\"$emulator\"}" "$work/lists" >"$work/lists.sh"
    chmod +x "$work/lists.sh"
    if python3 "$root/tests/lists.py" "$work/lists.sh" >"$work/printed"; then pass; else fail "lists.c beside the oracle"; fi
    tail -n 5 "$work/printed"
    "$work/lists.sh" time
else
    skip "tests/summary_cases.py and the oracle's corpus: there is no python3"
fi
echo "$passed passed, $failed failed, $skipped skipped"
[ "$failed" -eq 0 ]
