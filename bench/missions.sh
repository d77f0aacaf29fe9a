#!/bin/sh
# bench/missions.sh [--target x86-64 | aarch64] [--built] [--install] [CASE]
#
# Times whether missions can be driven (kastepuhm_check_mission, request L13, which reads the pair first) beside the reading of the same pair (kastepuhm_read_pair): a yard of about 1 MB with
# 500 goals, a zone of 98,304 points with 1,000 goals and with all, a lane of 32,768 points and exits that is entered at every point, from the last to the first, two goals in turn, 32,768 of
# them, and few and many goals on a network of 16 MB (bench/missions.c has the shapes). Prints points, exits, goals, and how long reading and checking take, in milliseconds of processor time;
# with a CASE, as `zone`, that one alone.
# Machine, library and what it needs: as bench/run.sh.
set -eu
root=$(cd "$(dirname "$0")/.." && pwd -P)
here=$root/bench
work=$(mktemp -d)
trap 'rm -rf "$work"' EXIT
. "$root/tests/need.sh"
options "$@"
shift "$taken"
find_compiler
find_library
"$compiler" -std=c11 -O2 -Wall -Wextra -static -I"$root/include" "$here/missions.c" "$library" -o "$work/missions"
told_by_emulator
${emulator:+"$emulator"} "$work/missions" "$@"
