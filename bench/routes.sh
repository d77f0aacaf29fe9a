#!/bin/sh
# bench/routes.sh [--target x86-64 | aarch64] [--built] [--install]
#
# Times the judging of routes (kastepuhm_check_route, which reads the pair first) beside the reading of the same pair (kastepuhm_read_pair), on networks of about 16 MB and routes of up to
# 1,000,000 steps, and on a lane with 32,768 exits written out of order and routes of up to 100,000 steps that are all along them (bench/routes.c has the shapes). Prints how long
# reading and judging take, and what a step costs beyond the reading: it should not grow with the route.
# Machine, library and what it needs: as bench/run.sh.
set -eu
root=$(cd "$(dirname "$0")/.." && pwd -P)
here=$root/bench
work=$(mktemp -d)
trap 'rm -rf "$work"' EXIT
. "$root/tests/need.sh"
options "$@"
shift "$taken"
find_compiler
find_library
"$compiler" -std=c11 -O2 -Wall -Wextra -static -I"$root/include" "$here/routes.c" "$library" -o "$work/routes"
told_by_emulator
${emulator:+"$emulator"} "$work/routes"
