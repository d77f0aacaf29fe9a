#!/bin/sh
# tests/missions.sh [--target x86-64 | aarch64] [--built] [--install] [COUNT | all] [SEED]
#
# "L5 has a good route exactly when this, given the room, accepts" (request L13), tried out: asks the library whether missions can be driven (kastepuhm_check_mission), holds the answer to what
# the library itself says of routes (kastepuhm_check_route), and both to the independent implementation in tests/oracle. 2,000 missions of each sort, or COUNT, from SEED (1 if not given):
#   legs   random yards: where the mission can be driven, a route put together of a shortest chain to each goal has to be good; where goal k can't be reached, the mission without it and those
#          behind it can be driven, so
#   large  yards of up to 150,000 points, one for every 50 of the others, likewise
#   tiny   yards of up to five points, every list of points of up to so many places as a shortest good route can need: some is good exactly where the mission can be driven
# With `all`, every mission of one or two goals over the tiny yards, with every set of exits. tests/damage/ways.py says it more exactly. tests/damage.sh compares the answers of many more
# missions with the oracle's, and the lent tables and work space.
# Printed: how often each answer came, how many lists were tried, each case that differs (five at most); the last line is 'seed S: N missions, K differ'; the status is 0 if none differs.
#
# Target, library and what it needs: as tests/damage.sh. Runs on all cores that it may use.
set -eu
root=$(cd "$(dirname "$0")/.." && pwd -P)
. "$root/tests/need.sh"
options "$@"
shift "$taken"
count=${1:-2000}
case ${count#all}${2:-} in *[!0-9]*) missing "usage: tests/missions.sh [--target x86-64 | aarch64] [--built] [--install] [COUNT | all] [SEED]" ;; esac
work=$(mktemp -d)
trap 'rm -rf "$work"' EXIT

need python3 python3
find_compiler
find_library
"$compiler" -std=c11 -O2 -Wall -Wextra -Wpedantic -Wconversion -Werror -static -I"$root/include" "$root/tests/damage/ways.c" "$library" -o "$work/ways.$target"
printf '#!/bin/sh\nexec %s "%s"\n' "${emulator:+\"$emulator\"}" "$work/ways.$target" >"$work/ways"
chmod +x "$work/ways"
python3 "$root/tests/damage/ways.py" "$work/ways" "$count" "${2:-1}"
