#!/bin/sh
# map.sh [--install]    the planners' map (run-map) against a reader that we did not write: GDAL. The page has its own test, tests/wasm.sh.
#
# Needs the program `yard_map` as last built (`./run-map`, or `rt run` in crates/yard_map), and Debian's package gdal-bin, which it installs with --install. Prints a line for each thing that holds; the status is 1 with the first
# that does not.
set -eu
root=$(cd "$(dirname "$0")/.." && pwd -P)
here=$root/tests/map
. "$root/tests/need.sh"
options "$@"
shift "$taken"
need ogrinfo gdal-bin
work=$(mktemp -d)
trap 'rm -rf "$work"' EXIT

"$root/run-map" --built "$root/crates/yard_map/data/network.rndf" >"$work/a.geojson"
cmp "$work/a.geojson" "$root/crates/yard_map/stdout"
echo "yard A: $(wc -c <"$work/a.geojson") bytes, as docs/GEOJSON.md has them"

# a refusal: nothing on standard output, the planners' words on standard error, status 1
printf 'RNDF_name\tx\n' >"$work/bad.rndf"
status=0
"$root/run-map" --built "$work/bad.rndf" >"$work/bad.out" 2>"$work/bad.err" || status=$?
[ "$status" = 1 ] && [ ! -s "$work/bad.out" ]
[ "$(cat "$work/bad.err")" = "$("$root/run-check" --built "$work/bad.rndf" || true)" ]
echo "a refusal: $(sed "s,$work/,," "$work/bad.err")"

# the edition of December 6, 2006 (L10) has no solid_yellow, and reads yard A as the present one does
sed '7a right_boundary\tsolid_yellow' "$root/crates/yard_map/data/network.rndf" >"$work/yellow.rndf"
"$root/run-map" --built "$work/yellow.rndf" >/dev/null
status=0
"$root/run-map" --built --edition 2006 "$work/yellow.rndf" >"$work/bad.out" 2>"$work/bad.err" || status=$?
[ "$status" = 1 ] && [ ! -s "$work/bad.out" ]
[ "$(cat "$work/bad.err")" = "$("$root/run-check" --built --edition 2006 "$work/yellow.rndf" || true)" ]
"$root/run-map" --built --edition 2006 "$root/crates/yard_map/data/network.rndf" | cmp - "$root/crates/yard_map/stdout"
echo "the edition of 2006: $(sed "s,$work/,," "$work/bad.err")"

python3 "$here/big_yard.py" >"$work/big.rndf"
"$root/run-map" --built "$work/big.rndf" >"$work/yard.geojson"
python3 "$here/gdal_test.py" "$work/yard.geojson" "$work"
