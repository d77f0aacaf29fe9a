#!/bin/sh
# tools/page.sh [--install]
#
# The planners' page in one file, target/page/yard.html: the reader (target/lib/wasm32/yard.wasm, which `tools/library.sh wasm32` writes), the editor and the map. It can be mailed and works from a double
# click, without a server or a network (docs/PAGE.md). Run twice on the same sources it gives the same bytes.
#
# Needs python3 and Debian's packages libjs-codemirror and libjs-leaflet; what is missing it names, and installs with --install.
set -eu
root=$(cd "$(dirname "$0")/.." && pwd -P)
stop() { echo "tools/page.sh: $*" >&2; exit 2; }
missing=
[ -e /usr/share/javascript/codemirror/codemirror.js ] || missing="$missing libjs-codemirror"
[ -e /usr/share/javascript/leaflet/leaflet.min.js ] || missing="$missing libjs-leaflet"
command -v python3 >/dev/null 2>&1 || missing="$missing python3"
if [ -n "$missing" ]; then
    [ "${1:-}" = --install ] || stop "missing:$missing (Debian's packages); tools/page.sh --install installs them"
    # shellcheck disable=SC2086
    { apt-get update -qq && apt-get install -y -qq --no-install-recommends $missing; } >&2
fi
module=$root/target/lib/wasm32/yard.wasm
[ -s "$module" ] || stop "$module is not there: tools/library.sh wasm32 writes it"
version=$(cat "$root/VERSION" 2>/dev/null || echo unreleased)
mkdir -p "$root/target/page"
python3 "$root/tools/page.py" "$root/page" "$module" "$version" "$root/target/page/yard.html"
