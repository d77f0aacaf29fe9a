#!/bin/sh
# tests/wasm.sh [--install] [--built] [damage | glue | chromium | firefox]..
#
# The library as a WebAssembly module and the planners' page around it (docs/PAGE.md). Without a word all four:
#   damage     tests/damage/compare.py on the module (tests/page/reader.js in node): 4,000 pairs and what goes with them, or COUNT, from SEED (1): reply, names, tables, output, what lies beside them;
#              and tests/damage/expected.py, what may stand where 1,000 pairs (or EXPECTED) and the places of the hand-written yards were refused
#   glue       the reader's worker as it stands in the page, in node, on the planners' programs' cases and 2,000 pairs (PAIRS): replies, sentences, what may stand there, writings, mended texts, driving, lines
#   chromium   the page from file://, driven as a planner would, texts of 16 MB among what is opened; pictures go to target/page/pictures: look at them
#   firefox    a smaller run
# Before them the page is built twice and has to have the same bytes. Prints what each part prints last, and 'N passed, M failed'; the status is 0 if none failed.
#
# Builds the library first (tools/library.sh wasm32), unless --built is given. Needs Debian's packages nodejs, python3, gcc, chromium, firefox-esr, libjs-codemirror and libjs-leaflet: what is missing it names, and installs
# with --install. Time on two cores shared with eight others: 10 to 13 minutes for `damage`, 3 for `glue`, 3 for the browsers.
set -eu
root=$(cd "$(dirname "$0")/.." && pwd -P)
stop() { echo "tests/wasm.sh: $*" >&2; exit 2; }
install=no
built=no
while :; do
    case ${1:-} in
        --install) install=yes ;;
        --built) built=yes ;;
        *) break ;;
    esac
    shift
done
[ $# -gt 0 ] || set -- damage glue chromium firefox
missing=
for pair in node:nodejs python3:python3 cc:gcc chromium:chromium firefox-esr:firefox-esr; do
    command -v "${pair%%:*}" >/dev/null 2>&1 || missing="$missing ${pair#*:}"
done
[ -e /usr/share/javascript/codemirror/codemirror.js ] || missing="$missing libjs-codemirror"
[ -e /usr/share/javascript/leaflet/leaflet.min.js ] || missing="$missing libjs-leaflet"
if [ -n "$missing" ]; then
    [ "$install" = yes ] || stop "missing:$missing (Debian's packages); tests/wasm.sh --install installs them"
    # shellcheck disable=SC2086
    { apt-get update -qq && apt-get install -y -qq --no-install-recommends $missing; } >&2
fi
[ "$built" = yes ] || "$root/tools/library.sh" wasm32 >&2
module=$root/target/lib/wasm32/yard.wasm
page=$root/target/page/yard.html
pictures=$root/target/page/pictures
work=$(mktemp -d)
trap 'rm -rf "$work"' EXIT
passed=0
failed=0
counted() {
    if "$@" >"$work/out" 2>&1; then passed=$((passed + 1)); else failed=$((failed + 1)); fi
}

build_twice() { "$root/tools/page.sh" && cp "$page" "$work/first.html" && "$root/tools/page.sh" >/dev/null && cmp "$page" "$work/first.html"; }
counted build_twice
cat "$work/out"

for part; do
    case $part in
        damage)
            printf '#!/bin/sh\nexec node "%s" "%s"\n' "$root/tests/page/reader.js" "$module" >"$work/reader"
            chmod +x "$work/reader"
            counted python3 "$root/tests/damage/compare.py" "$work/reader" "${COUNT:-4000}" "${SEED:-1}"
            grep -E '^(DIFFERS|never came|seed)' "$work/out" || tail -n 5 "$work/out"
            counted python3 "$root/tests/damage/expected.py" "$work/reader" "${EXPECTED:-1000}" "${SEED:-1}"
            grep -E '^(DIFFERS|did not come|seed)' "$work/out" || tail -n 5 "$work/out"
            ;;
        glue)
            counted python3 "$root/tests/page/glue.py" "$page" "${PAIRS:-2000}" "${SEED:-1}"
            tail -n 20 "$work/out"
            ;;
        chromium)
            mkdir -p "$work/large"
            cc -O2 -I"$root/bench" "$root/tests/page/texts_out.c" "$root/bench/texts.c" -o "$work/texts_out"
            "$work/texts_out" 16700000 "$work/large"
            counted python3 "$root/tests/page/page_test.py" "$page" "$pictures" "$work/large"
            tail -n 30 "$work/out"
            ;;
        firefox)
            counted python3 "$root/tests/page/firefox.py" "$page" "$pictures"
            tail -n 20 "$work/out"
            ;;
        *) stop "usage: tests/wasm.sh [--install] [--built] [damage | glue | chromium | firefox].." ;;
    esac
done
echo "$passed passed, $failed failed"
[ "$failed" = 0 ]
