#!/bin/sh
# tests/install.sh [--target x86-64 | aarch64] [--built] [--install]
#
# Installs the library into a folder by tools/install.sh, as its own user would, and compiles a C program with what pkg-config says, as a program of its own, as a position independent one and as part of a
# shared library; runs each on yard A and on a damaged one. The same with DESTDIR. The last line is 'N passed, M failed'; the status is 0 if none failed.
# Needs a C compiler for the target and pkg-config (Debian: pkg-config): what is missing is said, and --install installs it.
set -eu
root=$(cd "$(dirname "$0")/.." && pwd -P)
. "$root/tests/need.sh"
options "$@"
shift "$taken"
[ $# -eq 0 ] || missing "usage: tests/install.sh [--target x86-64 | aarch64] [--built] [--install]"
need pkg-config pkg-config
find_compiler
find_library
work=$(mktemp -d)
trap 'rm -rf "$work"' EXIT
passed=0 failed=0
# holds LABEL COMMAND..
holds() {
    label=$1
    shift
    if "$@"; then passed=$((passed + 1)); else
        failed=$((failed + 1))
        echo "FAILED $label"
    fi
}
same() { [ "$1" = "$2" ] || { echo "'$1', and not '$2'"; return 1; }; }

cat >"$work/small.c" <<'C'
#include <kastepuhm.h>
#include <stdio.h>
#include <stdlib.h>

int small(const char *path);
int small(const char *path)
{
    static uint8_t text[8192], out[KASTEPUHM_SENTENCE_BYTES + 4];
    FILE *file = fopen(path, "rb");
    size_t length = file ? fread(text, 1, sizeof text, file) : 0, rows = kastepuhm_rows_for(text, length);
    uint32_t *words = malloc(KASTEPUHM_TABLES_WORDS(rows) * sizeof *words);
    kastepuhm_tables tables = kastepuhm_tables_in(words, rows);
    kastepuhm_answer answer = kastepuhm_read_rndf_into(KASTEPUHM_MARCH_2007, text, length, &tables);
    if (answer.accepted)
        printf("%s: %.*s, points %lu\n", KASTEPUHM_VERSION, (int)answer.rndf_name.length, (const char *)text + answer.rndf_name.start, (unsigned long)answer.points);
    else
        fwrite(out, 1, kastepuhm_sentence((const uint8_t *)"yard", 4, text, length, answer.line, (uint8_t)answer.number, answer.column, out, sizeof out), stdout);
    free(words);
    return answer.accepted ? 0 : 1;
}
C
printf 'int small(const char *path);\nint main(int count, char **words)\n{\n    return count == 2 ? small(words[1]) : 2;\n}\n' >"$work/main.c"
version=$(cat "$root/VERSION")
good=$root/crates/summary/data/network.rndf
bad=$root/crates/yard_check/data/network.rndf

"$root/tools/install.sh" "$work/here" --target "$target" --built >/dev/null
PKG_CONFIG_PATH=$work/here/lib/pkgconfig
export PKG_CONFIG_PATH
holds 'the version' same "$(pkg-config --modversion kastepuhm)" "$version"
flags=$(pkg-config --cflags kastepuhm)
libs=$(pkg-config --libs kastepuhm)
strict='-std=c11 -O2 -Wall -Wextra -Wpedantic -Wconversion -Werror'
# run PROGRAM FILE, with what it needs to find a shared library beside it
run() { (cd "$work" && LD_LIBRARY_PATH=$work ${emulator:+"$emulator"} "$@") || true; }
# programs for another machine are run without its shared libraries
ways='-static -static-pie'
[ -n "$emulator" ] || ways="-no-pie -pie $ways"
for way in $ways; do
    # shellcheck disable=SC2086
    "$compiler" $strict $flags -fPIE "$work/small.c" "$work/main.c" $libs $way -o "$work/small"
    holds "accepted, $way" same "$(run ./small "$good")" "$version: yard_a, points 2"
    holds "refused, $way" same "$(run ./small "$bad" | head -n 1)" 'yard:9:12: the entry is no declared lane waypoint or perimeter point (12)'
done
# shellcheck disable=SC2086
"$compiler" $strict $flags -fPIC -shared "$work/small.c" $libs -o "$work/libsmall.so"
if [ -z "$emulator" ]; then
    "$compiler" "$work/main.c" -L"$work" -lsmall -o "$work/small"
    holds 'accepted, by a shared library' same "$(run ./small "$good")" "$version: yard_a, points 2"
fi
DESTDIR=$work/staged "$root/tools/install.sh" /usr/local --target "$target" --built >/dev/null
holds 'DESTDIR' same "$(cd "$work/staged/usr/local" && find . -type f | LC_ALL=C sort | tr '\n' ' ')$(sed -n 's/^prefix=//p' "$work/staged/usr/local/lib/pkgconfig/kastepuhm.pc")" \
    './include/kastepuhm.h ./lib/libyard.a ./lib/pkgconfig/kastepuhm.pc /usr/local'
echo "$passed passed, $failed failed"
[ "$failed" -eq 0 ]
