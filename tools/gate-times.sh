#!/usr/bin/env bash
# tools/gate-times.sh [--file FILE] [--again] COMMIT..
#
# For commits of before issue 47, with the kit of their time (rattle-kit-5b) in PATH, whose gate proved everything from nothing. Today's `rt ci` keeps what passed on this machine and proves only what changed since, so that
# what this script would take of a later commit is no time of a gate; `rt ci --anew` at its top, with nothing else running, is.
#
# The gate of each of these commits by itself, one after the other: a clone of its own, `.ci/run` there, and a line in FILE (docs/gate-times.tsv) and on standard output:
#   commit, passed, failed, seconds on the clock, seconds of processor time (user and system, of everything below it), seconds that everything else took meanwhile, the kind of machine, which one, the kit
# Run it with nothing else running: it waits until nothing is (ten minutes at most), and what everything else took while the gate ran, other guests of the same host counted in, says whether that stayed so.
# It goes on where it was stopped: what has a line in FILE for this kind of machine and this kit is not run again; with --again only what has one from this very machine since its start. What a gate printed stays in
# target/gate-times/COMMIT.log. Ten minutes to half an hour to a commit on two cores.
# A gate that ends without its last line 'N passed, M failed' has '-' for both (as of a commit whose layout another kit lays out otherwise: see its log).
set -eu
root=$(cd "$(dirname "$0")/.." && pwd -P)
usage() {
    echo "usage: tools/gate-times.sh [--file FILE] [--again] COMMIT.." >&2
    exit 2
}
file=$root/docs/gate-times.tsv
again=
while [ $# -gt 0 ]; do
    case $1 in
    --file) [ $# -ge 2 ] || usage && file=$2 && shift 2 ;;
    --again) again=1 && shift ;;
    -*) usage ;;
    *) break ;;
    esac
done
[ $# -gt 0 ] || usage
mkdir -p "$(dirname "$file")"
file=$(cd "$(dirname "$file")" && pwd -P)/$(basename "$file")
touch "$file"
logs=$root/target/gate-times
mkdir -p "$logs"
machine=$(uname -m)$(awk -F': ' '/^model name/ { print " " $2; exit }' /proc/cpuinfo)$(printf ' x%d' "$(nproc)")
which=$(cut -c 1-8 /proc/sys/kernel/random/boot_id)
kit=$(rt version)

commits=()
for word in "$@"; do
    commits+=("$(git -C "$root" rev-parse --short=7 --verify "$word^{commit}")") || exit 2
done

# Hundredths of a second that the machine's cores were busy since its start, or lent to other guests of its host.
busy() { awk '/^cpu / { print $2 + $3 + $4 + $7 + $8 + $9 }' /proc/stat; }
quiet() { [ $(($(sleep 5 && busy) - $1)) -lt 25 ]; }

run() { (cd "$1" && bash .ci/run) </dev/null || true; }

# gate COMMIT: its line
gate() {
    work=$(mktemp -d "${GATE_FOLDER:-/tmp}/gate.XXXXXX")
    trap 'rm -rf "$work"' EXIT
    git clone -q "$root" "$work/tree"
    git -C "$work/tree" checkout -q --detach "$1"
    for _ in $(seq 120); do quiet "$(busy)" && break; done
    log=$logs/$1.log
    TIMEFORMAT='%R %U %S'
    before=$(busy)
    { time run "$work/tree" >"$log" 2>&1; } 2>"$work/times"
    after=$(busy)
    last=$(grep -E '^[0-9]+ passed, [0-9]+ failed$' "$log" | tail -n 1)
    read -r wall user system <"$work/times"
    numbers=$(awk -v wall="$wall" -v user="$user" -v sys="$system" -v all=$((after - before)) 'BEGIN { printf "%d\t%d\t%d", wall + 0.5, user + sys + 0.5, all / 100 - user - sys }')
    printf '%s\t%s\t%s\t%s\t%s\t%s\t%s\n' "$1" "$(echo "${last:--}" | cut -d ' ' -f 1)" "$(echo "${last:-- - -}" | cut -d ' ' -f 3)" "$numbers" "$machine" "$which" "$kit"
    rm -rf "$work"
    trap - EXIT
}

for commit in "${commits[@]}"; do
    if awk -F '\t' -v c="$commit" -v m="$machine" -v w="${again:+$which}" -v k="$kit" '$1 == c && $7 == m && (w == "" || $8 == w) && $9 == k { found = 1 } END { exit !found }' "$file"; then
        echo "$commit: has its line" >&2
        continue
    fi
    line=$(gate "$commit")
    printf '%s\n' "$line" | tee -a "$file"
done
