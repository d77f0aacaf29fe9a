# Sourced by the `run-..` scripts and tools/library.sh, which set `root`, the repository's folder. The programs are compiled for x86-64 and run under the kit's loader
# and C library; the kit itself runs on x86-64 Linux alone. Whatever can't be done ends the script with status 2.
self=$(basename "$0")

stop() {
    echo "$self: $*" >&2
    exit 2
}

# Sets `kit`, its folder, and `toolchain`, the part of it with its compiler, loader and C library.
find_kit() {
    rt=$(command -v rt) || stop "the kit's rt is not in PATH"
    while [ -L "$rt" ]; do
        link=$(readlink "$rt")
        case $link in /*) rt=$link ;; *) rt=$(dirname "$rt")/$link ;; esac
    done
    kit=$(cd "$(dirname "$rt")/.." && pwd -P)
    toolchain=$kit/toolchain
    [ -x "$toolchain/bin/clang" ] || stop "$kit is no kit as this script knows it: it has no toolchain/bin/clang (the kit wanted is rattle-kit-13f)"
}

# below NAME: that crate and all crates below it, a line each, in the order in which `rt` builds them. A line of crates.txt has what its crate names, and not all that this rests on.
below() {
    awk -v name="$1" '
        function visit(n,    words, count, k) {
            if (!(n in rests) || seen[n]++) return
            count = split(rests[n], words, " ")
            for (k = 1; k <= count; k++) visit(words[k])
            print n
        }
        { sub(/#.*/, ""); i = index($0, ":") }
        i { n = substr($0, 1, i - 1); sub(/ .*/, "", n); rests[n] = substr($0, i + 1) }
        END { visit(name) }' "$root/crates.txt"
}

# show_progress NAME LOG: one line on standard error while `rt run` works for NAME, rewritten in place on a terminal, else a new one every ten crates. `rt` writes to its log a line for each crate
# that it begins to prove, one after the other, and none for a crate that was proved before.
show_progress() {
    needed=$(below "$1")
    all=$(echo "$needed" | wc -l)
    told=-1
    while kill -0 $$ 2>/dev/null; do
        now=$(sed -n 's/^rt: chose --jobs [0-9]* for //p' "$2" 2>/dev/null | tail -n 1)
        at=$(echo "$needed" | grep -nx "${now:-no crate}" | head -n 1)
        at=${at%%:*}
        line="proving ${at:-1} of $all${now:+: $now}"
        if [ -t 2 ]; then
            printf '\r\033[K%s' "$line" >&2
        elif [ $((${at:-1} / 10)) -ne "$told" ]; then
            told=$((${at:-1} / 10))
            echo "$line" >&2
        fi
        sleep 1
    done
}

# sources: the kit and every file of the crates but what `rt` made (out/), as one sum: what every program is made of.
sources() {
    (cd "$root" && { cat "$kit/KIT-ID" && find crates crates.txt -type d -name out -prune -o -type f -exec sha256sum {} + | LC_ALL=C sort; } | sha256sum)
}

# stamp NAME: that sum, and the program's own.
stamp() {
    sources
    sha256sum <"$root/crates/$1/out/$1"
}

# prove NAME: proves and builds the program NAME and what it rests on, unless it was built of just these sources and is as it was then (target/run/NAME). `rt run` does that, and then runs the
# program, here with no words and no input, in its crate's folder; what it says there does not matter. What the checker says goes to a log, which is named where it fails.
prove() {
    kept=$root/target/run/$1
    if [ -x "$root/crates/$1/out/$1" ] && [ -f "$kept" ] && [ "$(stamp "$1")" = "$(cat "$kept")" ]; then
        return 0
    fi
    rm -f "$kept"
    before=$(sources)
    mkdir -p "$root/target/log" "$root/target/run"
    log=$root/target/log/$self.log
    : >"$log"
    show_progress "$1" "$log" &
    watcher=$!
    # its status is the program's, where it came to run that
    (cd "$root/crates/$1" && rt run) >"$log" 2>&1 </dev/null || true
    kill "$watcher" 2>/dev/null || true
    wait "$watcher" 2>/dev/null || true
    [ ! -t 2 ] || printf '\r\033[K' >&2
    if ! grep -q "^rt: running out/$1;" "$log"; then
        grep -E '^(fn .*: (not proved|no proof)|rt: the library .* did not build)' "$log" >&2 || tail -n 3 "$log" >&2
        stop "$1 is not proved or built; what the checker said is in $log"
    fi
    # of sources that were changed in the meantime nothing is known
    [ "$(sources)" != "$before" ] || stamp "$1" >"$kept"
}

# find_program NAME: sets `program`, as it was last built.
find_program() {
    program=$root/crates/$1/out/$1
    [ -x "$program" ] || stop "$program is not built"
}

# run WORDS..: runs `program`.
run() {
    "$toolchain/lib/ld-linux-x86-64.so.2" --library-path "$toolchain/lib" "$program" "$@"
}

# is_refused ANSWER: it ends as a refusal does: with a number, with the caret under the line, or below these with what may stand there. That last line may itself end as an acceptance does, so this is asked
# before it.
is_refused() {
    case $1 in
        *"^
may stand here: "* | *" (10)
may stand here: "* | *"^
without a limit: "*) ;;
        *" ("*")" | *^) ;;
        *) return 1 ;;
    esac
}
