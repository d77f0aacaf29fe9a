#!/bin/sh
# tools/library.sh [--built] [x86-64 | aarch64 | wasm32]..
#
# The proved library for one or more machines, in target/lib/TARGET: libyard.a for C and Rust (x86-64 and aarch64 Linux; include/kastepuhm.h declares it), yard.wasm for a page (tools/page.sh).
# Without a word: all three.
#
# The kit proves the library and compiles it for x86-64 (any processor of it) and aarch64. It compiles no 32-bit WebAssembly: for that this script keeps the one module of LLVM code that the kit hands to its
# compiler for x86-64, and has the same compiler make code of it. Beyond what the x86-64 library rests on, it has to be believed of the page's module that the rewriting below changes nothing but the machine,
# and of both others LLVM's back ends (docs/DECISIONS.md, 'Other machines'). Needs the kit and nothing else.
#
# Where nothing changed since the library was proved (kit, crates: target/lib/yard.stamp, target/lib/aarch64.stamp), it is not proved again; with --built the last library and module are taken, whatever changed
# since.
set -eu
root=$(cd "$(dirname "$0")/.." && pwd -P)
lib=$root/target/lib
. "$root/tools/run.sh"
built=no
if [ "${1:-}" = --built ]; then
    built=yes
    shift
fi
[ $# -gt 0 ] || set -- x86-64 aarch64 wasm32
for target in "$@"; do
    case $target in x86-64 | aarch64 | wasm32) ;; *) stop "usage: tools/library.sh [--built] [x86-64 | aarch64 | wasm32].." ;; esac
done
find_kit
bin=$toolchain/bin
work=$(mktemp -d)
trap 'rm -rf "$work"' EXIT
mkdir -p "$lib"

# ---- the kit's own libraries

# make_kit: sets `shadow`, the kit again, by links, but for two things. Its `clang` keeps the module that it is given. And `rt`, which looks for its kit beside its own file, is a copy that works out only once which
# crates lie below each: the kit's own goes along every way through crates.txt each time it asks, of yard_c for minutes. What other copies of the repository on this machine kept, `rt` finds beside its kit.
mirror() { mkdir -p "$2" && for entry in "$1"/*; do ln -s "$entry" "$2/"; done; }
make_kit() {
    shadow=$work/kit
    [ ! -d "$shadow" ] || return 0
    mirror "$kit" "$shadow"
    for part in bin toolchain toolchain/bin; do rm "$shadow/$part" && mirror "$kit/$part" "$shadow/$part"; done
    rm "$shadow/toolchain/bin/clang" "$shadow/bin/rt" "$shadow/bin/rtlib.py"
    cat >"$shadow/toolchain/bin/clang" <<WRAPPER
#!/bin/sh
for word in "\$@"; do case \$word in *.bc | *.ll) cp "\$word" "$work/kept.bc" ;; esac; done
exec "$bin/clang" "\$@"
WRAPPER
    chmod +x "$shadow/toolchain/bin/clang"
    cp "$kit/bin/rt" "$shadow/bin/"
    sed 's/^    def below(self):$/    @functools.lru_cache(maxsize=None)\n&/' "$kit/bin/rtlib.py" >"$shadow/bin/rtlib.py"
    ln -s "$(dirname "$kit")/rattle-kept" "$work/rattle-kept"
}

# kit_library TARGET FLAG: has the kit prove the library (the crate `yard_c`: the exports, over `yard`) and compile it for TARGET
kit_library() {
    make_kit
    archive=$root/crates/yard_c/out/libyard_c.a
    rm -f "$archive"
    (cd "$root/crates/yard_c" && "$shadow/bin/rt" lib "$2") >&2 || stop "the kit did not prove and build yard_c"
    [ -s "$archive" ] || stop "the kit made no $archive (crates.txt has the line 'yard_c staticlib: ..')"
    mkdir -p "$lib/$1"
    cp "$archive" "$lib/$1/libyard.a"
}
keep_module() {
    kit_library x86-64 --cpu=x86-64
    [ -s "$work/kept.bc" ] || stop "the kit's compiler was given no module of yard_c"
    cp "$work/kept.bc" "$lib/yard.bc"
    chmod 644 "$lib/yard.bc"
}
make_aarch64() { kit_library aarch64 --target=aarch64-unknown-linux-gnu; }

# stamp_of SOURCES FILE..: that sum, and that of what was made of them.
stamp_of() { echo "$1" && shift && cat "$@" | sha256sum; }
# made FILE..: these are there
made() { for file; do [ -s "$file" ] || return 1; done; }
# provide NAME COMMAND FILE..: these files, made by COMMAND where anything changed since (target/lib/NAME.stamp); with --built as they are
provide() {
    stamp=$lib/$1.stamp make=$2
    shift 2
    if [ "$built" = yes ]; then
        for file; do made "$file" || stop "$file is not there: run this script without --built first"; done
        return 0
    fi
    before=$(sources)
    if made "$@" && [ -f "$stamp" ] && [ "$(stamp_of "$before" "$@")" = "$(cat "$stamp")" ]; then
        return 0
    fi
    rm -f "$stamp"
    "$make"
    # of sources that were changed in the meantime nothing is known
    [ "$(sources)" != "$before" ] || stamp_of "$before" "$@" >"$stamp"
}
# The module and the library for x86-64 are kept from one run, so that neither is older than the other.
of_x86_64() { provide yard keep_module "$lib/yard.bc" "$lib/x86-64/libyard.a"; }

# ---- the same module as WebAssembly

# open_module: the module as text, once, and what the other machines rest on. Sizes and places are numbers of bytes, and a slice is 16 of them, its pointer in the first 8 and its length in the last, on every
# machine; with 32-bit pointers the second 4 are never looked at, as long as no pointer is made of a number or read as one.
open_module() {
    [ ! -f "$work/yard.ll" ] || return 0
    "$bin/clang" --target=x86_64-unknown-linux-gnu -x ir "$lib/yard.bc" -S -emit-llvm -O0 -Xclang -disable-llvm-passes -o "$work/yard.ll"
    if grep -nE '(ptrtoint|inttoptr|addrspacecast|blockaddress|asm sideeffect|va_arg|<\{|@llvm\.x86)' "$work/yard.ll" >"$work/found"; then
        stop "the module has what this script does not know: $(head -n 3 "$work/found")"
    fi
    # (a place is followed by its name only, not through pointers into it)
    awk '
    /^define / { split("", holds); split("", read) }
    match($0, /^ *store ptr %[a-z0-9]+, ptr %[a-z0-9]+/) { word = substr($0, RSTART, RLENGTH); sub(/.* /, "", word); holds[word] = 1 }
    match($0, /= load i[0-9]+, ptr %[a-z0-9]+/) { word = substr($0, RSTART, RLENGTH); sub(/.* /, "", word); read[word] = NR }
    /^}/ { for (word in read) if (word in holds) { print read[word]; exit } }' "$work/yard.ll" >"$work/found"
    [ ! -s "$work/found" ] || stop "line $(cat "$work/found") of the module reads a number where a pointer is"
}

# retarget TRIPLE: nothing of x86-64's own
retarget() {
    sed -e "s/^target triple = .*/target triple = \"$1\"/" -e '/^target datalayout/d' -e 's/"target-cpu"="[^"]*"//g; s/"target-features"="[^"]*"//g; s/"tune-cpu"="[^"]*"//g' "$work/yard.ll"
}

# the kit's own flags for WebAssembly of 64 bits (`rt lib` hands them to its clang), but for the machine's name
flags="-mcpu=lime1 -mllvm -expand-div-rem-bits=64 -mllvm -expand-fp-convert-bits=64 -ffunction-sections -fdata-sections -mllvm -trap-unreachable -mllvm -no-x86-call-frame-opt -mllvm -disable-machine-licm
-mllvm -disable-postra-machine-licm -mllvm -sink-common-insts=false --no-default-config -no-canonical-prefixes -fintegrated-cc1 -fno-crash-diagnostics -Werror -O3"

# current FILE: made since the module and this script were
current() {
    [ "$built" = no ] && [ -f "$1" ] && [ -n "$(find "$1" -newer "$lib/yard.bc" -newer "$root/tools/library.sh")" ]
}

for target in "$@"; do
    mkdir -p "$lib/$target"
    case $target in
    x86-64) of_x86_64 ;;
    aarch64) provide aarch64 make_aarch64 "$lib/aarch64/libyard.a" ;;
    wasm32)
        of_x86_64
        ! current "$lib/$target/yard.wasm" || continue
        open_module
        retarget wasm32-unknown-unknown | sed 's/"probe-stack"="[^"]*"//g' >"$work/wasm.ll"
        # shellcheck disable=SC2086
        "$bin/clang" --target=wasm32-unknown-unknown $flags -c -x ir "$work/wasm.ll" -o "$work/wasm.o"
        ln -sf "$bin/clang" "$work/wasm-ld"
        exports=$(sed -n 's/^define .*@\(kastepuhm_[a-z_]*\)(.*/--export=\1/p' "$work/yard.ll" | sort -u)
        # The stack lies first, so that one too deep ends below address 0, where there is nothing. No function takes 16 KiB of it (tests/stack.py).
        # shellcheck disable=SC2086
        "$work/wasm-ld" -m wasm32 --no-entry --stack-first -z stack-size=65536 --export=__heap_base $exports --strip-all --gc-sections -O2 "$work/wasm.o" -o "$lib/$target/yard.wasm"
        ;;
    esac
    chmod 644 "$lib/$target"/*
    (cd "$lib/$target" && for file in *; do echo "target/lib/$target/$file: $(wc -c <"$file") bytes"; done)
done
