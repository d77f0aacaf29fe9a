#!/bin/bash
set -eu
repo=$(cd "$1" && pwd -P); out=$(realpath "$2")
home=${RATTLE_HOME:-$(dirname "$(dirname "$(readlink -f "$(command -v rt)")")")}
on=$home/on/$(uname -m); w=$(mktemp -d); trap 'rm -rf "$w"' EXIT
mkdir -p "$w/tc/bin" "$w/ir"
ln -s "$on/toolchain/lib" "$w/tc/lib" 2>/dev/null || ln -s "$home/toolchain/lib" "$w/tc/lib"
for t in ld.lld llvm-ar; do ln -s "$on/toolchain/bin/$t" "$w/tc/bin/$t"; done
cat > "$w/tc/bin/clang" <<C
#!/bin/sh
n=\$(ls "$w/ir" | wc -l)
for a in "\$@"; do case \$a in *.ll|*.bc) cp "\$a" "$w/ir/\$n.bc";; esac; done
exec "$on/toolchain/bin/clang" "\$@"
C
chmod +x "$w/tc/bin/clang"
cd "$repo"; root=$repo; . tools/run.sh
args=(--toolchain "$w/tc" /work/h/tryb/main.rt --crate-name perfmain --lib "std=$home/libs/std/src/lib.rt")
for d in $(below expected); do [ -d crates/$d ] && args+=(--lib "$d=crates/$d/src/lib.rt"); done
"$on/bin/rattle-cases" "${args[@]}" > "$w/cases.out" 2>&1 || true
ls "$w/ir"; [ -f "$w/ir/1.bc" ] || { tail -30 "$w/cases.out"; exit 1; }
K=$on/toolchain/bin/clang
"$K" -x ir "$w/ir/1.bc" -S -emit-llvm -O0 -Xclang -disable-llvm-passes -o "$w/m.ll"
grep -n 'define.*perfmain::ours' "$w/m.ll"
sed -E -e '/^define i32 @main\(\)/,/^}/d' -e '/^define internal void @"perfmain::main"/,/^}/d' -e 's/@"perfmain::ours"/@"ours_expected"/g' "$w/m.ll" | sed -E -e 's/^define internal (.*)@"ours_/define \1@"ours_/' > "$w/ours.ll"
"$K" -O2 -ffunction-sections -fPIE -c -x ir "$w/ours.ll" -o "$out"
