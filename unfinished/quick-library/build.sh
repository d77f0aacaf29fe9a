#!/bin/bash
# build.sh TREE OUT.o: an UNPROVED build of TREE's library (every function of include/kastepuhm.h) for this machine, Arm, in seconds: as ../quick-bench/qb does it, with a shim that has the
# names of include/kastepuhm.h. Nothing is proved. For tests before the proofs are finished.
set -eu
here=$(cd "$(dirname "$0")" && pwd -P)
repo=$(cd "$1" && pwd -P)
out=$(realpath "$2")
home=${RATTLE_HOME:-$(dirname "$(dirname "$(readlink -f "$(command -v rt)")")")}
on=$home/on/$(uname -m)
w=$(mktemp -d)
trap 'rm -rf "$w"' EXIT
mkdir -p "$w/tc/bin" "$w/ir"
ln -s "$home/toolchain/lib" "$w/tc/lib"
for t in ld.lld llvm-ar; do ln -s "$on/toolchain/bin/$t" "$w/tc/bin/$t"; done
cat > "$w/tc/bin/clang" <<C
#!/bin/sh
n=\$(ls "$w/ir" | wc -l)
for a in "\$@"; do case \$a in *.ll|*.bc) cp "\$a" "$w/ir/\$n.bc";; esac; done
exec "$on/toolchain/bin/clang" "\$@"
C
chmod +x "$w/tc/bin/clang"
cd "$repo"
args=(--toolchain "$w/tc" "$here/main.rt" --crate-name perfmain --lib "std=$home/libs/std/src/lib.rt" --lib "yard=crates/yard/src/lib.rt")
for d in $(awk '/^yard:/{sub(/yard:/,"");print}' crates.txt); do args+=(--lib "$d=crates/$d/src/lib.rt"); done
"$on/bin/rattle-cases" "${args[@]}" > "$w/cases.out" 2>&1 || true
[ -f "$w/ir/1.bc" ] || { tail -30 "$w/cases.out"; exit 1; }
K=$on/toolchain/bin/clang
"$K" -x ir "$w/ir/1.bc" -S -emit-llvm -O0 -Xclang -disable-llvm-passes -o "$w/m.ll"
sed -E -e '/^define i32 @main\(\)/,/^}/d' -e '/^define internal void @"perfmain::main"/,/^}/d' -e 's/@"yard::kastepuhm_([a-z_]+)"/@"ours_\1"/g' "$w/m.ll" |
    sed -E -e 's/^define internal (.*)@"ours_/define \1@"ours_/' > "$w/ours.ll"
sed -e "s/^target triple = .*/target triple = \"aarch64-unknown-linux-gnu\"/" -e '/^target datalayout/d' -e 's/"target-cpu"="[^"]*"//g; s/"target-features"="[^"]*"//g; s/"tune-cpu"="[^"]*"//g' "$w/ours.ll" > "$w/arm.ll"
"$K" --target=aarch64-unknown-linux-gnu -O3 -ffunction-sections -fPIE -c -x ir "$w/arm.ll" -o "$w/ours.o"
gcc -std=c11 -O2 -Iinclude -c "$here/shim.c" -o "$w/shim.o"
ld -r "$w/ours.o" "$w/shim.o" -o "$out"
