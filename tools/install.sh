#!/bin/sh
# tools/install.sh PREFIX [--target x86-64 | aarch64] [--built]
#
# Installs the library for C and C++ under PREFIX: include/kastepuhm.h, lib/libyard.a and lib/pkgconfig/kastepuhm.pc, so that `cc yours.c $(pkg-config --cflags --libs kastepuhm)` finds it (with
# PKG_CONFIG_PATH=PREFIX/lib/pkgconfig, where PREFIX is not a usual one). The library is made by tools/library.sh, where anything changed, unless --built is given. DESTDIR is put before PREFIX, as packagers expect.
set -eu
root=$(cd "$(dirname "$0")/.." && pwd -P)
. "$root/tests/need.sh"
usage="usage: tools/install.sh PREFIX [--target x86-64 | aarch64] [--built]"
case ${1:-} in /*) prefix=$1 ;; '' | -*) missing "$usage" ;; *) prefix=$PWD/$1 ;; esac
shift
options "$@"
shift "$taken"
[ $# -eq 0 ] || missing "$usage"
find_library
version=$(cat "$root/VERSION")

to=${DESTDIR:-}$prefix
mkdir -p "$to/include" "$to/lib/pkgconfig"
cp "$root/include/kastepuhm.h" "$to/include/"
cp "$library" "$to/lib/"
cat >"$to/lib/pkgconfig/kastepuhm.pc" <<PC
prefix=$prefix
includedir=\${prefix}/include
libdir=\${prefix}/lib

Name: kastepuhm
Description: The yard reader: route networks (RNDF) and missions (MDF), read by a proved library
Version: $version
Cflags: -I\${includedir}
Libs: -L\${libdir} -lyard
PC
chmod 644 "$to/include/kastepuhm.h" "$to/lib/libyard.a" "$to/lib/pkgconfig/kastepuhm.pc"
echo "kastepuhm $version for $target: $to/include/kastepuhm.h, $to/lib/libyard.a, $to/lib/pkgconfig/kastepuhm.pc"
