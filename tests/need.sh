# Sourced by scripts that build for a machine; they set `root`, the repository's folder. What is missing ends the script with one sentence and status 2, which says what --install would install.
self=${0#"$root/"}
missing() {
    echo "$self: $*" >&2
    exit 2
}

# options WORDS..: takes the options in front of the words: `options "$@"; shift "$taken"`.
#   --target x86-64 | aarch64   sets `target`, the machine to build for; without it this one
#   --built                     sets `built`: the library as it was last built
#   --install                   sets `install`: what is missing is installed from Debian's packages
case $(uname -m) in x86_64) this=x86-64 ;; arm64) this=aarch64 ;; *) this=$(uname -m) ;; esac
target=$this built=no install=no
options() {
    taken=0
    while [ $# -gt 0 ]; do
        case $1 in
        --built) built=yes ;;
        --install) install=yes ;;
        --target)
            target=${2:-}
            [ $# -lt 2 ] || { shift && taken=$((taken + 1)); }
            ;;
        *) break ;;
        esac
        shift
        taken=$((taken + 1))
    done
    case $target in x86-64 | aarch64) ;; *) missing "there is no library for '$target' (--target x86-64 or aarch64)" ;; esac
}

# need COMMAND PACKAGE [COMMAND PACKAGE]..: these commands are there, or are installed where --install is given.
need() {
    lacking= packages=
    while [ $# -gt 1 ]; do
        if ! command -v "$1" >/dev/null 2>&1; then
            lacking="$lacking${lacking:+, }$1"
            packages="$packages${packages:+ }$2"
        fi
        shift 2
    done
    [ -n "$packages" ] || return 0
    [ "$install" = yes ] || missing "missing: $lacking; --install would run: apt-get install $packages"
    [ "$(id -u)" = 0 ] && command -v apt-get >/dev/null 2>&1 || missing "missing: $lacking; only root with apt-get can install $packages"
    echo "installing $packages, for $lacking" >&2
    # shellcheck disable=SC2086
    { apt-get update -qq && apt-get install -y -qq --no-install-recommends $packages; } >&2 || missing "apt-get could not install $packages"
}

# find_compiler: sets `compiler`, a C compiler for the target, `cxx`, one for C++ (perhaps none), `cxx_package`, where that is from, and `emulator`, what runs their programs: nothing on the machine itself,
# Debian's qemu-user for the other.
find_compiler() {
    emulator=
    cxx_package=g++
    if [ "$target" = "$this" ]; then
        compiler=$(command -v gcc || command -v clang || command -v cc || true)
        [ -n "$compiler" ] || { need gcc 'gcc libc6-dev' && compiler=gcc; }
        cxx=$(command -v g++ || command -v clang++ || true)
    elif [ "$target" = aarch64 ]; then
        need aarch64-linux-gnu-gcc 'gcc-aarch64-linux-gnu libc6-dev-arm64-cross' qemu-aarch64 qemu-user
        compiler=aarch64-linux-gnu-gcc
        emulator=$(command -v qemu-aarch64)
        cxx_package=g++-aarch64-linux-gnu
        cxx=$(command -v aarch64-linux-gnu-g++ || true)
    else
        need x86_64-linux-gnu-gcc 'gcc-x86-64-linux-gnu libc6-dev-amd64-cross' qemu-x86_64 qemu-user
        emulator=$(command -v qemu-x86_64)
        compiler=x86_64-linux-gnu-gcc
        cxx_package=g++-x86-64-linux-gnu
        cxx=$(command -v x86_64-linux-gnu-g++ || true)
    fi
}

# find_cxx: the C++ compiler of `find_compiler` is there.
find_cxx() {
    [ -n "$cxx" ] || { need "${compiler%gcc}g++" "$cxx_package" && cxx=${compiler%gcc}g++; }
}

# find_library: sets `library`, the proved library for the target. tools/library.sh makes it, where anything changed since it was made; with --built it is taken as it is.
find_library() {
    library=$root/target/lib/$target/libyard.a
    [ "$built" = yes ] || "$root/tools/library.sh" "$target" >&2 || exit 2   # it has said why
    [ -f "$library" ] || missing "$library is not built (tools/library.sh $target)"
}

# told_by_emulator: the times of an emulator say nothing, and that is said.
told_by_emulator() {
    [ -z "$emulator" ] || echo "$self: run by $emulator: the times below are the emulator's, and say nothing of the machine" >&2
}
