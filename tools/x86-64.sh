# How this machine builds and runs programs for x86-64: those that link the archive, and those that rt built. Sourced, not run.
#
#   build_rust MAIN PROGRAM [C]   a Rust program, with the archive and a C file that includes the header
#   build_c FILE PROGRAM          a C program, with the archive and the header
#   run_built PROGRAM ARG..       runs what one of the two built
#   build_archive                 proves the exported functions and writes the archive; a static library is named after its crate, the archive after the header
#   build_proved NAME             proves and builds the program of the crate NAME, and runs it with nothing on standard input
#   run_proved NAME               runs the program of the crate NAME, which rt has built
#   emulated                      whether the code is emulated, so that its times say nothing
#   lacking TOOL..                prints those that are not there, a line for each
#   c_lacks, rust_lacks           print what is missing to build and run a C program, or a Rust program; a line for each
#   can_run WHAT LACKS..          whether nothing is missing for it. What is missing is told in a line `not run: WHAT, ..`
#   install_x86_64                installs what is missing, or says what it could not; asked for by `--install`, or where CI is set

archive=target/staticlib/libstrumelka.a
built=target/library

toolchain=$(dirname "$(rt doc)")/toolchain
loader=("$toolchain/lib/ld-linux-x86-64.so.2" --library-path "$toolchain/lib")

if [ "$(uname -m)" = x86_64 ]; then
    rust_compiler=(rustc)
    c_compiler=(cc)
    runner=()
    proved_runner=("${loader[@]}")
else
    rust_compiler=(/usr/bin/rustc --target x86_64-unknown-linux-gnu -C linker=x86_64-linux-gnu-gcc)
    c_compiler=(x86_64-linux-gnu-gcc)
    runner=(qemu-x86_64 "${loader[@]}")
    proved_runner=("${runner[@]}")
fi

emulated() {
    [ "$(uname -m)" != x86_64 ]
}

lacking() {
    local tool
    for tool in "$@"; do
        command -v "$tool" >/dev/null || echo "$tool"
    done
}

c_lacks() {
    lacking "${c_compiler[0]}" "${runner[@]:0:1}"
}

# Rust links by the C compiler.
rust_lacks() {
    lacking "${rust_compiler[0]}"
    if command -v "${rust_compiler[0]}" >/dev/null && ! ls "$("${rust_compiler[@]}" --print target-libdir)"/libstd-* >/dev/null 2>&1; then
        echo "Rust's library for x86-64"
    fi
    c_lacks
}

can_run() {
    local what=$1 missing
    shift
    missing=$(printf '%s\n' "$@" | sed '/^$/d' | paste -sd, | sed 's/,/, /g')
    if [ -n "$missing" ]; then
        echo "not run: $what, for want of $missing"
        return 1
    fi
}

# Debian's compilers for x86-64, its Rust library for x86-64 and, on another processor, its emulator.
install_x86_64() {
    [ -n "$(rust_lacks)" ] || return 0
    local packages=(rustc gcc libc6-dev)
    if emulated; then
        packages=(rustc libstd-rust-dev:amd64 gcc-x86-64-linux-gnu libc6-dev-amd64-cross qemu-user)
    fi
    if [ "$(id -u)" != 0 ] || ! command -v apt-get >/dev/null; then
        echo "could not install ${packages[*]}: that takes root and apt-get" >&2
        return 1
    fi
    if ! apt_install "${packages[@]}" >&2; then
        echo "could not install ${packages[*]}" >&2
        return 1
    fi
    if [ -n "$(rust_lacks)" ]; then
        echo "installed ${packages[*]}, and still could not find $(rust_lacks | paste -sd' ')" >&2
        return 1
    fi
}

apt_install() {
    if emulated; then
        dpkg --add-architecture amd64 || return
    fi
    apt-get update && apt-get install -y --no-install-recommends "$@"
}

# What rustc is asked for beside this: nothing, unless a script says so.
rust_flags=()

c_flags=(-std=c11 -Wall -Wextra -Werror -O2 -I include)

build_rust() {
    local main=$1 program=$2 file=${3:-} objects=()
    mkdir -p "$built"
    if [ -n "$file" ]; then
        "${c_compiler[@]}" "${c_flags[@]}" -c -o "$program.o" "$file"
        objects=(-C "link-arg=$program.o")
    fi
    "${rust_compiler[@]}" --edition 2021 -C opt-level=3 "${rust_flags[@]}" "${objects[@]}" -C "link-arg=$archive" -o "$program" "$main"
}

build_c() {
    mkdir -p "$built"
    "${c_compiler[@]}" "${c_flags[@]}" -o "$2" "$1" "$archive"
}

run_built() {
    "${runner[@]}" "$@"
}

build_archive() {
    (cd crates/strumelka_c && rt lib) || return
    mkdir -p "$(dirname "$archive")"
    cp crates/strumelka_c/out/libstrumelka_c.a "$archive"
}

build_proved() {
    (cd "crates/$1" && rt run </dev/null)
}

run_proved() {
    "${proved_runner[@]}" "crates/$1/out/$1"
}
