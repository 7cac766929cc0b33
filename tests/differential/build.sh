# Shared by tests/differential and tests/exhaustive: Rust programs for x86-64, the machine of the library, linked with
# it. Read after tools/lib.sh.
# shellcheck shell=sh

X86_TARGET=x86_64-unknown-linux-gnu

# x86_rust WORD..: $x86_rustc, always for x86-64, so that the library is never linked into a program for another
# machine.
x86_rust() {
    # shellcheck disable=SC2086
    "$x86_rustc" $RUST_FLAGS --target "$X86_TARGET" -C linker="$x86_cc" "$@"
}

# builds_x86 FOLDER: does $x86_rustc build programs for x86-64 that can be run?
builds_x86() {
    echo 'fn main() {}' >"$1/empty.rs"
    x86_rust -o "$1/empty" "$1/empty.rs" >"$1/empty.txt" 2>&1 && run_x86 "$1/empty" >>"$1/empty.txt" 2>&1
}

# install_debian_rust: Debian's rustc, and its library for x86-64 on a machine that is none.
install_debian_rust() {
    [ "$(id -u)" -eq 0 ] || return 1
    command -v dpkg >/dev/null 2>&1 || return 1
    dpkg --add-architecture amd64 >/dev/null 2>&1 || return 1
    install_package rustc && install_package libstd-rust-dev:amd64
}

# need_x86_rust FOLDER: a rustc that builds for x86-64, as $x86_rustc, and what it takes to run its programs.
need_x86_rust() {
    need_x86
    need_x86_cc
    need_tool rustc rustc
    mkdir -p "$1"
    x86_rustc=rustc
    builds_x86 "$1" && return 0
    if [ "$(uname -m)" != x86_64 ]; then
        # Another rustc may stand first on the PATH; the library that is installed is for Debian's.
        x86_rustc=/usr/bin/rustc
        lock "$PACKAGES"
        install_debian_rust || true
        unlock
        builds_x86 "$1" && return 0
    fi
    missing "no rustc that builds for x86-64 can be had (Debian's with libstd-rust-dev:amd64 does); see $1/empty.txt"
}

# build_linked SOURCE PROGRAM: builds the program around the unchanged Rust and links it with $archive.
build_linked() {
    check_published "$tests/oracle"
    [ -s "$archive" ] || failed "the library is missing: $archive"
    x86_rust -C link-arg="$archive" -o "$2" "$1" || failed "${2##*/} does not build"
}
