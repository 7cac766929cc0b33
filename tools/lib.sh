# Shared by the outside tests, and read by samples/, bench/ and ./sweep as well. A script sets `set -eu`, reads this
# file, calls `begin NAME`, or `begin_test` if it is one of the outside tests, and ends through exactly one of ok,
# failed or skipped.
# shellcheck shell=sh

# Exit status of a skipped test; `tests/run` distinguishes it from a failure.
STATUS_SKIPPED=77

# begin NAME: names the test in its verdict line.
begin() {
    test_name=$1
    verdict_said=no
    # A script that stops early has compared nothing, whatever its status says.
    trap 'end_without_verdict $?' EXIT
}

end_without_verdict() {
    if [ "$verdict_said" = no ]; then
        echo "FAILED $test_name: stopped before it came to an answer (status $1)"
        exit 1
    fi
}

# begin_test: the same for the outside test in the folder $here, which names it. Sets $tests and $root, and the folders
# for what is made: $made for what several tests need, which is OUT or else target/tests, and $out in it for this test
# alone.
begin_test() {
    begin "${here##*/}"
    tests=$(dirname -- "$here")
    root=$(dirname -- "$tests")
    made=${OUT:-$root/target/tests}
    out=$made/$test_name
    mkdir -p "$out"
}

# Python keeps nothing among the sources.
export PYTHONDONTWRITEBYTECODE=1

# ok TEXT: the test passed; TEXT says what was compared.
ok() {
    verdict_said=yes
    echo "ok $test_name: $1"
    exit 0
}

# failed TEXT: the test failed.
failed() {
    verdict_said=yes
    echo "FAILED $test_name: $1"
    exit 1
}

# skipped TEXT: the test could not be run here.
skipped() {
    verdict_said=yes
    echo "skipped $test_name: $1"
    exit "$STATUS_SKIPPED"
}

# missing TEXT: something is missing that the test needs. Under CI every test must run, so there it is a failure.
missing() {
    [ "${CI:-}" != true ] || failed "$1"
    skipped "$1"
}

# ── tests that run at a time ──

# can_lock FOLDER: do locks work there? Where they do not, tests/run starts one test at a time.
can_lock() {
    command -v flock >/dev/null 2>&1 && [ -d "$1" ] && flock "$1" true 2>/dev/null
}

# lock FOLDER: waits until no other test is between this and `unlock` with that folder. A test that ends lets go of it.
lock() {
    can_lock "$1" || return 0
    exec 9<"$1"
    flock 9
}

unlock() {
    exec 9<&-
}

# digest: SHA-256 of standard input.
digest() {
    sha256sum | cut -d ' ' -f 1
}

# is_made_of FILE DIGEST: is the file as it was when `note_made FILE DIGEST` was called with the digest of what it is
# made of?
is_made_of() {
    [ -s "$1" ] && [ -s "$1.made_of" ] && [ "$(cat "$1.made_of")" = "$2 $(digest <"$1")" ]
}

note_made() {
    echo "$2 $(digest <"$1")" >"$1.made_of"
}

# ── tools ──

# The folder to lock while packages are installed: only one apt-get can run, and nobody should find a tool that is half
# installed.
PACKAGES=/var/lib/dpkg

apt_get() {
    DEBIAN_FRONTEND=noninteractive apt-get -qq "$@" >/dev/null 2>&1 9<&-
}

# install_package PACKAGE: quietly, and only where no question can be asked.
install_package() {
    [ "$(id -u)" -eq 0 ] || return 1
    command -v apt-get >/dev/null 2>&1 || return 1
    apt_get -y install --no-install-recommends "$1" && return 0
    # The lists may be missing or old on a fresh machine.
    apt_get update && apt_get -y install --no-install-recommends "$1"
}

# is_there NAME: the command, or the file if it is a path.
is_there() {
    case $1 in
        /*) [ -e "$1" ] ;;
        *) command -v "$1" >/dev/null 2>&1 ;;
    esac
}

# can_have NAME PACKAGE: is the command or file there? Installs the package if it is not.
can_have() {
    lock "$PACKAGES"
    is_there "$1" || install_package "$2" || true
    unlock
    is_there "$1"
}

# need_tool NAME PACKAGE: goes on if the command or file can be had.
need_tool() {
    can_have "$1" "$2" || missing "$1 is missing and could not be installed (package $2)"
}

# same_file KEPT MADE TEXT: fails with TEXT and shows the first lines that differ.
same_file() {
    cmp -s "$1" "$2" && return 0
    diff "$1" "$2" | head -n 6 >&2 || true
    failed "$3"
}

# ── the unchanged Rust ──

# SHA-256 of mips.rs as published; tests/oracle/README.md says where.
MIPS_RS_DIGEST=cc7f1dc8aed47efc72e2e2855794ba6a72bbe6121b7f11334d29b49f56f46db0

# How programs with the Rust in them are built. As one unit they are built sooner and run faster.
RUST_FLAGS="-O --edition 2021 -C codegen-units=1"

# check_published SOURCES: the folder's mips.rs is the published file.
check_published() {
    [ "$(digest <"$1/mips.rs")" = "$MIPS_RS_DIGEST" ] || failed "mips.rs is not the published file"
}

# build_oracle SOURCES FOLDER: the driver of tests/oracle around the unchanged Rust decoder, as FOLDER/oracle.
build_oracle() {
    check_published "$1"
    need_tool cc gcc
    need_tool rustc rustc
    mkdir -p "$2"
    lock "$2"
    of=$({ rustc -vV && cat "$1"/*.rs; } | digest)
    if ! is_made_of "$2/oracle" "$of"; then
        # shellcheck disable=SC2086
        rustc $RUST_FLAGS -o "$2/oracle" "$1/main.rs" 9<&- || failed "the driver does not build"
        note_made "$2/oracle" "$of"
    fi
    unlock
}

# need_driver: the driver as $driver, for an outside test.
need_driver() {
    driver=$made/driver/oracle
    build_oracle "$tests/oracle" "$made/driver"
}

# have_rustc: can the driver be built? A test whose answers are kept can do without; under CI need_driver will say what
# is missing.
have_rustc() {
    [ "${CI:-}" = true ] || can_have rustc rustc
}

# ── what `rt` builds ──

# need_program PROGRAM: goes on if `rt` has built the program. Without it there is nothing to compare; under CI `rt ci`
# has run before.
need_program() {
    [ -x "$1" ] && return 0
    missing "${1##*/} is not built; \`rt run\` in crates/${1##*/} proves and builds it"
}

# built_program ROOT PROGRAM: where `rt run` and `rt ci` put the program in the project ROOT.
built_program() {
    echo "$1/crates/$2/out/$2"
}

# build_program ROOT PROGRAM LOG: proves and builds it. `rt run` also runs it once, here with nothing to read; what it
# writes goes to LOG beside what `rt` says.
build_program() {
    (cd "$1/crates/$2" && rt run </dev/null) >"$3" 2>&1 9<&-
}

# Where the package libc6-amd64-cross puts the C library of x86-64.
X86_LIBC=/usr/x86_64-linux-gnu/lib
X86_LOADER=$X86_LIBC/ld-linux-x86-64.so.2

# need_x86: goes on if programs for x86-64, as `rt` builds them, can be run.
need_x86() {
    [ "$(uname -m)" = x86_64 ] && return 0
    need_tool qemu-x86_64 qemu-user
    need_tool "$X86_LOADER" libc6-amd64-cross
}

# run_x86 PROGRAM WORD..: runs a program for x86-64, on another machine in an emulator. `need_x86` comes first, outside
# any pipe, where it can end the test.
run_x86() {
    if [ "$(uname -m)" = x86_64 ]; then
        "$@"
    else
        qemu-x86_64 "$X86_LOADER" --library-path "$X86_LIBC" "$@"
    fi
}

# library_sources ROOT: everything that the result of tools/archive depends on.
library_sources() {
    (cd "$1" && rt version &&
        find crates.txt crates -name out -prune -o -type f -exec sha256sum {} + | LC_ALL=C sort)
}

# need_archive ROOT FOLDER: the library for C, proved and built by `rt` in the project ROOT, as $archive. What `rt` says
# goes to FOLDER. With CALMUREDDA_ARCHIVE another build of the library is tested.
need_archive() {
    archive=${CALMUREDDA_ARCHIVE:-$1/target/staticlib/libcalmuredda.a}
    [ -z "${CALMUREDDA_ARCHIVE:-}" ] || return 0
    command -v rt >/dev/null 2>&1 || missing "rt, the command of the Rattle kit, is not on the PATH"
    mkdir -p "$2" "$1/target/staticlib"
    lock "$1/target/staticlib"
    # Even where nothing has changed `rt` takes some twenty seconds.
    of=$(library_sources "$1" | digest)
    if ! is_made_of "$archive" "$of"; then
        "$1/tools/archive" >"$2/staticlib.txt" 2>&1 9<&- ||
            failed "the library is not proved; see $2/staticlib.txt"
        note_made "$archive" "$of"
    fi
    unlock
}

# need_x86_cc: a C compiler and linker for x86-64, the machine of the library, as $x86_cc.
need_x86_cc() {
    x86_cc=cc
    if [ "$(uname -m)" = x86_64 ]; then
        need_tool cc gcc
        return 0
    fi
    x86_cc=x86_64-linux-gnu-gcc
    need_tool $x86_cc gcc-x86-64-linux-gnu
    # The compiler's package only recommends the C library that programs are linked with.
    need_tool "$X86_LIBC/crt1.o" libc6-dev-amd64-cross
}
