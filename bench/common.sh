# shellcheck shell=bash
# What bench/run and bench/stores have in common, for them to source: they go to the project's folder, say what is
# missing, and prove and build the libraries; but an archive that ADP_ARCHIVE (the calls) or NIGHTS_ARCHIVE (by value)
# names is taken as it is.
archive=${ADP_ARCHIVE:+$(realpath -m -- "$ADP_ARCHIVE")}
nights=${NIGHTS_ARCHIVE:+$(realpath -m -- "$NIGHTS_ARCHIVE")}
cd "$(dirname "${BASH_SOURCE[0]}")/.." || exit
out=target/bench

fail() {
    printf 'bench: %s\n' "$*" >&2
    exit 2
}

needs() { command -v "$1" >/dev/null || fail "$1 is missing: $2"; }

[ -z "$archive" ] || [ -f "$archive" ] || fail "there is no archive $archive"
[ -z "$nights" ] || [ -f "$nights" ] || fail "there is no archive $nights"
if [ -z "$archive" ] || [ -z "$nights" ]; then needs rt 'the Rattle toolchain is to be on the PATH'; fi
needs gcc 'the Debian package gcc has it'
compiler=gcc
if [ "$(uname -m)" != x86_64 ]; then
    # The libraries are for x86-64: what calls them is compiled for it, and run under an emulator.
    compiler=x86_64-linux-gnu-gcc
    needs "$compiler" 'the Debian package gcc-x86-64-linux-gnu has it'
fi

libraries() {
    mkdir -p "$out"
    if [ -z "$nights" ]; then
        tools/build bench_nights 2>"$out/nights.log" || fail "the library was not built: see $out/nights.log"
        nights=crates/bench_nights/out/libbench_nights.a
    fi
    if [ -z "$archive" ]; then
        board/build >"$out/board.log" 2>&1 || fail "the archive was not built: see $out/board.log"
        archive=target/staticlib/libboard.a
    fi
}

# A plug-in for qemu-user, which runs on this machine.
plugin() { # NAME
    gcc -O2 -Wall -Wextra -shared -fPIC -o "$out/$1.so" "bench/$1.c"
}
